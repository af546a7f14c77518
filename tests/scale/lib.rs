// SPDX-License-Identifier: MIT OR Apache-2.0
//! The module and the library in one process, on the same cases: every question, sample, state, count and refusal, and every byte of the
//! buffers, written and not written; runs put away and taken up, damaged forms, accelerations between samples, and whole-second starts with their
//! costs, against a second writing of W-201, W-202, W-203, W-206 and W-207. Cases come on standard input, as `oracle cases` writes them, tolerances of
//! any value among them; the tampering, the whole-second starts and the rooms come from a seed.
#[path = "../../oracle/src/force.rs"]
mod force;
#[path = "../../oracle/src/random.rs"]
mod random;
#[path = "../../bindings/rust/src/raw.rs"]
mod raw;
#[path = "../../tools/with_acceleration.rs"]
mod with_acceleration;

mod away;
#[cfg(feature = "dense")]
mod between;
mod case;
mod check;
mod costs;
mod counting;
mod damage;
mod follow;
mod judge;
mod layout;
mod near;
mod played;
mod pull;
mod questions;
mod record;
mod refused;
mod room;
mod rooms;
mod starts;
mod stored;
mod tally;
mod tamper;
mod tray;
mod whole;
mod whole_tally;

include!(concat!(env!("OUT_DIR"), "/module.rs"));

use case::Case;
use judge::Judge;
use random::Random;
use std::io::BufRead;
use std::time::Instant;
use tally::Tally;

/// What is asked for: so many cases, or so many damaged forms.
struct Asked {
    forms: bool,
    count: u64,
}

impl Asked {
    /// For forms, some damaged ones at each storing; else one at every few storings.
    fn judge(&self) -> Judge {
        if self.forms {
            Judge::new(3, 1)
        } else {
            Judge::new(1, 4)
        }
    }

    fn is_met(&self, tally: &Tally) -> bool {
        if self.forms {
            tally.forms.damaged >= self.count
        } else {
            tally.cases == self.count
        }
    }
}

/// One line of standard input; with a library that interpolates, a random table goes with every fourth case.
fn take(line: &str, forms: bool, judge: &mut Judge, rng: &mut Random, tally: &mut Tally) -> check::Verdict<Case> {
    let mut case = Case::read(line).ok_or_else(|| "not a case".to_string())?;
    if forms && case.away == 0 {
        case.away = 1;
    }
    follow::follow(&case, judge, rng, tally)?;
    #[cfg(feature = "dense")]
    if tally.cases % 4 == 0 {
        between::compare_random(rng, tally)?;
    }
    tally.cases += 1;
    Ok(case)
}

fn end(tally: &Tally, seed: u64, spent: f64) -> i32 {
    tally.print(seed, spent);
    let met = tally.forms.every_kind_was_met().and(tally.every_refusal_was_met());
    let met = met.and(tally.every_acceleration_was_met()).and(tally.every_tolerance_was_met());
    match met.and(tally.every_whole_start_was_met()).and(tally.every_room_was_met()) {
        Ok(()) => 0,
        Err(fault) => {
            println!("{fault}");
            1
        }
    }
}

/// Compares as many as are asked for, or as fit in so many seconds; 0 where all agree, 1 at the first that differs, 2 where cases are missing.
#[no_mangle]
pub extern "C" fn scale(forms: bool, count: u64, seed: u64, seconds: u64) -> i32 {
    let began = Instant::now();
    let asked = Asked { forms, count };
    let mut judge = asked.judge();
    // The whole-second starts have a generator of their own, so that a seed gives the rest as it always did.
    let (mut rng, mut whole) = (Random(seed ^ 0x5ca1e), Random(seed ^ 0x206));
    let mut tally = Tally::default();
    for (n, line) in std::io::stdin().lock().lines().enumerate() {
        let line = line.expect("standard input is text");
        let case = take(&line, forms, &mut judge, &mut rng, &mut tally);
        if let Err(fault) = case.and_then(|case| whole::compare(&case, &mut whole, &mut tally)) {
            println!("DIFFERS: {fault}\n{line}\n(case {n} of seed {seed})");
            return 1;
        }
        let spent = began.elapsed().as_secs_f64();
        if tally.cases % 10_000 == 0 {
            println!("{} cases, {} damaged forms in {spent:.0} s", tally.cases, tally.forms.damaged);
        }
        if asked.is_met(&tally) || spent >= seconds as f64 {
            return end(&tally, seed, spent);
        }
    }
    println!("only {} cases came, {} damaged forms; {count} were asked for", tally.cases, tally.forms.damaged);
    2
}
