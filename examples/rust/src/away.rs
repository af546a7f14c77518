// SPDX-License-Identifier: MIT OR Apache-2.0
//! The same day, put away in a file on the way and taken up by another program. examples/c/away.c is the same in C; each takes up what the
//! other has put away, and ends with the same bits. There are no samples here: an app that has them keeps its slice of them too.
use crate::{force, print, start_day};
use gauss_jackson::{Finished, Reply, Run};
use std::{error, fs, io, io::Write};

/// A refusal, or what a file gave.
type Trouble = Box<dyn error::Error>;

/// The new form is written beside the old one and takes its place when the disk has all of it: whatever happens before that, the old one
/// stands, whole.
fn write_safely(path: &str, form: &[u8]) -> io::Result<()> {
    let beside = format!("{path}.new");
    let mut file = fs::File::create(&beside)?;
    file.write_all(form)?;
    file.sync_all()?;
    fs::rename(&beside, path)
}

fn put_away(answers: u64, path: &str) -> Result<(), Trouble> {
    let (mut run, mut reply, cost) = start_day(false)?;
    print::cost(&cost);
    for _ in 0..answers {
        if let Reply::Ask { number, r, .. } = reply {
            reply = run.answer(number, force(r), &mut [])?;
        }
    }
    write_safely(path, &run.store()?)?;
    if let Reply::Ask { number, t, .. } = reply {
        println!("put away at question {number}, at {t:.0} s");
    }
    Ok(())
}

fn take_up(path: &str) -> Result<(), Trouble> {
    let (run, _) = Run::load(&fs::read(path)?)?;
    fly_on(run)
}

fn fly_on(mut run: Run) -> Result<(), Trouble> {
    tell_end(&run.drive(|_t, r, _v| force(r), &mut [])?);
    Ok(())
}

/// The finished state for people, and by its bits.
fn tell_end(end: &Finished) {
    let names = ["t s", "x km", "y km", "z km", "vx km/s", "vy km/s", "vz km/s"];
    let state = [end.t, end.r.x, end.r.y, end.r.z, end.v.x, end.v.y, end.v.z];
    for (name, x) in names.iter().zip(state) {
        println!("{name:7} {x:14.6}  {:016x}", x.to_bits());
    }
    println!("{} steps, {} answers, {} startup passes", end.steps, end.evals, end.startup_iters);
}

/// What the words of the command line ask for; `None` for words that are none.
fn follow(words: &[&str]) -> Option<Result<(), Trouble>> {
    match words {
        [] => Some(start_day(false).map_err(Trouble::from).and_then(|(run, _, _)| fly_on(run))),
        ["put", answers, path] => answers.parse().ok().map(|answers| put_away(answers, path)),
        ["take", path] => Some(take_up(path)),
        _ => None,
    }
}

/// The whole program, for a main of Rust or of C: 0, or 1 after a refusal or a file's error and 2 for other words.
#[no_mangle]
pub extern "C" fn away_main() -> i32 {
    let words: Vec<String> = std::env::args().skip(1).collect();
    match follow(&words.iter().map(String::as_str).collect::<Vec<_>>()) {
        Some(Ok(())) => 0,
        Some(Err(trouble)) => {
            eprintln!("{trouble}");
            1
        }
        None => {
            eprintln!("usage: away [put ANSWERS FILE | take FILE]");
            2
        }
    }
}
