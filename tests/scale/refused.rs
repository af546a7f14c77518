// SPDX-License-Identifier: MIT OR Apache-2.0
//! Starts that are due to be refused, and leave no run.
use crate::case::{Case, BLANKS};
use crate::check::{holds, Verdict};
use crate::follow::{check_ended, is_refused};
use crate::random::Random;
use crate::raw::{self, Reply, Run, Settings};
use crate::tally::Tally;

pub fn start(run: &mut Run, case: &Case, settings: Settings) -> Reply {
    unsafe { raw::gj_start(run, settings, case.t0, case.tf, case.r0, case.v0) }
}

/// A start that is due to be refused by this number, and leaves no run.
pub fn refused_start(case: &Case, settings: Settings, refusal: u16, rng: &mut Random, tally: &mut Tally) -> Verdict {
    let mut run = Run([rng.bits(); 132]);
    tally.refused[usize::from(refusal)] += 1;
    holds(is_refused(&start(&mut run, case, settings), refusal), format_args!("refusal {refusal} was due"))?;
    check_ended(&mut run, rng, tally)
}

/// A setting over its limit: refusal 5, whatever else.
pub fn over_a_limit(case: &Case, rng: &mut Random, tally: &mut Tally) -> Verdict {
    let mut settings = case.settings;
    let by = rng.pick(&[1, 2, 1000, u64::MAX - 1_000_000]);
    match rng.below(3) {
        0 => settings.max_corrector_iters = 100 + by,
        1 => settings.max_startup_iters = 100 + by,
        _ => settings.max_steps = 1_000_000 + by,
    }
    refused_start(case, settings, 5, rng, tally)
}

/// Some of the three dates blank, where the others may ask for refusal 1: 12; over a limit it is 5 all the same.
pub fn blank_dates(case: &Case, rng: &mut Random, tally: &mut Tally) -> Verdict {
    let mut case = case.clone();
    match rng.below(4) {
        0 => case.settings.h = 0.0,
        1 => case.tf = case.t0,
        _ => (),
    }
    for _ in 0..rng.pick(&[1, 1, 2, 3]) {
        let blank = f64::from_bits(rng.pick(&BLANKS));
        match rng.below(3) {
            0 => case.t0 = blank,
            1 => case.tf = blank,
            _ => case.settings.h = blank,
        }
    }
    over_a_limit(&case, rng, tally)?;
    refused_start(&case, case.settings, 12, rng, tally)
}
