// SPDX-License-Identifier: MIT OR Apache-2.0
//! The whole-second profile on the library: forecasts and starts beside the second writing and beside plain starts.
use crate::case::Case;
use crate::check::{all_same, holds, Verdict};
use crate::costs::{forecast, Start, Whole, NO_COST};
use crate::counting;
use crate::follow::{check_ended, is_refused, numbers};
use crate::played;
use crate::random::Random;
use crate::raw::{self, Cost, Reply, Run, Triple};
use crate::starts;
use crate::tally::Tally;

/// So many random starts go with each case, with one case in so many a run that is played to its end, and with every so many-th a long one.
const STARTS: u64 = 12;
const PLAYED: u64 = 4;
const LONG_EVERY: u64 = 256;

/// An accepted start.
pub struct Begun {
    pub start: Start,
    pub whole: Whole,
    pub cost: Cost,
    pub run: Run,
    pub reply: Reply,
}

/// Where a start begins, by the case that it goes with.
type Place = (Triple, Triple);

/// The case's own start, random ones from its place, and now and then a run.
pub fn compare(case: &Case, rng: &mut Random, tally: &mut Tally) -> Verdict {
    let place = (case.r0, case.v0);
    judge(Start::of(case), place, rng, tally)?;
    for _ in 0..STARTS {
        judge(starts::any(rng), place, rng, tally)?;
    }
    if rng.once_in(PLAYED) {
        play(starts::short(rng), case, rng, tally)?;
    }
    if tally.cases % LONG_EVERY == 0 {
        play(starts::long(rng), case, rng, tally)?;
    }
    Ok(())
}

fn play(start: Start, case: &Case, rng: &mut Random, tally: &mut Tally) -> Verdict {
    match judge(start, (case.r0, case.v0), rng, tally)? {
        Some(begun) => played::play(begun, case, rng, tally).map_err(|fault| fault + &said(&start)),
        None => Ok(()),
    }
}

/// A start is not in the case's line.
fn said(start: &Start) -> String {
    let [t0, tf, h] = start.dates().map(f64::to_bits);
    format!("\nwhole-second start: t0 {t0:016x}, tf {tf:016x}, h {h:016x}, {:?}", start.settings)
}

fn judge(start: Start, place: Place, rng: &mut Random, tally: &mut Tally) -> Verdict<Option<Begun>> {
    judge_start(start, place, rng, tally).map_err(|fault| fault + &said(&start))
}

/// The same verdict and cost by forecast, by whole-second start and by the second writing.
fn judge_start(start: Start, place: Place, rng: &mut Random, tally: &mut Tally) -> Verdict<Option<Begun>> {
    let Start { settings, t0, tf } = start;
    let due = forecast(&start);
    let (cost, refusal) = due.map_or_else(|refusal| (NO_COST, refusal), |cost| (cost, 0));
    let told = unsafe { raw::gj_forecast(settings, t0, tf) };
    holds(told.refusal == u32::from(refusal), format_args!("the forecast is refused by {}, {refusal} was due", told.refusal))?;
    holds(told.cost == cost, format_args!("forecast: {:?}, second writing: {cost:?}", told.cost))?;
    let mut run = Run([rng.bits(); 132]);
    let got = unsafe { raw::gj_start_whole(&mut run, settings, t0, tf, place.0, place.1) };
    holds(got.cost == cost, format_args!("whole-second start: {:?}, second writing: {cost:?}", got.cost))?;
    let reply = got.reply;
    match due {
        Err(refusal) => {
            holds(is_refused(&reply, refusal), format_args!("the start is refused by {}, {refusal} was due", reply.refusal))?;
            is_refused_too(&start, place, refusal, rng)?;
            leaves_no_run(&mut run, rng, tally)?;
            tally.refused[usize::from(refusal)] += 1;
            tally.wholes.count_refused(&start, refusal);
            Ok(None)
        }
        Ok(cost) => {
            is_taken_too(&start, place, &run, &reply, rng)?;
            let whole = Whole::of(&start).ok_or("accepted, though not whole")?;
            tally.wholes.count_accepted(&start, &whole, &cost);
            Ok(Some(Begun { start, whole, cost, run, reply }))
        }
    }
}

fn plain_start(start: &Start, place: Place, rng: &mut Random) -> (Run, Reply) {
    let mut run = Run([rng.bits(); 132]);
    let reply = unsafe { raw::gj_start(&mut run, start.settings, start.t0, start.tf, place.0, place.1) };
    (run, reply)
}

/// A plain start of the same values: the same question and the same run.
fn is_taken_too(start: &Start, (r, v): Place, run: &Run, reply: &Reply, rng: &mut Random) -> Verdict {
    let (plain_run, plain) = plain_start(start, (r, v), rng);
    let counts = |x: &Reply| (x.kind, x.refusal, x.number, x.evals, x.steps, x.startup_iters, x.stored);
    holds(counts(reply) == (0, 0, 0, 0, 0, 0, 0), "an accepted whole-second start does not tell question 0")?;
    holds(counts(&plain) == counts(reply), "a plain start of the same values tells something else")?;
    all_same("question 0 of a whole-second start", &numbers(reply), &[start.t0, r.x, r.y, r.z, v.x, v.y, v.z])?;
    all_same("question 0 of the plain start", &numbers(&plain), &numbers(reply))?;
    holds(counting::are_same(run, &plain_run), "a plain start of the same values makes another run")
}

/// A plain start has no 13 and no 14: where 14 is due it is taken, and where 13 is due, taken or refused by 1.
fn is_refused_too(start: &Start, place: Place, refusal: u16, rng: &mut Random) -> Verdict {
    let (_, plain) = plain_start(start, place, rng);
    let agrees = match refusal {
        13 => plain.kind == 0 || is_refused(&plain, 1),
        14 => plain.kind == 0,
        _ => is_refused(&plain, refusal),
    };
    holds(agrees, format_args!("refused by {refusal}, and by a plain start as kind {}, {}", plain.kind, plain.refusal))
}

/// An ended run, and now and then all that it refuses.
fn leaves_no_run(run: &mut Run, rng: &mut Random, tally: &mut Tally) -> Verdict {
    if rng.once_in(16) {
        return check_ended(run, rng, tally);
    }
    holds(counting::is_ended(run), "a refused whole-second start leaves a run")
}
