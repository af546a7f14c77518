// SPDX-License-Identifier: MIT OR Apache-2.0
//! Tolerances where a run decides. A tolerance drawn at random hardly ever lies so close to what it is compared with that the last bit of a size
//! matters. Here the quotients that a case meets are learnt first, and the case is sharpened by them.
//!
//! They are learnt from what the module asked and was answered, by 01's sentences and a size of their own. Question 0 is the epoch's, 1 to 32 are
//! RK4's, 33 to 40 those of the eight other points, in the order in which each startup pass asks eight more; then a step asks once, and once for
//! each correction.
use crate::case::Case;
use crate::doubles::{next_down, next_up};
use crate::force::{Force, Source, V3};
use crate::gauss_jackson::GaussJackson8;
use crate::random::Random;
use std::f64::consts::{FRAC_1_SQRT_2, SQRT_2};

struct Asked {
    t: f64,
    r: V3,
    v: V3,
    a: V3,
}

/// The module on a case, each question handed on with its answer. How it ends is no matter.
fn play(c: &Case, mut told: impl FnMut(Asked)) {
    let mut source = Source::new(c.force, c.p);
    let force = |t: f64, r: &V3, v: &V3| {
        let a = source.answer(t, r, v);
        told(Asked { t, r: *r, v: *v, a });
        a
    };
    let (r0, v0) = (V3::from_array(c.r0), V3::from_array(c.v0));
    let _ = GaussJackson8::integrate(c.t0, c.tf, &r0, &v0, force, &c.settings());
}

/// W-204's, a second time.
fn size(x: V3) -> f64 {
    (((x[0] * x[0] + x[1] * x[1]) + x[2] * x[2]) / 3.0).sqrt()
}

/// Kept by "greater than": a NaN is passed over.
fn largest(least: f64, all: impl Iterator<Item = f64>) -> f64 {
    all.fold(least, |kept, x| if x > kept { x } else { kept })
}

/// The epoch's acceleration stays, so its change is 0, or a NaN where it is infinite: neither is greater than 0.
fn of_pass(epoch: &Asked, before: &[Asked], after: &[Asked]) -> f64 {
    let changes = before.iter().zip(after).map(|(old, new)| size(new.a - old.a));
    let sizes = after.iter().chain([epoch]).map(|x| size(x.a));
    largest(0.0, changes) / largest(1e-30, sizes)
}

fn of_correction(old: V3, new: V3) -> f64 {
    size(new - old) / (size(new) + 1e-30)
}

#[derive(Clone, Copy, PartialEq)]
pub enum Of {
    Acceleration,
    Position,
    Velocity,
}

/// What a tolerance is compared with: the number of its test among all of its kind, from 0, and what decides that test.
#[derive(Clone, Copy)]
pub struct Quotient {
    pub test: usize,
    pub of: Of,
    pub value: f64,
}

/// Position and velocity must both be below a tolerance: the larger decides. A NaN is never below, and decides nothing.
fn deciding(test: usize, old: &Asked, new: &Asked) -> Option<Quotient> {
    let (r, v) = (of_correction(old.r, new.r), of_correction(old.v, new.v));
    let (of, value) = if r < v { (Of::Velocity, v) } else { (Of::Position, r) };
    (r < v || r >= v).then(|| Quotient { test, of, value })
}

/// All questions of a step have one time; a tail's have not.
fn corrections(asked: &[Asked], passes: usize) -> Vec<Quotient> {
    let steps = asked.chunks_exact(1 + passes).take_while(|step| step.iter().all(|q| q.t == step[0].t));
    let pairs = steps.flat_map(|step| step.windows(2));
    pairs.enumerate().filter_map(|(test, pair)| deciding(test, &pair[0], &pair[1])).collect()
}

#[derive(Clone, Copy)]
pub enum Tolerance {
    Startup,
    Corrector,
}

use Tolerance::{Corrector, Startup};

impl Tolerance {
    pub fn put(self, c: &mut Case, x: f64) {
        match self {
            Startup => c.startup_tol = x,
            Corrector => c.corrector_tol = x,
        }
    }

    /// Learnt with the tolerance at 0, so that all passes are made and all corrected states asked; a startup tolerance stays where the corrector's
    /// quotients are wanted. The last startup pass is left out: whatever comes of its test, nothing is made after it.
    fn learnt(self, c: &Case) -> Vec<Quotient> {
        let mut c = c.clone();
        self.put(&mut c, 0.0);
        c.corrector_tol = 0.0;
        let mut asked = vec![];
        play(&c, |q| asked.push(q));
        let (mut passes, mut at) = (vec![], 41);
        while passes.len() < c.max_startup && asked.len() >= at + 8 {
            let value = of_pass(&asked[0], &asked[at - 8..at], &asked[at..at + 8]);
            passes.push(Quotient { test: passes.len(), of: Of::Acceleration, value });
            at += 8;
            if value < c.startup_tol {
                break;
            }
        }
        if let Corrector = self {
            return corrections(asked.get(at..).unwrap_or(&[]), c.max_corrector);
        }
        passes.pop();
        passes
    }

    /// The quotients that the run meets with the tolerance there: each is below all before it, or the run would have stopped earlier. They are
    /// finite and above zero.
    pub fn met(self, c: &Case) -> Vec<Quotient> {
        let (mut all, mut least) = (self.learnt(c), f64::INFINITY);
        all.retain(|q| {
            let is_met = q.value < least;
            least = if is_met { q.value } else { least };
            is_met && q.value > 0.0
        });
        all
    }

    /// Whether the module makes another number of answers with this quotient as its tolerance than with the next double above it.
    pub fn tells(self, c: &Case, quotient: f64) -> bool {
        let answers = |x| {
            let (mut c, mut made) = (c.clone(), 0);
            self.put(&mut c, x);
            play(&c, |_| made += 1);
            made
        };
        answers(quotient) != answers(next_up(quotient))
    }

    /// Puts the tolerance at a quotient that the case meets or beside it, or, more rarely, up to four times larger or smaller; says whether it is
    /// telling: within two doubles of it the number of answers changes. Nothing where no quotient is met.
    fn sharpen(self, c: &mut Case, rng: &mut Random) -> Option<bool> {
        let met = self.met(c);
        if met.is_empty() {
            return None;
        }
        let tried = [rng.pick(&met).value, rng.pick(&met).value];
        let telling = tried.into_iter().find(|q| self.tells(c, *q));
        let q = telling.unwrap_or(tried[1]);
        let (is_beside, x) = match rng.below(10) {
            0..=2 => (true, q),
            3..=5 => (true, next_up(q)),
            6 | 7 => (true, next_down(q)),
            8 => (false, q * rng.pick(&[FRAC_1_SQRT_2, SQRT_2])),
            _ => (false, q * rng.pick(&[0.25, 0.5, 1.0, 2.0]) * (1.0 + rng.unit().abs())),
        };
        self.put(c, x);
        Some(is_beside && telling.is_some())
    }
}

/// A linear run, so much smaller that squares of its changes are subnormal, or zero: its quotients stay, but for what is lost there.
fn shrink(c: &mut Case, rng: &mut Random) {
    let k = 10f64.powi(-150 - rng.below(13) as i32);
    (c.r0, c.v0, c.p[2]) = (c.r0.map(|x| x * k), c.v0.map(|x| x * k), 0.0);
}

/// A case with one of its tolerances sharpened, or both, if it meets any quotient; one linear run in eight is shrunk before. Its name then ends in -t
/// where the last tolerance is telling, with the other in its place, else in -s.
pub fn sharpened(c: Case, rng: &mut Random) -> Case {
    let mut sharp = c.clone();
    if rng.once_in(8) && matches!(c.force, Force::Lin) {
        shrink(&mut sharp, rng);
    }
    let (order, both) = rng.pick(&[([Startup, Corrector], false), ([Corrector, Startup], false), ([Startup, Corrector], true)]);
    let done = order.into_iter().filter_map(|which| which.sharpen(&mut sharp, rng)).take(1 + both as usize).last();
    match done {
        None => c,
        Some(telling) => {
            sharp.name += if telling { "-t" } else { "-s" };
            sharp
        }
    }
}
