// SPDX-License-Identifier: MIT OR Apache-2.0
//! W-206 with 01's "Counting beforehand", written down a second time, apart from the library: a float's whole number is read from its bits, and the
//! counting is done in numbers too wide to wrap.
use crate::case::Case;
use crate::raw::{Cost, Settings};

pub const FARTHEST: i128 = 1 << 50;
pub const LONGEST: i128 = 1_000_000_000;

pub const NO_COST: Cost = Cost { steps: 0, samples: 0, numbers: 0, least: 0, most: 0 };

/// All that a forecast depends on.
#[derive(Clone, Copy)]
pub struct Start {
    pub settings: Settings,
    pub t0: f64,
    pub tf: f64,
}

impl Start {
    pub fn of(case: &Case) -> Start {
        Start { settings: case.settings, t0: case.t0, tf: case.tf }
    }

    pub fn dates(&self) -> [f64; 3] {
        [self.t0, self.tf, self.settings.h]
    }
}

fn exponent(x: f64) -> u64 {
    x.to_bits() >> 52 & 0x7ff
}

/// The whole number that a float is; nothing where it is none, or larger than the bound in size. With the units bit at 2^0 the significand is moved
/// by the exponent less 1075; moved down, it must lose zeros only. Moved up by more than 60 it is beyond every bound.
fn whole(x: f64, bound: i128) -> Option<i128> {
    let fraction = i128::from(x.to_bits() & ((1 << 52) - 1));
    let (significand, moved) = ((1 << 52) + fraction, exponent(x) as i32 - 1075);
    let size = match moved {
        -1075 if fraction == 0 => 0,
        0..=60 => significand << moved,
        -52..=-1 if significand.trailing_zeros() >= moved.unsigned_abs() => significand >> -moved,
        _ => return None,
    };
    let signed = if x.to_bits() >> 63 == 1 { -size } else { size };
    (size <= bound).then(|| signed)
}

/// A start's three dates as whole numbers, the step by its size.
#[derive(Clone, Copy)]
pub struct Whole {
    pub from: i128,
    pub to: i128,
    pub step: i128,
}

impl Whole {
    /// Nothing where refusal 13 is due.
    pub fn of(start: &Start) -> Option<Whole> {
        let (from, to) = (whole(start.t0, FARTHEST)?, whole(start.tf, FARTHEST)?);
        let step = whole(start.settings.h, LONGEST)?.abs();
        (step > 0).then(|| Whole { from, to, step })
    }

    pub fn span(&self) -> i128 {
        (self.to - self.from).abs()
    }

    /// T
    pub fn tail(&self) -> i128 {
        i128::from(self.span() % self.step != 0)
    }

    /// K
    pub fn steps(&self) -> i128 {
        self.span() / self.step + self.tail()
    }

    /// Where sample n stands: so many steps on, and the last at the end.
    pub fn time(&self, n: usize) -> f64 {
        let gone = (n as i128 * self.step).min(self.span());
        (self.from + if self.to < self.from { -gone } else { gone }) as f64
    }

    /// The answers of a run that makes so many startup passes: so many at least, and at most.
    pub fn answers(&self, s: &Settings, passes: u64) -> (i128, i128) {
        let plain = self.steps() - 4 - self.tail();
        let others = 41 + 8 * i128::from(passes) + self.tail() * (4 + i128::from(s.samples));
        (others + plain, others + plain * (1 + i128::from(s.max_corrector_iters)))
    }

    fn cost(&self, s: &Settings) -> Cost {
        let narrow = |n: i128| u64::try_from(n).expect("no cost of an accepted start is so large");
        let samples = i128::from(s.samples) * (self.steps() + 1);
        let (fewest, all) = (s.max_startup_iters.min(1), s.max_startup_iters);
        Cost {
            steps: narrow(self.steps()),
            samples: narrow(samples),
            numbers: narrow(10 * samples),
            least: narrow(self.answers(s, fewest).0),
            most: narrow(self.answers(s, all).1),
        }
    }
}

fn is_within_limits(s: &Settings) -> bool {
    s.max_startup_iters <= 100 && s.max_corrector_iters <= 100 && s.max_steps <= 1_000_000 && s.samples <= 1
}

/// The cost, or the number of the refusal that is due.
pub fn forecast(start: &Start) -> Result<Cost, u16> {
    let s = &start.settings;
    if !is_within_limits(s) {
        return Err(5);
    }
    if start.dates().iter().any(|x| exponent(*x) == 0x7ff) {
        return Err(12);
    }
    let whole = Whole::of(start).ok_or(13u16)?;
    if whole.span() < 8 * whole.step {
        return Err(1);
    }
    if i128::from(s.max_steps) < whole.steps() {
        return Err(14);
    }
    Ok(whole.cost(s))
}
