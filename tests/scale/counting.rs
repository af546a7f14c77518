// SPDX-License-Identifier: MIT OR Apache-2.0
//! Whether a run is one that a line of answers could have left, by its counts and dates alone: docs/DECISIONS.md, "The counting at each waiting
//! point", written down here from its table and for wide numbers, and W-202's finite dates, apart from the library.
use crate::raw::Run;

/// Where the numbers of a run stand, by include/gauss_jackson_run.h.
pub mod places {
    pub const AT: usize = 0;
    pub const INDEX: usize = 1;
    pub const STAGE: usize = 2;
    pub const NUMBER: usize = 8;
    pub const EVALS: usize = 16;
    pub const MAX_CORRECTOR: usize = 48;
    pub const MAX_STARTUP: usize = 56;
    pub const MAX_STEPS: usize = 64;
    pub const SAMPLES: usize = 72;
    pub const PASSES: usize = 840;
    pub const STEPS: usize = 856;
    /// The step as it was set, t0, tf, and the step with its direction.
    pub const DATES: [usize; 4] = [24, 80, 88, 96];
    /// Between fields: these bytes mean nothing.
    pub const PADDING: [(usize, usize); 3] = [(3, 8), (10, 16), (73, 80)];
}

pub fn bytes(run: &Run) -> &[u8; 1056] {
    unsafe { &*(run as *const Run as *const [u8; 1056]) }
}

pub fn bytes_mut(run: &mut Run) -> &mut [u8; 1056] {
    unsafe { &mut *(run as *mut Run as *mut [u8; 1056]) }
}

pub fn word(run: &Run, place: usize) -> u64 {
    run.0[place / 8]
}

pub fn number(run: &Run) -> u16 {
    word(run, places::NUMBER) as u16
}

/// The counts, wide enough for any sum or product of them.
struct Counts {
    e: u128,
    passes: u128,
    steps: u128,
    corrector: u128,
    startup: u128,
    max_steps: u128,
}

impl Counts {
    fn idle(&self) -> bool {
        self.passes == 0 && self.steps == 0
    }

    /// The eight points other than the epoch, in order, after `before` answers.
    fn at_point(&self, i: u128, before: u128) -> bool {
        let order = [0, 1, 2, 3, 5, 6, 7, 8];
        order.iter().position(|p| *p == i).map_or(false, |rank| self.e == before + rank as u128)
    }

    /// The step's bounds, with k answers in the open step.
    fn in_step(&self, k: u128) -> bool {
        let least = u128::from(self.startup > 0);
        let passed = least <= self.passes && self.passes <= self.startup;
        if !passed || self.steps < 4 || self.steps >= self.max_steps {
            return false;
        }
        let (base, n) = (41 + 8 * self.passes + k, self.steps - 4);
        base + n <= self.e && self.e <= base + n * (1 + self.corrector)
    }
}

fn counts_of(run: &Run) -> Counts {
    let wide = |place: usize| u128::from(word(run, place));
    Counts {
        e: wide(places::EVALS),
        passes: wide(places::PASSES),
        steps: wide(places::STEPS),
        corrector: wide(places::MAX_CORRECTOR),
        startup: wide(places::MAX_STARTUP),
        max_steps: wide(places::MAX_STEPS),
    }
}

/// None of the four is a NaN or an infinity: not all bits of the exponent are set.
pub fn has_finite_dates(run: &Run) -> bool {
    places::DATES.iter().all(|place| word(run, *place) >> 52 & 0x7ff != 0x7ff)
}

/// Not made up (01's answer 7).
pub fn is_sound(run: &Run) -> bool {
    is_counted(run) && has_finite_dates(run)
}

pub fn is_counted(run: &Run) -> bool {
    let b = bytes(run);
    let (at, i, s) = (b[places::AT], u128::from(b[places::INDEX]), u128::from(b[places::STAGE]));
    let c = counts_of(run);
    if b[places::SAMPLES] > 1 {
        return false;
    }
    if c.corrector > 100 || c.startup > 100 || c.max_steps > 1_000_000 || u128::from(number(run)) != c.e % 65536 || s > 3 {
        return false;
    }
    match at {
        1 => c.e == 0 && c.idle(),
        2 => (4..=7).contains(&i) && c.e == 1 + 4 * (i - 4) + s && c.idle(),
        3 => (1..=4).contains(&i) && c.e == 17 + 4 * (4 - i) + s && c.idle(),
        4 => c.at_point(i, 33) && c.idle(),
        5 => c.passes < c.startup && c.at_point(i, 41 + 8 * c.passes) && c.steps == 0,
        6 => i <= c.corrector && c.in_step(i),
        7 => c.in_step(s),
        8 => b[places::SAMPLES] == 1 && c.in_step(4),
        _ => false,
    }
}

fn blank_padding(run: &Run) -> Run {
    let mut copy = run.clone();
    for (from, to) in places::PADDING {
        bytes_mut(&mut copy)[from..to].fill(0);
    }
    copy
}

pub fn is_ended(run: &Run) -> bool {
    blank_padding(run).0.iter().all(|w| *w == 0)
}

/// Field by field; what lies between fields aside.
pub fn are_same(a: &Run, b: &Run) -> bool {
    blank_padding(a).0 == blank_padding(b).0
}
