// SPDX-License-Identifier: MIT OR Apache-2.0
//! The open question of any run within the counting, from 01 and docs/RULES.md, 4 and 5, apart from the library.
use crate::counting::{self, places};
use crate::layout::place_of;
use crate::raw::Run;

type Three = [f64; 3];

/// Time, position, velocity.
struct Question(f64, Three, Three);

/// a + b·x, component by component, each operation rounded once.
fn moved(a: Three, b: Three, x: f64) -> Three {
    [a[0] + b[0] * x, a[1] + b[1] * x, a[2] + b[2] * x]
}

/// A run's floats by their places in the stored form.
struct Floats<'a>(&'a Run);

impl Floats<'_> {
    fn one(&self, k: usize) -> f64 {
        f64::from_bits(self.0 .0[place_of(k)])
    }

    fn three(&self, q: usize) -> Three {
        [self.one(3 * q), self.one(3 * q + 1), self.one(3 * q + 2)]
    }

    /// Position and velocity of a startup point.
    fn place(&self, i: usize) -> (Three, Three) {
        (self.three(i), self.three(9 + i))
    }

    /// The time of a startup point: t0 + (i-4)·h.
    fn time(&self, i: usize) -> f64 {
        self.one(120) + (i as f64 - 4.0) * self.one(122)
    }

    /// Question `stage` of an RK4 step over h.
    fn rk4(&self, stage: usize, t: f64, (r, v): (Three, Three), h: f64) -> Question {
        let (half, slope) = (h * 0.5, |n: usize| self.three(27 + n));
        let k2 = |l1: Three| moved(v, l1, half);
        match stage {
            0 => Question(t, r, v),
            1 => Question(t + half, moved(r, v, half), k2(slope(0))),
            2 => Question(t + half, moved(r, k2(slope(0)), half), moved(v, slope(1), half)),
            _ => Question(t + h, moved(r, moved(v, slope(1), half), h), moved(v, slope(2), h)),
        }
    }

    fn asked(&self, at: u8, i: usize, stage: usize) -> Question {
        let (clock, tf, h) = (self.one(116), self.one(121), self.one(122));
        let (trial, state) = ((self.three(34), self.three(35)), (self.three(30), self.three(31)));
        match at {
            1 => Question(self.one(120), self.place(4).0, self.place(4).1),
            2 => self.rk4(stage, self.time(i), self.place(i), h),
            3 => self.rk4(stage, self.time(i), self.place(i), -h),
            4 | 5 => Question(self.time(i), self.place(i).0, self.place(i).1),
            6 => Question(clock + h, trial.0, trial.1),
            7 => self.rk4(stage, clock, state, tf - clock),
            _ => Question(tf, trial.0, trial.1),
        }
    }
}

/// Its number, and its time, position and velocity.
pub fn open(run: &Run) -> (u16, [f64; 7]) {
    let b = counting::bytes(run);
    let Question(t, r, v) = Floats(run).asked(b[places::AT], b[places::INDEX].into(), b[places::STAGE].into());
    (counting::number(run), [t, r[0], r[1], r[2], v[0], v[1], v[2]])
}
