// SPDX-License-Identifier: MIT OR Apache-2.0
//! What answers the questions of a whole-second run that is played: forces that let its corrections come to rest, and accelerations of any kind.
use crate::case::Case;
use crate::force::{Source, V3};
use crate::random::Random;
use crate::raw::{Reply, Triple};

const SPECIAL: [f64; 8] = [f64::NAN, f64::INFINITY, f64::NEG_INFINITY, f64::MAX, -1e200, 5e-324, 0.0, -0.0];

pub enum Pull {
    /// Nothing pulls.
    None,
    /// Towards zero, so weakly that the steps are short beside a swing.
    Weak(f64),
    /// The same, with a special number now and then.
    Disturbed(f64),
    Special,
    /// Any finite size, or any bits at all.
    AnySize,
    AnyBits,
    /// The case's own force.
    Own(Source),
}

impl Pull {
    pub fn of(case: &Case, step: i128, rng: &mut Random) -> Pull {
        let weak = 10f64.powi(-(rng.below(8) as i32)) / (step as f64 * step as f64);
        match rng.below(10) {
            0 => Pull::None,
            1..=3 => Pull::Weak(weak),
            4 => Pull::Disturbed(weak),
            5 => Pull::Special,
            6 => Pull::AnySize,
            7 => Pull::AnyBits,
            _ => Pull::Own(Source::new(case.force, case.p)),
        }
    }

    pub fn on(&mut self, asked: &Reply, rng: &mut Random) -> Triple {
        let (r, v) = (asked.r, asked.v);
        let each = |of: &mut dyn FnMut(f64) -> f64| Triple { x: of(r.x), y: of(r.y), z: of(r.z) };
        match self {
            Pull::None => Triple::default(),
            Pull::Weak(k) => each(&mut |x| -*k * x),
            Pull::Disturbed(k) => each(&mut |x| if rng.once_in(40) { rng.pick(&SPECIAL) } else { -*k * x }),
            Pull::Special => each(&mut |_| rng.pick(&SPECIAL)),
            Pull::AnySize => each(&mut |_| rng.unit() * 10f64.powi(rng.below(616) as i32 - 308)),
            Pull::AnyBits => each(&mut |_| f64::from_bits(rng.bits())),
            Pull::Own(source) => {
                let a = source.answer(asked.t, &V3::from_array([r.x, r.y, r.z]), &V3::from_array([v.x, v.y, v.z]));
                Triple { x: a[0], y: a[1], z: a[2] }
            }
        }
    }
}
