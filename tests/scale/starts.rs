// SPDX-License-Identifier: MIT OR Apache-2.0
//! Random starts for the whole-second profile: whole numbers of all sizes, at the bounds and at eight steps too; then, in some, dates that are a
//! little off, blank or anything, and settings over their limits.
use crate::case::BLANKS;
use crate::costs::{Start, Whole, FARTHEST, LONGEST};
use crate::random::Random;
use crate::raw::Settings;

const TWO_50: f64 = 1125899906842624.0;

/// Bounds, what lies beside them, and what a conversion to a whole number may stumble over; of either sign.
const EDGES: [f64; 22] = [
    0.0,
    5e-324,
    f64::MIN_POSITIVE,
    0.5,
    1.0 - f64::EPSILON / 2.0,
    1.0,
    1.0 + f64::EPSILON,
    1e9 - 1.0,
    1e9,
    1e9 + 1.1920928955078125e-7,
    1e9 + 1.0,
    TWO_50 - 0.125,
    TWO_50,
    TWO_50 + 0.25,
    TWO_50 + 1.0,
    2.0 * TWO_50,
    8.0 * TWO_50,
    8192.0 * TWO_50,
    16384.0 * TWO_50,
    1e18,
    1e300,
    f64::MAX,
];

/// None of these is above zero.
const LOW_TOLERANCES: [f64; 5] = [0.0, -0.0, -1.0, f64::NEG_INFINITY, f64::NAN];
const HIGH_TOLERANCES: [f64; 6] = [5e-324, 1e-13, 1.0, 1e30, f64::MAX, f64::INFINITY];

/// Below the bound, of any number of bits.
fn of_any_size(rng: &mut Random, bound: i128) -> i128 {
    i128::from(rng.bits() >> rng.below(64)) % bound
}

fn step(rng: &mut Random) -> i128 {
    match rng.below(8) {
        0 => 1,
        1 => LONGEST,
        2 => rng.pick(&[2, 3, 10, 60, 60, 86_400, LONGEST - 1]),
        _ => 1 + of_any_size(rng, LONGEST),
    }
}

/// From none to more than any setting allows; few again, where a count is cut to 16 or 32 bits.
fn steps(rng: &mut Random) -> i128 {
    match rng.below(20) {
        0 | 1 => of_any_size(rng, 8),
        2..=7 => 7 + of_any_size(rng, 3),
        8..=11 => 8 + of_any_size(rng, 300),
        12 | 13 => 999_990 + i128::from(rng.below(20)),
        14 | 15 => of_any_size(rng, 1_000_000),
        16 => rng.pick(&[1 << 16, 1 << 31, 1 << 32, 1 << 33]) + of_any_size(rng, 300),
        _ => of_any_size(rng, FARTHEST),
    }
}

/// What a span has beside whole steps: nothing, a second more or less, or any part of a step.
fn beside(rng: &mut Random, step: i128) -> i128 {
    match rng.below(6) {
        0 | 1 => 0,
        2 => 1,
        3 => -1,
        _ => of_any_size(rng, step),
    }
}

/// Where a span begins, if it goes forward: anywhere that it fits, at either bound, or at or about zero.
fn place(rng: &mut Random, span: i128) -> i128 {
    let highest = FARTHEST - span;
    let low = match rng.below(8) {
        0 => -FARTHEST,
        1 => highest,
        2 => 0,
        3 => -span,
        4 | 5 => i128::from(rng.below(2001)) - 1000,
        _ => i128::from(rng.bits()) % (2 * FARTHEST) - FARTHEST,
    };
    low.clamp(-FARTHEST, highest)
}

/// As a float; zero of either sign.
fn float(rng: &mut Random, n: i128) -> f64 {
    if n == 0 && rng.once_in(2) {
        -0.0
    } else {
        n as f64
    }
}

/// The dates of so many steps and something beside them, forward or back, the step of either sign.
fn dated(rng: &mut Random, settings: Settings, steps: i128) -> Start {
    let step = step(rng);
    let span = (steps * step + beside(rng, step)).clamp(0, 2 * FARTHEST);
    let low = place(rng, span);
    let (low, high) = (float(rng, low), float(rng, low + span));
    let (t0, tf) = rng.pick(&[(low, high), (high, low)]);
    let h = rng.pick(&[step, -step]) as f64;
    Start { settings: Settings { h, ..settings }, t0, tf }
}

fn steps_taken(start: &Start) -> u64 {
    Whole::of(start).map_or(0, |whole| whole.steps()) as u64
}

/// Around the steps that the start takes, or anything within the limit.
fn steps_allowed(rng: &mut Random, start: &Start) -> u64 {
    let taken = steps_taken(start);
    let allowed = match rng.below(10) {
        0 => taken.saturating_sub(1),
        1 => taken,
        2 => taken + 1,
        3 => rng.below(1_000_001),
        4 => rng.pick(&[0, 4, 7, 8, 9, 999_999]),
        _ => 1_000_000,
    };
    allowed.min(1_000_000)
}

fn tolerance(rng: &mut Random) -> f64 {
    match rng.below(8) {
        0 => f64::from_bits(rng.bits()),
        1 | 2 => rng.pick(&LOW_TOLERANCES),
        3 | 4 => rng.pick(&HIGH_TOLERANCES),
        _ => 10f64.powi(-(rng.below(17) as i32)),
    }
}

/// Within the limits; the dates are still to come. One start in four has no tolerance above zero.
fn settings(rng: &mut Random) -> Settings {
    let (startup, corrector) = (rng.below(101), rng.below(101));
    let mut settings = Settings {
        h: 0.0,
        corrector_tol: tolerance(rng),
        startup_tol: tolerance(rng),
        max_corrector_iters: rng.pick(&[0, 1, 1, 2, 2, 2, 3, 4, 6, corrector, 100]),
        max_startup_iters: rng.pick(&[0, 0, 1, 1, 2, 3, 4, 6, 12, startup, 100]),
        max_steps: 1_000_000,
        samples: rng.below(2) as u8,
    };
    if rng.once_in(4) {
        (settings.corrector_tol, settings.startup_tol) = (rng.pick(&LOW_TOLERANCES), rng.pick(&LOW_TOLERANCES));
    }
    settings
}

/// A date that was whole: a double or a half or one further, an edge, blank, subnormal, or anything.
fn marred(rng: &mut Random, x: f64) -> f64 {
    let sign = rng.pick(&[1.0, -1.0]);
    match rng.below(14) {
        0..=2 => f64::from_bits(x.to_bits().wrapping_add(1)),
        3 | 4 => f64::from_bits(x.to_bits().wrapping_sub(1)),
        5 => x + 0.5 * sign,
        6 | 7 => x + sign,
        8 => x + rng.unit(),
        9 | 10 => rng.pick(&EDGES) * sign,
        11 => f64::from_bits(rng.pick(&BLANKS)),
        12 => f64::from_bits(rng.bits() >> 12) * sign,
        _ => f64::from_bits(rng.bits()),
    }
}

fn mar(rng: &mut Random, start: &mut Start) {
    for _ in 0..rng.pick(&[1, 1, 1, 1, 2, 3]) {
        match rng.below(3) {
            0 => start.t0 = marred(rng, start.t0),
            1 => start.tf = marred(rng, start.tf),
            _ => start.settings.h = marred(rng, start.settings.h),
        }
    }
}

fn overdo(rng: &mut Random, settings: &mut Settings) {
    let by = rng.pick(&[1, 1, 2, 1000, u64::MAX - 1_000_000]);
    match rng.below(4) {
        0 => settings.max_corrector_iters = 100 + by,
        1 => settings.max_startup_iters = 100 + by,
        2 => settings.max_steps = 1_000_000 + by,
        _ => settings.samples = rng.pick(&[2, 3, 128, 255]),
    }
}

/// Any start.
pub fn any(rng: &mut Random) -> Start {
    let (settings, steps) = (settings(rng), steps(rng));
    let mut start = dated(rng, settings, steps);
    start.settings.max_steps = steps_allowed(rng, &start);
    if rng.once_in(2) {
        mar(rng, &mut start);
    }
    if rng.once_in(16) {
        overdo(rng, &mut start.settings);
    }
    start
}

/// A start to be played to its end, with no fewer steps allowed than it takes.
fn to_be_played(rng: &mut Random, settings: Settings, steps: u64) -> Start {
    let mut start = dated(rng, settings, i128::from(steps));
    let taken = steps_taken(&start);
    start.settings.max_steps = rng.pick(&[taken, taken + 1, 1_000_000]);
    start
}

/// A few steps, or some hundreds and then not many corrections. One second less than eight steps is among them, which is refused.
pub fn short(rng: &mut Random) -> Start {
    let (settings, few, some, passes) = (settings(rng), 8 + rng.below(24), 40 + rng.below(300), rng.below(4));
    if rng.once_in(12) {
        return to_be_played(rng, Settings { max_corrector_iters: passes, ..settings }, some);
    }
    to_be_played(rng, settings, few)
}

/// A thousand steps and more, and not many corrections.
pub fn long(rng: &mut Random) -> Start {
    let (settings, steps, passes) = (settings(rng), 1001 + rng.below(3000), rng.below(4));
    to_be_played(rng, Settings { max_corrector_iters: passes, ..settings }, steps)
}
