// SPDX-License-Identifier: MIT OR Apache-2.0
//! How near a start came to another verdict: refused by little, or just accepted.
use crate::costs::{forecast, Start, Whole, FARTHEST, LONGEST};
use crate::raw::Cost;

/// What a refused start was off by.
pub const MISSES: [&str; 7] = [
    "13 by one double",
    "13 by a half",
    "13 at 2^50 and one",
    "13 by a step of 10^9 and one",
    "13 by a step of 0",
    "1 by one second",
    "14 by one step",
];

/// What an accepted start just meets.
pub const MET: [&str; 6] = ["eight steps", "max_steps", "2^50", "a step of 10^9", "a step of 1", "a date of -0.0"];

fn with(start: &Start, which: usize, x: f64) -> Start {
    let mut moved = *start;
    *[&mut moved.t0, &mut moved.tf, &mut moved.settings.h][which] = x;
    moved
}

/// Whether the start is past refusal 13 with this date in place of its own.
fn is_past(start: &Start, which: usize, x: f64) -> bool {
    matches!(forecast(&with(start, which, x)), Ok(_) | Err(1 | 14))
}

/// So with one of the dates a little further on or back.
fn would_be_whole(start: &Start, moved: impl Fn(f64) -> [f64; 2]) -> bool {
    let dates = start.dates();
    (0..3).any(|which| moved(dates[which]).iter().any(|x| is_past(start, which, *x)))
}

/// So with a date that is one past its bound, of either sign, put on it.
fn is_one_past(start: &Start, which: usize, bound: i128) -> bool {
    let x = start.dates()[which];
    x.abs() == (bound + 1) as f64 && is_past(start, which, bound as f64 * x.signum())
}

fn next_doubles(x: f64) -> [f64; 2] {
    [f64::from_bits(x.to_bits().wrapping_add(1)), f64::from_bits(x.to_bits().wrapping_sub(1))]
}

/// In the order of `MISSES`.
pub fn misses(start: &Start, refusal: u16) -> [bool; 7] {
    let by = |due: u16, is_near: &dyn Fn(&Whole) -> bool| refusal == due && Whole::of(start).map_or(false, |whole| is_near(&whole));
    [
        refusal == 13 && would_be_whole(start, next_doubles),
        refusal == 13 && would_be_whole(start, |x| [x + 0.5, x - 0.5]),
        refusal == 13 && (is_one_past(start, 0, FARTHEST) || is_one_past(start, 1, FARTHEST)),
        refusal == 13 && is_one_past(start, 2, LONGEST),
        refusal == 13 && start.settings.h == 0.0 && is_past(start, 2, 1.0),
        by(1, &|whole| whole.span() + 1 == 8 * whole.step),
        by(14, &|whole| i128::from(start.settings.max_steps) + 1 == whole.steps()),
    ]
}

/// In the order of `MET`.
pub fn met(start: &Start, whole: &Whole, cost: &Cost) -> [bool; 6] {
    let minus_zero = (-0.0f64).to_bits();
    [
        whole.span() == 8 * whole.step,
        start.settings.max_steps == cost.steps,
        whole.from.abs() == FARTHEST || whole.to.abs() == FARTHEST,
        whole.step == LONGEST,
        whole.step == 1,
        start.dates().iter().any(|x| x.to_bits() == minus_zero),
    ]
}
