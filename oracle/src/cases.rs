// SPDX-License-Identifier: MIT OR Apache-2.0
//! Cases: a plain one, and random ones from a seed.
use crate::case::Case;
use crate::force::Force;
use crate::random::Random;
use crate::tolerances::sharpened;
use std::io::{self, Write};

/// 0 to 8 by steps of 1, as 01's examples have it: S = 1, C = 1, tolerances 0, no samples.
pub fn plain(name: &str) -> Case {
    Case {
        name: name.to_string(),
        t0: 0.0,
        tf: 8.0,
        h: 1.0,
        max_corrector: 1,
        corrector_tol: 0.0,
        max_startup: 1,
        startup_tol: 0.0,
        max_steps: 1_000_000,
        samples: false,
        r0: [1.0, -2.0, 0.5],
        v0: [0.25, 0.125, -3.0],
        force: Force::Lin,
        p: [-0.01, 0.001, 0.0, 0.0],
        away: 0,
    }
}

/// The steps that the clock alone makes, up to a bound.
fn clock(c: &Case, bound: usize) -> usize {
    let dir = if c.tf >= c.t0 { 1.0 } else { -1.0 };
    let h = c.h.abs() * dir;
    let mut t = c.t0 + 4.0 * h;
    let mut n = 4;
    while (c.tf - t) * dir > 0.0 && n < bound {
        t += h;
        n += 1;
    }
    n
}

pub const SPECIAL: [f64; 8] = [f64::NAN, f64::INFINITY, f64::NEG_INFINITY, 0.0, -0.0, 5e-324, f64::MAX, -1.0];
pub const TOLERANCES: [f64; 12] = [0.0, 0.0, -1.0, -0.0, 1e-13, 1e-13, 1e-9, 1e-3, 1.0, 1e30, f64::INFINITY, f64::NAN];

/// Processors leave other signs on a NaN that they work out: by one pattern a seed gives the same cases everywhere.
pub fn one_nan(x: f64) -> f64 {
    if x.is_nan() {
        f64::NAN
    } else {
        x
    }
}

fn step(rng: &mut Random) -> f64 {
    let h = match rng.below(20) {
        0..=7 => (1 + rng.below(100)) as f64,
        8 | 9 => 60.0,
        10..=14 => rng.unit() * 10f64.powi(rng.below(7) as i32 - 3),
        15 => rng.unit() * 10f64.powi(rng.below(600) as i32 - 300),
        16 => f64::from_bits(1 + rng.below(1 << 20)),
        17 => rng.pick(&[0.1, 0.2, 0.3, 0.7, 1e-9, 1e9]),
        18 => 0.25 * (1 + rng.below(40)) as f64,
        _ => rng.pick(&SPECIAL),
    };
    if rng.once_in(4) {
        -h
    } else {
        h
    }
}

fn begin(rng: &mut Random, h: f64) -> f64 {
    match rng.below(16) {
        0..=3 => 0.0,
        4..=7 => rng.below(2001) as f64 - 1000.0,
        8 | 9 => rng.unit() * 1000.0,
        10 => h * (rng.below(100) as f64 - 50.0),
        11 => rng.pick(&[9007199254740992.0, -9007199254740992.0, 1125899906842624.0]),
        12 => -0.0,
        13 => rng.unit() * 10f64.powi(rng.below(40) as i32 - 20),
        14 => 0.1 * rng.below(50) as f64,
        _ => rng.pick(&SPECIAL),
    }
}

fn finish(rng: &mut Random, t0: f64, h: f64) -> f64 {
    let dir = rng.pick(&[1.0, -1.0]);
    let n = match rng.below(10) {
        0 => rng.below(8) as f64,
        1..=5 => (8 + rng.below(8)) as f64,
        _ => (8 + rng.below(30)) as f64,
    };
    let whole = t0 + dir * h.abs() * n;
    match rng.below(12) {
        0..=4 => whole,
        5..=8 => whole + h * rng.unit(),
        9 => whole + h * 1e-12 * rng.unit() * 3.0,
        10 => whole - f64::EPSILON * whole,
        _ => rng.pick(&SPECIAL),
    }
}

pub fn component(rng: &mut Random) -> f64 {
    match rng.below(24) {
        0 => rng.pick(&SPECIAL),
        1..=3 => rng.below(21) as f64 - 10.0,
        4 | 5 => rng.unit() * 10f64.powi(rng.below(320) as i32 - 160),
        _ => rng.unit() * 7000.0,
    }
}

/// Near the accelerations of an orbit, or anything.
fn parameters(rng: &mut Random, force: Force) -> [f64; 4] {
    let p = |rng: &mut Random| match rng.below(8) {
        0 => 0.0,
        1 => rng.pick(&SPECIAL),
        2 => rng.unit(),
        _ => rng.unit() * 10f64.powi(-(rng.below(9) as i32)),
    };
    match force {
        Force::Lcg => [f64::from_bits(rng.bits()), 0.0, 0.0, 0.0],
        _ => [p(rng), p(rng), p(rng), 0.0],
    }
}

pub fn case(rng: &mut Random, name: String) -> Case {
    let h = step(rng);
    let t0 = one_nan(begin(rng, h));
    let tf = one_nan(finish(rng, t0, h));
    let force = rng.pick(&[Force::Lin, Force::Lin, Force::Cub, Force::Lcg, Force::Mix]);
    let mut c = Case {
        name,
        t0,
        tf,
        h,
        max_corrector: rng.below(5) as usize,
        corrector_tol: rng.pick(&TOLERANCES),
        max_startup: rng.below(7) as usize,
        startup_tol: rng.pick(&TOLERANCES),
        max_steps: if rng.once_in(5) { rng.pick(&[100, 20, 12, 9, 8, 7, 5, 4, 3, 0]) } else { 1_000_000 },
        samples: rng.once_in(2),
        r0: [component(rng), component(rng), component(rng)],
        v0: [component(rng), component(rng), component(rng)],
        force,
        p: parameters(rng, force),
        away: 0,
    };
    limit_steps(&mut c, rng);
    c
}

/// A clock that sticks, or crawls, would fill the transcript: such a run gets a small limit.
fn limit_steps(c: &mut Case, rng: &mut Random) {
    if clock(c, 100) == 100 {
        c.max_steps = c.max_steps.min(4 + rng.below(12) as usize);
    }
}

/// Finite dates near the largest number: spans, clocks and the startup's times overflow.
fn far_apart(rng: &mut Random, c: &mut Case) {
    let date = |rng: &mut Random| match rng.below(4) {
        0 => f64::MAX,
        1 => 1.7e308,
        2 => rng.unit().abs() * 1.7e308,
        _ => rng.unit() * 10f64.powi(300 + rng.below(9) as i32),
    };
    (c.t0, c.tf) = (-date(rng), date(rng));
    c.h = match rng.below(4) {
        0 => f64::MAX / (1 + rng.below(40)) as f64,
        1 => rng.unit() * 1.7e308,
        _ => rng.unit() * 10f64.powi(305 + rng.below(4) as i32),
    };
    if rng.once_in(2) {
        (c.t0, c.tf) = (c.tf, c.t0);
    }
    limit_steps(c, rng);
}

/// So many cases from a seed; one in 32 far apart. That has a generator of its own, so that a seed gives the others as it always did.
pub fn drawn(seed: u64, count: u64) -> impl Iterator<Item = Case> {
    let (mut rng, mut far) = (Random(seed), Random(seed ^ 0xfa2));
    (0..count).map(move |n| {
        let mut c = case(&mut rng, format!("r{seed}-{n}"));
        if far.once_in(32) {
            far_apart(&mut far, &mut c);
        }
        c
    })
}

/// The same, one in four to be put away on its way, and two in three sharpened where they can be, by generators of their own too.
pub fn random(seed: u64, count: u64, out: &mut impl Write) -> io::Result<()> {
    let (mut away, mut sharp) = (Random(!seed), Random(seed ^ 0x204));
    for mut c in drawn(seed, count) {
        if away.once_in(4) {
            c.away = away.pick(&[1, 1, 1, 2, 3, 5, 8, 41]);
        }
        if !sharp.once_in(3) && !c.has_blank_date() {
            c = sharpened(c, &mut sharp);
        }
        writeln!(out, "{}", c.line())?;
    }
    Ok(())
}
