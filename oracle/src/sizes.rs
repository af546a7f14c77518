// SPDX-License-Identifier: MIT OR Apache-2.0
//! W-204's part of the stored list: tolerances at what they are compared with and beside it, and sizes that overflow, underflow or are NaN.
use crate::case::Case;
use crate::doubles::{next_down, next_up};
use crate::force::Force;
use crate::list::like;
use crate::tolerances::Of::{self, Acceleration, Position, Velocity};
use crate::tolerances::Tolerance::{self, Corrector, Startup};
use std::f64::consts::{FRAC_1_SQRT_2, SQRT_2};

type Place = (&'static str, fn(f64) -> f64);

/// Around a quotient: below it and at it the run goes on, above it it stops.
const BESIDE: [Place; 3] = [("below", next_down), ("at", |q| q), ("above", next_up)];

/// Where the tolerance's square is half the quotient's, or twice it, and further off.
const NEAR: [Place; 4] =
    [("quarter", |q| q * 0.25), ("over-root-2", |q| q * FRAC_1_SQRT_2), ("times-root-2", |q| q * SQRT_2), ("fourfold", |q| q * 4.0)];

/// A swing to and fro with a tail, five passes, and three tests a step.
fn swing(name: &str, change: impl FnOnce(&mut Case)) -> Case {
    like(name, |c| {
        (c.tf, c.max_startup, c.max_corrector, c.p) = (16.5, 5, 3, [-0.1, 0.0, 0.0, 0.0]);
        change(c);
    })
}

fn scaled(name: &str, k: f64) -> Case {
    swing(name, |c| (c.r0, c.v0) = (c.r0.map(|x| x * k), c.v0.map(|x| x * k)))
}

/// What decides the test of that number. A case that does not meet it, or makes as many answers on either side of it, has no place here.
fn quotient(c: &Case, which: Tolerance, of: Of, test: usize) -> f64 {
    let met = which.met(c).into_iter().find(|q| q.test == test && q.of == of);
    let value = met.unwrap_or_else(|| panic!("{} does not meet the quotient of test {test}", c.name)).value;
    assert!(which.tells(c, value), "{} is not telling at test {test}", c.name);
    value
}

/// The case with its tolerance in each of the places.
fn at_each(places: &[Place], base: Case, which: Tolerance, of: Of, test: usize) -> Vec<Case> {
    let q = quotient(&base, which, of, test);
    let at = |(name, from): &Place| {
        let mut c = base.clone();
        c.name = format!("{}-{name}", base.name);
        which.put(&mut c, from(q));
        c
    };
    places.iter().map(at).collect()
}

/// First and later tests, decided by position and by velocity; one after a startup that stops by a tolerance of its own. The quotient of `wide` is
/// above 1, and the changes of the tiny ones have subnormal squares.
fn edges() -> Vec<Case> {
    let late = |c: &mut Case| (c.p, c.v0) = ([-0.05, -0.1, 0.0, 0.0], c.r0.map(|x| x * -0.05));
    let wide = |c: &mut Case| (c.t0, c.tf, c.force, c.p) = (16.5, 0.0, Force::Cub, [-0.01, 0.02, 0.0, 0.0]);
    let bases = [
        (swing("sharp-startup-first", |_| ()), Startup, Acceleration, 0),
        (swing("sharp-startup-later-back", |c| (c.t0, c.tf, c.samples) = (16.5, 0.0, true)), Startup, Acceleration, 3),
        (scaled("sharp-startup-tiny", 1e-155), Startup, Acceleration, 2),
        (swing("sharp-corrector-v-wide-back", wide), Corrector, Velocity, 0),
        (swing("sharp-corrector-v-third", |c| (c.startup_tol, c.samples) = (1e-3, true)), Corrector, Velocity, 2),
        (swing("sharp-corrector-v-later", |c| (c.tf, c.samples) = (16.0, true)), Corrector, Velocity, 11),
        (swing("sharp-corrector-r-first", |c| (c.v0, c.samples) = ([0.0; 3], true)), Corrector, Position, 0),
        (swing("sharp-corrector-r-second-back", |c| (c.t0, c.tf, c.v0) = (16.5, 0.0, [0.0; 3])), Corrector, Position, 1),
        (swing("sharp-corrector-r-later", late), Corrector, Position, 8),
        (scaled("sharp-corrector-tiny", 1e-154), Corrector, Velocity, 1),
    ];
    bases.into_iter().flat_map(|(base, which, of, test)| at_each(&BESIDE, base, which, of, test)).collect()
}

/// Both tolerances: the startup's in one place and the corrector's in each, by what the run meets after that startup; put away at every answer.
fn both() -> Vec<Case> {
    let base = swing("sharp-both", |c| (c.samples, c.away) = (true, 1));
    let started = at_each(&BESIDE[1..], base, Startup, Acceleration, 1);
    let all: Vec<Case> = started.into_iter().flat_map(|c| at_each(&BESIDE, c, Corrector, Velocity, 1)).collect();
    for c in &all {
        quotient(c, Startup, Acceleration, 1);
    }
    all
}

/// Not sharp: some way off the quotient, on either side.
fn near() -> Vec<Case> {
    let startup = at_each(&NEAR, swing("near-startup", |_| ()), Startup, Acceleration, 1);
    let back = swing("near-corrector-back", |c| (c.t0, c.tf) = (16.5, 0.0));
    startup.into_iter().chain(at_each(&NEAR, back, Corrector, Velocity, 1)).collect()
}

/// Squares that overflow, so that a size is infinite, or underflow, so that it is 0, and NaN: in positions, velocities and accelerations.
fn corners() -> Vec<Case> {
    let corner = |name: &str, change: fn(&mut Case)| {
        swing(name, |c| {
            (c.startup_tol, c.corrector_tol, c.samples) = (1e-9, 1e-9, true);
            change(c);
        })
    };
    vec![
        corner("size-overflow-position", |c| (c.r0[0], c.p) = (1e200, [0.0, -0.1, 0.0, 0.0])),
        corner("size-overflow-velocity", |c| (c.v0[1], c.p) = (1e200, [0.0, 0.0, 0.01, 0.0])),
        corner("size-overflow-acceleration", |c| (c.tf, c.h, c.v0[2], c.p) = (16.5e-150, 1e-150, 1e13, [0.0, -1e149, 0.0, 0.0])),
        corner("size-overflow-constant", |c| (c.tf, c.h, c.force, c.p) = (1e-149, 1e-150, Force::Cub, [0.0, 1e200, 0.0, 0.0])),
        corner("size-underflow-position", |c| (c.r0, c.v0) = ([1e-200, -2e-200, 5e-201], [0.0; 3])),
        corner("size-underflow-velocity", |c| (c.v0, c.p) = ([1e-200, -2e-200, 5e-201], [0.0, -0.1, 0.0, 0.0])),
        corner("size-underflow-acceleration", |c| c.p = [-1e-200, 1e-200, 0.0, 0.0]),
        corner("size-underflow-one", |c| (c.r0[0], c.v0[0]) = (1e-200, -1e-200)),
        corner("size-nan-position", |c| c.r0[2] = f64::NAN),
        corner("size-nan-velocity", |c| (c.v0[0], c.p) = (f64::NAN, [-0.1, 0.0, 0.0, 0.0])),
        corner("size-nan-acceleration", |c| (c.force, c.max_startup) = (Force::Mix, 3)),
        corner("size-infinite-position", |c| (c.r0[1], c.p) = (f64::INFINITY, [0.0, -0.1, 0.0, 0.0])),
    ]
}

/// The least, the largest and an infinite tolerance, for quotients that are plain, 0, NaN, and infinite, where a change overflows and the new value
/// does not.
fn extremes() -> Vec<Case> {
    let mut all = vec![];
    for (name, tol) in [("least", 5e-324), ("largest", f64::MAX), ("infinite", f64::INFINITY)] {
        let with = |over: &str, change: fn(&mut Case)| {
            swing(&format!("size-tol-{name}-{over}"), |c| {
                (c.startup_tol, c.corrector_tol) = (tol, tol);
                change(c);
            })
        };
        all.push(with("plain", |_| ()));
        all.push(with("still", |c| c.p = [0.0; 4]));
        all.push(with("startup-leaps", |c| (c.r0, c.v0, c.p[0]) = ([8.4e147, 0.0, 0.0], [0.0; 3], -20.0)));
        all.push(with("corrector-leaps", |c| (c.r0, c.v0, c.p[0], c.startup_tol) = ([2.8e148, 0.0, 0.0], [0.0; 3], -10.0, 0.0)));
        all.push(with("nan", |c| (c.r0[0], c.v0[1]) = (1e200, 1e200)));
    }
    all
}

pub fn list() -> Vec<Case> {
    [edges(), both(), near(), corners(), extremes()].concat()
}
