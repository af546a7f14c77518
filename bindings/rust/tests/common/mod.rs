// SPDX-License-Identifier: MIT OR Apache-2.0
//! What the tests over the library share.
use gauss_jackson::{Refusal, Reply, Run, Settings, Triple};

/// One pass each, tolerances 0: the counts of answers are then known beforehand.
pub const PLAIN: Settings = Settings {
    h: 1.0,
    corrector_tol: 0.0,
    startup_tol: 0.0,
    max_corrector_iters: 1,
    max_startup_iters: 1,
    max_steps: 1_000_000,
    samples: false,
};

pub const SAMPLED: Settings = Settings { samples: true, ..PLAIN };

pub fn start(settings: Settings, t0: f64, tf: f64) -> Result<(Run, Reply), Refusal> {
    Run::start(settings, t0, tf, Triple::from([1.0, 2.0, 3.0]), Triple::default())
}

pub fn run(settings: Settings, t0: f64, tf: f64) -> Run {
    start(settings, t0, tf).expect("a start").0
}

/// A swing of period 2π.
pub fn force(_t: f64, r: Triple, _v: Triple) -> Triple {
    Triple { x: -r.x, y: -r.y, z: -r.z }
}
