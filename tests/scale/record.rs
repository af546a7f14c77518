// SPDX-License-Identifier: MIT OR Apache-2.0
//! What the module asks and gives in a case.
use crate::case::Case;
use crate::check::all_same;
use crate::force::{Source, V3};
use crate::gauss_jackson::{GJDenseOutput, GJSettings, GJSolution, GaussJackson8};
use crate::raw::{Settings, Triple};
use numeris::ode::OdeError;

/// A question, by time, position and velocity, and the acceleration that it was answered with.
pub struct Asked {
    pub at: [f64; 7],
    pub a: Triple,
}

pub struct Record {
    pub asked: Vec<Asked>,
    pub end: Result<GJSolution<f64, 3>, OdeError>,
    /// Sample n, as far as the module tells.
    pub samples: Option<Vec<[f64; 10]>>,
}

pub fn tens(d: &GJDenseOutput<f64, 3>) -> Vec<[f64; 10]> {
    let ten = |n: usize| {
        let (r, v, a) = (&d.r[n], &d.v[n], &d.a[n]);
        [d.t[n], r[0], r[1], r[2], v[0], v[1], v[2], a[0], a[1], a[2]]
    };
    (0..d.t.len()).map(ten).collect()
}

include!("../../tools/settings.rs");

fn play(case: &Case) -> Record {
    let vector = |t: &Triple| V3::from_array([t.x, t.y, t.z]);
    let mut source = Source::new(case.force, case.p);
    let mut asked = vec![];
    let force = |t: f64, r: &V3, v: &V3| {
        let a = source.answer(t, r, v);
        asked.push(Asked { at: [t, r[0], r[1], r[2], v[0], v[1], v[2]], a: Triple { x: a[0], y: a[1], z: a[2] } });
        a
    };
    let end = GaussJackson8::integrate(case.t0, case.tf, &vector(&case.r0), &vector(&case.v0), force, &settings(&case.settings));
    let samples = end.as_ref().ok().and_then(|s| s.dense.as_ref()).map(tens);
    Record { asked, end, samples }
}

impl Record {
    pub fn of(case: &Case) -> Record {
        let mut record = play(case);
        if record.end.is_err() && case.wants_samples() {
            record.samples = samples_before_refusal(case, &record);
        }
        record
    }

    /// Whether a tolerance cut the startup short, and whether one cut a step's corrections short: with that one at zero there are more questions.
    pub fn cut_short(&self, case: &Case) -> [bool; 2] {
        let Settings { startup_tol, corrector_tol, .. } = case.settings;
        let asked = |startup_tol| {
            let settings = Settings { startup_tol, corrector_tol: 0.0, ..case.settings };
            play(&Case { settings, ..case.clone() }).asked.len()
        };
        let all_corrections = if corrector_tol > 0.0 { asked(startup_tol) } else { self.asked.len() };
        [startup_tol > 0.0 && all_corrections < asked(0.0), self.asked.len() < all_corrections]
    }
}

/// On refusal 2 the module drops its samples. The same run to where its clock stood has them, if it ends there by the same questions;
/// where the clock's rounding makes its last step a tail, it does not.
fn samples_before_refusal(case: &Case, refused: &Record) -> Option<Vec<[f64; 10]>> {
    let steps = case.settings.max_steps;
    if steps < 8 || refused.asked.is_empty() {
        return None;
    }
    let shorter = play(&case.cut_after(steps));
    let pairs = || shorter.asked.iter().zip(&refused.asked);
    let alike = shorter.asked.len() == refused.asked.len() && pairs().all(|(a, b)| all_same("", &a.at, &b.at).is_ok());
    let ended = matches!(&shorter.end, Ok(s) if s.steps as u64 == steps);
    shorter.samples.filter(|_| alike && ended)
}
