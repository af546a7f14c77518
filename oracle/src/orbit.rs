// SPDX-License-Identifier: MIT OR Apache-2.0
//! The orbit of examples/, on the module: a day 400 km up in one-minute steps, every sample, the finished state, and an hourly time
//! between samples, by their bits. The force's operations stand in the order in which the examples have them.
use crate::force::V3;
use crate::gauss_jackson::{GJSettings, GaussJackson8};
use crate::transcript::hex;
use crate::with_acceleration::interpolate_batch;
use std::io::{self, Write};

const MU: f64 = 398600.4418;
const RADIUS: f64 = 6778.137;
const INCLINATION: (f64, f64) = (0.6211477802783103, 0.7836934573258398);

fn force(_: f64, r: &V3, _: &V3) -> V3 {
    let d = ((r[0] * r[0] + r[1] * r[1]) + r[2] * r[2]).sqrt();
    let cube = (d * d) * d;
    V3::from_array([(-MU * r[0]) / cube, (-MU * r[1]) / cube, (-MU * r[2]) / cube])
}

fn triples(all: &[V3]) -> String {
    all.iter().flat_map(|x| [x[0], x[1], x[2]]).map(|x| format!(" {}", hex(x))).collect()
}

pub fn print(out: &mut impl Write) -> io::Result<()> {
    let speed = (MU / RADIUS).sqrt();
    let r0 = V3::from_array([RADIUS, 0.0, 0.0]);
    let v0 = V3::from_array([0.0, speed * INCLINATION.0, speed * INCLINATION.1]);
    let settings = GJSettings { dense_output: true, ..GJSettings::default() };
    let end = GaussJackson8::integrate(0.0, 86400.0, &r0, &v0, force, &settings).expect("a day of minutes finishes");
    let d = end.dense.as_ref().expect("samples were asked for");
    for n in 0..d.t.len() {
        writeln!(out, "sample {n} {}{}", hex(d.t[n]), triples(&[d.r[n], d.v[n], d.a[n]]))?;
    }
    writeln!(out, "done {}{} {} {} {}", hex(end.t), triples(&[end.r, end.v]), end.evals, end.steps, end.startup_iters)?;
    let times: Vec<f64> = (0..24).map(|hour| 3600.0 * hour as f64 + 30.0).collect();
    for told in interpolate_batch(&times, d).expect("the times lie between samples") {
        writeln!(out, "interp{}", triples(&told))?;
    }
    Ok(())
}
