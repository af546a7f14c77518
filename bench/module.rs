// SPDX-License-Identifier: MIT OR Apache-2.0
//! The module over the stand-in, called from C: the force is inlined into it, as a Rust caller would have it.
use numeris::Vector;

include!(concat!(env!("OUT_DIR"), "/module.rs"));
use gauss_jackson::{GJDenseOutput, GJSettings, GaussJackson8};

type V3 = Vector<f64, 3>;

#[repr(C)]
pub struct Settings {
    h: f64,
    corrector_tol: f64,
    startup_tol: f64,
    max_corrector_iters: u64,
    max_startup_iters: u64,
    max_steps: u64,
    samples: u8,
}

#[repr(C)]
pub struct Task {
    settings: Settings,
    t0: f64,
    tf: f64,
    r0: [f64; 3],
    v0: [f64; 3],
    out: *mut f64,
    count: usize,
}

#[repr(C)]
pub struct Reply {
    t: f64,
    r: [f64; 3],
    v: [f64; 3],
    evals: u64,
    steps: u64,
    startup_iters: u64,
    stored: u64,
    kind: u32,
    refusal: u16,
    number: u16,
}

#[repr(C)]
pub struct Reading {
    times: *const f64,
    k: usize,
    samples: *const f64,
    n: usize,
    rows: *mut f64,
    width: usize,
}

fn three(v: &V3) -> [f64; 3] {
    [v[0], v[1], v[2]]
}

include!("../tools/settings.rs");

/// The samples as tens, so that their bits can be compared.
fn copy(dense: &GJDenseOutput<f64, 3>, out: &mut [f64]) {
    for (n, ten) in out.chunks_mut(10).take(dense.t.len()).enumerate() {
        ten[0] = dense.t[n];
        ten[1..4].copy_from_slice(&three(&dense.r[n]));
        ten[4..7].copy_from_slice(&three(&dense.v[n]));
        ten[7..10].copy_from_slice(&three(&dense.a[n]));
    }
}

#[no_mangle]
pub unsafe extern "C" fn module_run(task: &Task, end: &mut Reply) {
    let (r0, v0) = (V3::from_array(task.r0), V3::from_array(task.v0));
    let force = |_: f64, r: &V3, _: &V3| V3::from_array([-r[0], -r[1], -r[2]]);
    let s = GaussJackson8::integrate(task.t0, task.tf, &r0, &v0, force, &settings(&task.settings)).expect("the run finishes");
    if let Some(dense) = &s.dense {
        copy(dense, std::slice::from_raw_parts_mut(task.out, task.count));
    }
    let (evals, steps, startup_iters) = (s.evals as u64, s.steps as u64, s.startup_iters as u64);
    *end = Reply { t: s.t, r: three(&s.r), v: three(&s.v), evals, steps, startup_iters, stored: 0, kind: 1, refusal: 0, number: 0 };
}

/// The samples as the module keeps them.
fn table(numbers: &[f64]) -> GJDenseOutput<f64, 3> {
    let v3 = |s: &[f64]| V3::from_array([s[0], s[1], s[2]]);
    let mut d = GJDenseOutput { t: vec![], r: vec![], v: vec![], a: vec![] };
    for s in numbers.chunks(10) {
        d.t.push(s[0]);
        d.r.push(v3(&s[1..]));
        d.v.push(v3(&s[4..]));
        d.a.push(v3(&s[7..]));
    }
    d
}

fn write(row: &mut [f64], r: &V3, v: &V3) {
    row[..3].copy_from_slice(&three(r));
    row[3..][..3].copy_from_slice(&three(v));
}

#[no_mangle]
pub unsafe extern "C" fn module_read(reading: &Reading, batch: bool) -> u32 {
    let times = std::slice::from_raw_parts(reading.times, reading.k);
    let dense = table(std::slice::from_raw_parts(reading.samples, reading.n));
    let rows = std::slice::from_raw_parts_mut(reading.rows, reading.width * reading.k).chunks_mut(reading.width);
    if batch {
        let all = GaussJackson8::interpolate_batch(times, &dense).expect("the times lie between samples");
        rows.zip(&all).for_each(|(row, (r, v))| write(row, r, v));
    } else {
        for (row, t) in rows.zip(times) {
            let (r, v) = GaussJackson8::interpolate(*t, &dense).expect("the time lies between samples");
            write(row, &r, &v);
        }
    }
    0
}
