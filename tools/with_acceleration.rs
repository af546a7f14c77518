// SPDX-License-Identifier: MIT OR Apache-2.0
//! The module's two interpolations, with the acceleration that W-203 adds to them. Position and velocity are the module's own. It has no formula
//! for the acceleration, so here that is written a second time, from the text of 01 and 02 and not from the library: the interval by 01's
//! "Between samples", then a_a + (6·c3·s + 12·c4·s² + 20·c5·s³)/h² in the order of rounding that the definition fixes. oracle and tests/scale
//! have this file in common.
use crate::gauss_jackson::{GJDenseOutput, GaussJackson8};
use numeris::ode::OdeError;
use numeris::Vector;

type Table<const D: usize> = GJDenseOutput<f64, D>;

/// Position, velocity and acceleration.
pub type Told<const D: usize> = [Vector<f64, D>; 3];

/// "Forward if the last time exceeds the first."
fn is_forward(times: &[f64]) -> bool {
    times[times.len() - 1] > times[0]
}

/// "The interval before the first sample whose time fails <= t (backward: >= t), held to 0 and count-2."
fn interval_of(times: &[f64], t: f64) -> usize {
    let forward = is_forward(times);
    let passes = |time: f64| if forward { time <= t } else { time >= t };
    let first = times.iter().position(|time| !passes(*time)).unwrap_or(times.len());
    first.saturating_sub(1).min(times.len() - 2)
}

/// "Walks on while the next sample's time is strictly short of t": from interval k to the first whose end is not.
fn walked_from(k: usize, times: &[f64], t: f64) -> usize {
    let (forward, last) = (is_forward(times), times.len() - 2);
    let is_short = |time: f64| if forward { time < t } else { time > t };
    (k..last).find(|i| !is_short(times[i + 1])).unwrap_or(last)
}

/// One component, at the part s of an interval of length h; each end is position, velocity and acceleration there.
fn bent([r_a, v_a, a_a]: [f64; 3], [r_b, v_b, a_b]: [f64; 3], h: f64, s: f64) -> f64 {
    let square = h * h;
    // What is missed at the far end by going on with a_a alone.
    let in_place = r_b - r_a - h * v_a - (square * 0.5) * a_a;
    let in_speed = h * (v_b - v_a) - square * a_a;
    let in_force = square * (a_b - a_a);
    let c3 = 10.0 * in_place - 4.0 * in_speed + 0.5 * in_force;
    let c4 = -15.0 * in_place + 7.0 * in_speed - in_force;
    let c5 = 6.0 * in_place - 3.0 * in_speed + 0.5 * in_force;
    a_a + ((6.0 * s) * c3 + (12.0 * (s * s)) * c4 + (20.0 * (s * s * s)) * c5) / square
}

fn acceleration<const D: usize>(table: &Table<D>, k: usize, t: f64) -> Vector<f64, D> {
    let h = table.t[k + 1] - table.t[k];
    let s = (t - table.t[k]) / h;
    let end = |n: usize, i: usize| [table.r[n][i], table.v[n][i], table.a[n][i]];
    Vector::from_array(std::array::from_fn(|i| bent(end(k, i), end(k + 1, i), h, s)))
}

pub fn interpolate<const D: usize>(t: f64, table: &Table<D>) -> Result<Told<D>, OdeError> {
    let (r, v) = GaussJackson8::interpolate(t, table)?;
    Ok([r, v, acceleration(table, interval_of(&table.t, t), t)])
}

pub fn interpolate_batch<const D: usize>(times: &[f64], table: &Table<D>) -> Result<Vec<Told<D>>, OdeError> {
    let all = GaussJackson8::interpolate_batch(times, table)?;
    let mut k = 0;
    let with_its_own = |((r, v), t): ((Vector<f64, D>, Vector<f64, D>), &f64)| {
        k = walked_from(k, &table.t, *t);
        [r, v, acceleration(table, k, *t)]
    };
    Ok(all.into_iter().zip(times).map(with_its_own).collect())
}
