// SPDX-License-Identifier: MIT OR Apache-2.0
//! Interpolation over the real library.
#![cfg(all(target_arch = "x86_64", target_os = "linux", feature = "dense"))]
mod common;

use common::{force, run, SAMPLED};
use gauss_jackson::{first_out_of_order, interpolate, interpolate_batch, interpolate_in_any_order, numbers_for, Refusal, Sample, State, Triple};

/// From rest to 1, in each component.
fn table() -> Vec<f64> {
    let mut table = vec![0.0; 10];
    table.extend([1.0, 1.0, 1.0, 1.0, 5.0, 5.0, 5.0, 20.0, 20.0, 20.0]);
    table
}

#[test]
fn the_quintic() {
    let table = table();
    let at = interpolate(0.5, &table).unwrap();
    let each = |x: f64| Triple::from([x; 3]);
    assert_eq!(at, State { r: each(0.03125), v: each(0.3125), a: each(2.5) });
    assert_eq!(interpolate_batch(&[0.5], &table), Ok(vec![at]));
    assert_eq!(interpolate_batch(&[], &table), Ok(vec![]));
}

/// Every number of it.
fn is_nan(state: &State) -> bool {
    [state.r, state.v, state.a].iter().all(|triple| <[f64; 3]>::from(*triple).iter().all(|x| x.is_nan()))
}

#[test]
fn a_time_of_nan_gives_nan_throughout() {
    assert!(is_nan(&interpolate(f64::NAN, &table()).unwrap()));
    let states = interpolate_batch(&[0.25, f64::NAN, 0.5], &table()).unwrap();
    assert!(!is_nan(&states[0]) && is_nan(&states[1]));
    assert_eq!(Ok(states[2]), interpolate(0.5, &table()));
}

/// At a sample's own time the interval that begins there is read, at its beginning: all three are the sample's.
#[test]
fn at_a_sample_its_own_acceleration_is_told() {
    let mut samples = vec![0.0; numbers_for(12)];
    run(SAMPLED, 0.0, 12.0).drive(force, &mut samples).unwrap();
    for sample in &Sample::view(&samples)[..12] {
        let told = State { r: sample.r, v: sample.v, a: sample.a };
        assert_eq!(interpolate(sample.t, &samples), Ok(told));
    }
}

#[test]
fn refusals() {
    let table = table();
    assert_eq!(interpolate(0.5, &table[1..]), Err(Refusal::Shape));
    assert_eq!(interpolate(0.5, &table[10..]), Err(Refusal::NoDenseOutput));
    assert_eq!(interpolate(0.5, &[]), Err(Refusal::NoDenseOutput));
    assert_eq!(interpolate(1.5, &table), Err(Refusal::InterpOutOfBounds));
    assert_eq!(interpolate_batch(&[0.5, 2.0], &table), Err(Refusal::InterpOutOfBounds));
    assert_eq!(interpolate_in_any_order(&[2.0, 0.5], &table), Err(Refusal::InterpOutOfBounds));
}

/// Forward and backward: each state stands where its time stood, and is what a single interpolation gives between samples.
#[test]
fn any_order_gives_what_each_time_alone_gives() {
    for (t0, tf) in [(0.0, 12.0), (12.0, 0.0)] {
        let mut samples = vec![0.0; numbers_for(12)];
        run(SAMPLED, t0, tf).drive(force, &mut samples).unwrap();
        let times = [7.5, 0.25, 11.5, 3.125, 3.25, 10.5];
        let alone: Vec<_> = times.iter().map(|t| interpolate(*t, &samples).unwrap()).collect();
        assert_eq!(interpolate_in_any_order(&times, &samples), Ok(alone.clone()));
        assert!(first_out_of_order(&times, &samples).is_some());
        assert_ne!(interpolate_batch(&times, &samples), Ok(alone), "a batch out of order is not refused, and is meaningless");
    }
}

#[test]
fn nan_among_the_times_harms_no_other() {
    let at = interpolate(0.5, &table()).unwrap();
    let states = interpolate_in_any_order(&[0.5, f64::NAN, 0.25, -f64::NAN], &table()).unwrap();
    assert!(states[0] == at && is_nan(&states[1]) && is_nan(&states[3]));
    assert!(states[2].r.x < at.r.x && states[2].a.x < at.a.x);
}
