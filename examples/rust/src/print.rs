// SPDX-License-Identifier: MIT OR Apache-2.0
//! What the flight takes and the table for people, the rows for other programs, and the bits for comparison.
use crate::station::range_to;
use crate::{distance, Row, EARTH};
use gauss_jackson::{Cost, Finished, Sample, State, Triple, SAMPLE_NUMBERS};

/// Said before the flight begins.
pub(crate) fn cost(cost: &Cost) {
    let Cost { steps, samples, numbers, least, most } = cost;
    println!("This takes {steps} steps, room for {samples} samples ({numbers} numbers) and {least} to {most} answers.\n");
}

fn row(t: f64, at: &State) {
    let s = t as u64;
    print!("{:02}:{:02}:{:02}", s / 3600, s / 60 % 60, s % 60);
    print!("  {:10.3} {:10.3} {:10.3}", at.r.x, at.r.y, at.r.z);
    print!("  {:9.6} {:9.6} {:9.6}", at.v.x, at.v.y, at.v.z);
    print!("  {:8.4}", distance(at.r) - EARTH);
    let to = range_to(at, t);
    println!("  {:10.3} {:9.6} {:8.4}", to.range, to.rate, 1000.0 * to.change);
}

/// The finished state has no acceleration: the last sample, at the same time, has it.
pub(crate) fn table(end: &Finished, samples: &[Sample], rows: &[Row]) {
    let how = if cfg!(feature = "dense") { "between steps" } else { "at steps" };
    println!("An orbit 400 km up, {} steps of a minute; read off {how}.", end.steps);
    println!("Range, its rate and how fast the rate changes: from a station 45 degrees north by Greenwich, in its sight or not.\n");
    println!("    time       x km       y km       z km    vx km/s   vy km/s   vz km/s    height    range km rate km/s   m/s^2");
    for r in rows {
        row(r.t, &r.at);
    }
    row(end.t, &State { r: end.r, v: end.v, a: samples[end.steps as usize].a });
    let (t, evals, passes) = (end.t, end.evals, end.startup_iters);
    println!("\nFinished at {t:.0} s: {} steps, {evals} answers, {passes} startup passes.", end.steps);
}

/// Each number by the fewest digits that are read back as the same bits.
pub(crate) fn csv(samples: &[Sample]) {
    println!("t_s,x_km,y_km,z_km,vx_km_s,vy_km_s,vz_km_s,ax_km_s2,ay_km_s2,az_km_s2");
    let three = |a: Triple| format!("{},{},{}", a.x, a.y, a.z);
    for s in samples {
        println!("{},{},{},{}", s.t, three(s.r), three(s.v), three(s.a));
    }
}

fn hex(numbers: &[f64]) -> String {
    numbers.iter().map(|x| format!(" {:016x}", x.to_bits())).collect()
}

fn triples(all: &[Triple]) -> String {
    all.iter().map(|t| hex(&[t.x, t.y, t.z])).collect()
}

pub(crate) fn bits(end: &Finished, samples: &[f64], rows: &[Row]) {
    for (n, sample) in samples.chunks(SAMPLE_NUMBERS).enumerate() {
        println!("sample {n}{}", hex(sample));
    }
    println!("done{}{} {} {} {}", hex(&[end.t]), triples(&[end.r, end.v]), end.evals, end.steps, end.startup_iters);
    for r in rows.iter().filter(|_| cfg!(feature = "dense")) {
        println!("interp{}", triples(&[r.at.r, r.at.v, r.at.a]));
    }
}
