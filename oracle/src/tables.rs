// SPDX-License-Identifier: MIT OR Apache-2.0
//! Tables of samples, and times asked between them: random ones from a seed, and those of the stored list.
use crate::cases::{component, one_nan, SPECIAL};
use crate::doubles::{next_down, next_up};
use crate::random::Random;
use std::io::{self, Write};

const NAN: f64 = f64::NAN;
const INF: f64 = f64::INFINITY;

fn bits(xs: &[f64]) -> String {
    xs.iter().map(|x| format!(" {:016x}", one_nan(*x).to_bits())).collect()
}

/// A table whose samples at `times` are what `at` gives for each number from 0.
fn table(name: &str, times: &[f64], mut at: impl FnMut(usize) -> [f64; 9]) -> String {
    let samples = times.iter().enumerate().map(|(n, t)| bits(&[*t]) + &bits(&at(n)));
    format!("table {name}{}", samples.collect::<String>())
}

fn each_at(times: &[f64]) -> Vec<String> {
    times.iter().map(|t| format!("at{}", bits(&[*t]))).collect()
}

fn batch(times: &[f64]) -> String {
    format!("batch{}", bits(times))
}

/// Strictly rising times.
fn rising(rng: &mut Random, count: usize) -> Vec<f64> {
    let step = match rng.below(9) {
        0 | 1 => 60.0,
        2 => 1.0,
        3 => (1 + rng.below(1000)) as f64,
        4 => 0.1,
        5 => 10f64.powi(rng.below(40) as i32 - 20),
        6 => 10f64.powi(rng.below(600) as i32 - 300),
        7 => f64::from_bits(1 + rng.below(1 << 20)),
        _ => 1.5,
    };
    let mut t = match rng.below(6) {
        0 | 1 => 0.0,
        2 => -step * rng.below(20) as f64,
        3 => rng.unit() * 1000.0,
        4 => rng.pick(&[9007199254740992.0, -9007199254740992.0, -0.0, -1e300]),
        _ => rng.below(2001) as f64 - 1000.0,
    };
    let even = rng.once_in(2);
    let mut times = vec![];
    while times.len() < count && t < f64::MAX {
        times.push(t);
        let on = t + if even { step } else { step * (rng.unit() + 1.01) };
        t = if on > t { on } else { next_up(t) };
    }
    if rng.once_in(25) && times.len() > 1 {
        let end = times.len() - 1;
        times[end] = INF;
        if rng.once_in(2) {
            times[0] = -INF;
        }
    }
    times
}

/// A time to ask for: a sample's own, between two, close by, outside, or none at all.
fn asked(rng: &mut Random, times: &[f64]) -> f64 {
    if times.is_empty() {
        return rng.unit();
    }
    let n = rng.below(times.len() as u64) as usize;
    let near = times[n];
    let next = times[(n + 1).min(times.len() - 1)];
    match rng.below(20) {
        0..=4 => near,
        5..=12 => near + (next - near) * (rng.unit() + 1.0) * 0.5,
        13 => next_up(near),
        14 => next_down(near),
        15 => times[0] + (times[0] - times[times.len() - 1]) * rng.unit(),
        16 => NAN,
        17 => rng.pick(&SPECIAL),
        _ => rng.pick(&[times[0], times[times.len() - 1]]),
    }
}

/// Most batches have all their times inside and in the table's order; the others as they come.
fn row(rng: &mut Random, times: &[f64]) -> Vec<f64> {
    let count = if rng.once_in(12) { 0 } else { 1 + rng.below(12) };
    let mut row: Vec<f64> = (0..count).map(|_| asked(rng, times)).collect();
    if !rng.once_in(6) && !times.is_empty() {
        let (a, b) = (times[0], times[times.len() - 1]);
        row.retain(|t| !(*t < a.min(b) || *t > a.max(b)));
    }
    if !rng.once_in(5) {
        row.sort_by(|x, y| x.partial_cmp(y).unwrap_or(std::cmp::Ordering::Equal));
        if times.len() > 1 && times[0] > times[1] {
            row.reverse();
        }
    }
    row
}

/// A table in strict order, forward or backward, with times asked one by one and in rows.
fn lines(rng: &mut Random, name: &str) -> Vec<String> {
    let count = match rng.below(12) {
        0 => rng.below(2),
        1..=3 => 2,
        4..=9 => 3 + rng.below(6),
        10 => 9 + rng.below(30),
        _ => 40 + rng.below(80),
    };
    let mut times = rising(rng, count as usize);
    if rng.once_in(2) {
        times.reverse();
    }
    let wild = rng.once_in(3);
    let mut number = |_| if wild { component(rng) } else { rng.unit() * 7000.0 };
    let mut all = vec![table(name, &times, |_| std::array::from_fn(&mut number))];
    for _ in 0..1 + rng.below(6) {
        all.extend(each_at(&[asked(rng, &times)]));
    }
    for _ in 0..1 + rng.below(3) {
        all.push(batch(&row(rng, &times)));
    }
    all
}

pub fn random(seed: u64, count: u64, out: &mut impl Write) -> io::Result<()> {
    let mut rng = Random(seed);
    for n in 0..count {
        for line in lines(&mut rng, &format!("t{seed}-{n}")) {
            writeln!(out, "{line}")?;
        }
    }
    Ok(())
}

/// Nine numbers that differ from sample to sample.
fn plain(n: usize) -> [f64; 9] {
    std::array::from_fn(|k| (n * n) as f64 * 0.75 - 2.0 * k as f64 + (n + k) as f64 * 0.1)
}

/// A table with every sample's time, each middle, times close by and outside asked one by one and in rows.
fn around(name: &str, times: &[f64]) -> Vec<String> {
    let mut inside: Vec<f64> = times.to_vec();
    for pair in times.windows(2) {
        inside.push(pair[0] + (pair[1] - pair[0]) * 0.5);
        inside.push(pair[0] + (pair[1] - pair[0]) * 0.99);
    }
    let (low, high) = times.iter().fold((INF, -INF), |(a, b), t| (a.min(*t), b.max(*t)));
    let outside = [next_down(low), next_up(high), low - 1.0, high + 1.0, INF, -INF];
    let mut sorted = inside.clone();
    sorted.sort_by(|x, y| x.partial_cmp(y).unwrap());
    if times[0] > times[times.len() - 1] {
        sorted.reverse();
    }
    let mut back = sorted.clone();
    back.reverse();
    let late: Vec<f64> = sorted.iter().copied().chain([high + 1.0]).collect();
    let mut all = vec![table(name, times, plain)];
    all.extend(each_at(&inside));
    all.extend(each_at(&outside));
    all.extend(each_at(&[NAN, 0.0, -0.0]));
    all.extend([batch(times), batch(&sorted), batch(&back), batch(&late), batch(&[])]);
    all.extend([batch(&[low, NAN, high]), batch(&[NAN]), batch(&[high + 1.0, low])]);
    all.extend(times.iter().map(|t| batch(&[*t])));
    all
}

/// Asked of a case's own samples; with none of them each is refusal 3.
pub fn after_case(times: &[f64]) -> Vec<String> {
    let mut all = each_at(times);
    all.push(batch(times));
    all.push(batch(&[]));
    all
}

/// What the stored list asks of tables.
pub fn list() -> Vec<String> {
    let long: Vec<f64> = (0..190).map(|n| n as f64 * 60.0).collect();
    let mut all = vec!["# Tables, and times between their samples.".to_string()];
    all.extend(around("forward", &[0.0, 1.0, 2.5, 4.0, 7.0]));
    all.extend(around("backward", &[100.0, 90.0, 85.0, 70.5, 20.0]));
    all.extend(around("two", &[0.0, 60.0]));
    all.extend(around("two-back", &[60.0, 0.0]));
    all.extend(around("minus-zero", &[-1.0, -0.0, 1.0]));
    all.extend(around("equal-first", &[0.0, 0.0, 1.0]));
    all.extend(around("equal-last", &[0.0, 1.0, 1.0]));
    all.extend(around("equal-last-back", &[1.0, 0.0, 0.0]));
    all.extend(around("all-equal", &[3.0, 3.0, 3.0]));
    all.extend(around("far", &[9007199254740992.0, 9007199254740994.0, 9007199254740998.0]));
    all.push(table("quintic", &[0.0, 1.0], |n| if n == 0 { [0.0; 9] } else { [1.0, 1.0, 1.0, 5.0, 5.0, 5.0, 20.0, 20.0, 20.0] }));
    all.extend(after_case(&[0.5]));
    all.push(table("long", &long, plain));
    all.extend(after_case(&[0.0, 30.0, 59.0, 60.0, 5730.0, 11339.0, 11340.0]));
    // Close to as many times as a line has room for.
    all.push(batch(&(0..1900).map(|n| n as f64 * 5.9).collect::<Vec<f64>>()));
    all.push(table("one", &[1.0], plain));
    all.extend(after_case(&[1.0, 2.0, NAN]));
    all.push("table none".to_string());
    all.extend(after_case(&[0.0]));
    all.push("# A misshapen table leaves the samples of the one before it.".to_string());
    all.push(table("kept", &[0.0, 1.0, 2.0], plain));
    all.push("table".to_string());
    all.push(format!("table eleven{}", bits(&[1.0; 11])));
    all.push(format!("table odd{} nan", bits(&[1.0; 9])));
    all.extend(["at".to_string(), format!("at{}", bits(&[0.0, 1.0])), "batch 0".to_string()]);
    all.extend(after_case(&[0.5, 1.0, 1.5]));
    all
}
