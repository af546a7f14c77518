// SPDX-License-Identifier: MIT OR Apache-2.0
//! Random forecasts from a seed: orbits near and far, falls, spans of every kind, refused starts, numbers that are none.
use crate::cases::{component, one_nan, SPECIAL};
use crate::doubles::{next_down, next_up};
use crate::forecast::Forecast;
use crate::random::Random;
use std::io::{self, Write};

const MU: f64 = 398600.4418;

fn from_to(rng: &mut Random, low: f64, high: f64) -> f64 {
    low + (high - low) * (rng.unit() + 1.0) / 2.0
}

/// By its logarithm.
fn scale(rng: &mut Random, low: f64, high: f64) -> f64 {
    10f64.powf(from_to(rng, low.log10(), high.log10()))
}

fn sized(a: [f64; 3], size: f64) -> [f64; 3] {
    let now = (a[0] * a[0] + a[1] * a[1] + a[2] * a[2]).sqrt();
    a.map(|x| x / now * size)
}

fn any_way(rng: &mut Random, size: f64) -> [f64; 3] {
    let axis = rng.below(3) as usize;
    let a = if rng.once_in(4) {
        std::array::from_fn(|i| if i == axis { 1.0 } else { 0.0 })
    } else {
        [rng.unit() + 2e-3, rng.unit(), rng.unit()]
    };
    sized(a, if rng.once_in(2) { -size } else { size })
}

fn across(r: [f64; 3], rng: &mut Random, size: f64) -> [f64; 3] {
    let b = [rng.unit(), rng.unit() + 2.0, rng.unit() - 3.0];
    sized([r[1] * b[2] - r[2] * b[1], r[2] * b[0] - r[0] * b[2], r[0] * b[1] - r[1] * b[0]], size)
}

/// How many steps a span is meant to have: few in most, some hundred in one of thirty.
fn steps(rng: &mut Random) -> f64 {
    match rng.below(30) {
        0 => (100 + rng.below(300)) as f64,
        1..=5 => (8 + rng.below(3)) as f64,
        _ => (8 + rng.below(30)) as f64,
    }
}

/// Where time begins: the clock may crawl beside a large one, or stick.
fn begin(rng: &mut Random, h: f64) -> f64 {
    match rng.below(16) {
        0..=5 => 0.0,
        6..=9 => rng.below(2_000_001) as f64 - 1_000_000.0,
        10 | 11 => rng.unit() * 1000.0,
        12 => h * (rng.below(100) as f64 - 50.0),
        13 => rng.pick(&[1125899906842624.0, -1125899906842624.0, 9007199254740992.0, -9007199254740992.0]),
        14 => -0.0,
        _ => rng.unit() * 10f64.powi(rng.below(30) as i32 - 15),
    }
}

/// The span from begin: whole steps, a tail, or a hair beside a whole step; forward or backward, the step's own sign being free.
fn span(rng: &mut Random, f: &mut Forecast, n: f64) {
    let h = f.h;
    f.t0 = begin(rng, h);
    let way = rng.pick(&[1.0, 1.0, -1.0]) * h.abs();
    let whole = f.t0 + way * n;
    f.tf = match rng.below(12) {
        0..=5 => whole,
        6..=8 => whole + h * rng.unit(),
        9 => whole + h * 3e-12 * rng.unit(),
        10 => rng.pick(&[next_up(whole), next_down(whole)]),
        _ => whole + way * rng.pick(&[0.5, 0.25, 1e-3, 1.0 - 1e-12]),
    };
    if rng.once_in(5) {
        f.h = -h;
    }
}

fn orbit(rng: &mut Random, low: f64, high: f64, step: (f64, f64)) -> Forecast {
    let d = scale(rng, low, high);
    let r = any_way(rng, d);
    let speed = (MU / d).sqrt() * from_to(rng, 0.5, 1.4);
    let v = if rng.once_in(6) { any_way(rng, speed) } else { across(r, rng, speed) };
    let h = scale(rng, step.0, step.1);
    let h = if rng.once_in(2) { h.ceil() } else { h };
    let mut f = Forecast { t0: 0.0, tf: 0.0, h, r, v };
    let n = steps(rng);
    span(rng, &mut f, n);
    f
}

/// So quick that the centre's pull hardly counts: it comes within 1 km of the centre about so many steps from the start, whole or not, among
/// them before the start, within the startup and in the tail.
fn dive(rng: &mut Random) -> Forecast {
    let mut f = orbit(rng, 7000.0, 7000.0, (1e-3, 10.0));
    let end = ((f.tf - f.t0) / f.h).abs().min(60.0);
    let ahead = from_to(rng, -5.0, end + 1.0);
    let ahead = match rng.below(8) {
        0 => ahead,
        1 => (ahead * 2.0).round() / 2.0,
        2 => rng.pick(&[end, (end + end.floor()) / 2.0]),
        _ => ahead.round(),
    };
    let speed = scale(rng, 3e3, 1e6);
    let way = if f.tf >= f.t0 { f.h.abs() } else { -f.h.abs() };
    f.v = any_way(rng, speed);
    let off = from_to(rng, 0.0, 1.2);
    let beside = any_way(rng, off);
    f.r = std::array::from_fn(|i| beside[i] - f.v[i] * way * ahead);
    f
}

/// A tail that ends about 1 km from the centre, slowly enough that the pull decides which of its questions are too low.
fn graze(rng: &mut Random) -> Forecast {
    let mut f = orbit(rng, 7000.0, 7000.0, (1e-4, 3e-3));
    let way = f.h.abs() * rng.pick(&[1.0, -1.0]);
    let ahead = (8 + rng.below(12)) as f64 + from_to(rng, 0.05, 0.95);
    f.tf = f.t0 + way * ahead;
    let (speed, off) = (scale(rng, 5e2, 5e3), from_to(rng, 0.3, 2.0));
    f.v = any_way(rng, speed);
    let beside = if rng.once_in(2) { across(f.v, rng, off) } else { sized(f.v, -off) };
    f.r = std::array::from_fn(|i| beside[i] - f.v[i] * way * ahead);
    f
}

/// One whose last question alone is too low, if one of some is.
fn graze_at_last(rng: &mut Random) -> Forecast {
    let tried: Vec<Forecast> = (0..60).map(|_| graze(rng)).collect();
    tried.iter().find(|f| f.ends_low()).unwrap_or(&tried[0]).clone()
}

/// Away to where mu times a component overflows, and the answer is a NaN: in a step, or in the tail, whose sample then has it.
fn run_off(rng: &mut Random) -> Forecast {
    let mut f = orbit(rng, 7000.0, 7000.0, (1.0, 100.0));
    let way = if f.tf >= f.t0 { f.h.abs() } else { -f.h.abs() };
    let end = ((f.tf - f.t0) / f.h).abs();
    let ahead = rng.pick(&[end, end - 0.1, end + 0.1, end.floor(), end / 2.0]) + 0.3 * rng.unit();
    let far = f64::MAX / MU;
    let i = rng.below(3) as usize;
    f.v[i] = rng.unit() * far * 1e-3 / f.h;
    f.r[i] = far.copysign(f.v[i] * way) - f.v[i] * way * ahead;
    f
}

/// From rest, or nearly, and from some kilometres up: a fall through the centre, or away from it after one step too long.
fn fall(rng: &mut Random) -> Forecast {
    let mut f = orbit(rng, 1.0, 3000.0, (1e-4, 100.0));
    f.v = match rng.below(3) {
        0 => [0.0; 3],
        1 => f.r.map(|x| -x * rng.unit().abs()),
        _ => any_way(rng, 0.1),
    };
    f
}

/// At the distance where refusal 15 begins.
fn at_the_limit(rng: &mut Random) -> Forecast {
    let mut f = orbit(rng, 1.0, 1.0, (1e-6, 1e-3));
    let one = rng.pick(&[1.0, next_down(1.0), next_up(1.0), -1.0]);
    if rng.once_in(2) {
        f.r = rng.pick(&[[one, 0.0, 0.0], [0.0, one, -0.0], [0.6, 0.0, 0.8], [1e-9, one, 1e-9]]);
    }
    f
}

fn refused(rng: &mut Random) -> Forecast {
    let mut f = orbit(rng, 6500.0, 42000.0, (1.0, 600.0));
    match rng.below(6) {
        0 => f.h = rng.pick(&[0.0, -0.0]),
        1 => f.h = rng.pick(&SPECIAL),
        2 => f.tf = rng.pick(&[f.t0, f64::NAN, f64::INFINITY, f64::NEG_INFINITY, next_up(f.t0)]),
        3 => f.t0 = rng.pick(&[f64::NAN, f64::INFINITY, f64::NEG_INFINITY]),
        4 => f.tf = f.t0 + f.h * from_to(rng, -8.5, 8.5),
        _ => f.tf = rng.pick(&[next_down(f.t0 + 8.0 * f.h), f.t0 - 8.0 * f.h, next_up(f.t0 - 8.0 * f.h)]),
    }
    f
}

/// Infinities, NaN, zeros, subnormal and huge numbers among the states; sometimes any bits.
fn strange(rng: &mut Random) -> Forecast {
    let mut f = orbit(rng, 6500.0, 42000.0, (1.0, 600.0));
    let number = |rng: &mut Random| match rng.below(4) {
        0 => f64::from_bits(rng.bits()),
        1 => rng.pick(&SPECIAL),
        2 => component(rng),
        _ => rng.unit() * 10f64.powi(rng.below(616) as i32 - 308),
    };
    for _ in 0..1 + rng.below(3) {
        let i = rng.below(6) as usize;
        *f.r.iter_mut().chain(&mut f.v).nth(i).unwrap() = number(rng);
    }
    if rng.once_in(8) {
        f.h = rng.unit() * 10f64.powi(rng.below(600) as i32 - 300);
        span(rng, &mut f, 12.0);
    }
    f
}

/// Steps down to the smallest, where the running sums lose all but themselves.
fn tiny(rng: &mut Random) -> Forecast {
    let mut f = orbit(rng, 6500.0, 42000.0, (1e-9, 1e-3));
    if rng.once_in(3) {
        let smallest = f64::from_bits(1 + rng.below(9));
        f.h = rng.pick(&[smallest, 1e-300, 1e-200, 1e-160, 1e-100, 1e-12]);
        let n = steps(rng);
        span(rng, &mut f, n);
    }
    f
}

fn forecast(rng: &mut Random) -> Forecast {
    match rng.below(20) {
        0..=5 => orbit(rng, 6500.0, 9000.0, (1.0, 180.0)),
        6 | 7 => orbit(rng, 9000.0, 1e6, (30.0, 7200.0)),
        8 => orbit(rng, 6500.0, 42000.0, (200.0, 1e5)),
        9..=11 => dive(rng),
        12 if rng.once_in(2) => graze(rng),
        12 => graze_at_last(rng),
        13 => fall(rng),
        14 => at_the_limit(rng),
        15 | 16 => refused(rng),
        17 => strange(rng),
        18 => run_off(rng),
        _ => tiny(rng),
    }
}

/// Only runs that are over within some hundred steps: a clock that sticks would fill a million lines.
pub fn random(seed: u64, count: u64, out: &mut impl Write) -> io::Result<()> {
    let mut rng = Random(seed);
    let mut written = 0;
    while written < count {
        let mut f = forecast(&mut rng);
        for x in [&mut f.t0, &mut f.tf, &mut f.h].into_iter().chain(&mut f.r).chain(&mut f.v) {
            *x = one_nan(*x);
        }
        if f.is_short() {
            writeln!(out, "{}", f.words())?;
            written += 1;
        }
    }
    Ok(())
}
