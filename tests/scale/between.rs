// SPDX-License-Identifier: MIT OR Apache-2.0
//! Random tables in order, forward and backward, and times between, at, and outside their samples: both interpolations, and their refusals.
use crate::check::{holds, Verdict};
use crate::force::V3;
use crate::gauss_jackson::GJDenseOutput;
use crate::random::Random;
use crate::raw::{self, BETWEEN_NUMBERS};
use crate::record;
use crate::room::Room;
use crate::tally::Tally;
use crate::with_acceleration::{interpolate, interpolate_batch, Told};
use numeris::ode::OdeError;

type Table = GJDenseOutput<f64, 3>;
type Values = Result<Vec<Told<3>>, OdeError>;

const ODD: [f64; 6] = [f64::NAN, f64::INFINITY, f64::NEG_INFINITY, -0.0, 5e-324, f64::MAX];

/// Times in one direction, strictly but for a table in twenty.
fn times_of(rng: &mut Random, count: usize) -> Vec<f64> {
    let unit = rng.pick(&[60.0, 1.0, 0.1, 1e-9, 1e9, 0.7]);
    let (even, repeats) = (rng.once_in(2), rng.once_in(20));
    let mut t = rng.pick(&[0.0, -0.0, -5.0, 1000.0, 1e-3, 9007199254740992.0]) * unit;
    let mut times = vec![];
    while times.len() < count {
        times.push(t);
        let step = if even { unit } else { unit * (rng.unit() + 1.0001) };
        let next = t + step;
        t = if repeats && rng.once_in(4) { t } else if next > t { next } else { after(t) };
    }
    if rng.once_in(2) {
        times.iter_mut().for_each(|t| *t = -*t);
    }
    times
}

/// The next float on, away from zero or out of it.
fn after(t: f64) -> f64 {
    match t {
        t if t == 0.0 => 5e-324,
        t if t > 0.0 => f64::from_bits(t.to_bits() + 1),
        t => f64::from_bits(t.to_bits() - 1),
    }
}

fn component(rng: &mut Random) -> f64 {
    match rng.below(40) {
        0 => rng.pick(&ODD),
        1 => rng.unit() * 10f64.powi(rng.below(320) as i32 - 160),
        _ => rng.unit() * 7000.0,
    }
}

fn table(rng: &mut Random) -> Table {
    let count = match rng.below(12) {
        0 => rng.below(2),
        1 | 2 => 2,
        _ => 2 + rng.below(30),
    };
    let t = times_of(rng, count as usize);
    let mut three = |_: &f64| V3::from_array([component(rng), component(rng), component(rng)]);
    let (r, v, a) = (t.iter().map(&mut three).collect(), t.iter().map(&mut three).collect(), t.iter().map(&mut three).collect());
    Table { t, r, v, a }
}

/// A sample's own time, one between two, or, where it may lie outside, one past an end or none at all.
fn time(rng: &mut Random, times: &[f64], outside: bool) -> f64 {
    if times.is_empty() {
        return rng.unit();
    }
    let n = rng.below(times.len() as u64) as usize;
    let (here, next) = (times[n], times[(n + 1).min(times.len() - 1)]);
    let past = times[0] + (times[0] - times[times.len() - 1]) * rng.unit();
    match rng.below(if outside { 16 } else { 12 }) {
        0..=3 => here,
        4 => rng.pick(&[times[0], times[times.len() - 1]]),
        5 => f64::NAN,
        6..=11 => here + (next - here) * (rng.unit() + 1.0) * 0.5,
        12 => after(times[times.len() - 1]),
        13 => rng.pick(&ODD),
        14 => past,
        _ => -here,
    }
}

/// A room that holds these numbers, and knows them.
fn lent(rng: &mut Random, numbers: &[f64]) -> Room {
    let mut room = Room::new(rng, numbers.len());
    room.fill(numbers);
    room
}

/// The samples as numbers; now and then not in tens.
fn samples_of(rng: &mut Random, table: &Table) -> Vec<f64> {
    let mut numbers: Vec<f64> = record::tens(table).concat();
    if rng.once_in(24) {
        numbers.extend((0..1 + rng.below(9)).map(|i| i as f64));
    }
    numbers
}

/// How much room there is for k times: enough, more, too little by one or by a time, or too little by far, for position and velocity alone too.
fn size(rng: &mut Random, k: usize) -> usize {
    let enough = BETWEEN_NUMBERS * k;
    match rng.below(12) {
        0 => rng.below(enough as u64 + 1) as usize,
        1 => enough.saturating_sub(rng.pick(&[1, BETWEEN_NUMBERS, 3 * k])),
        2..=6 => enough,
        _ => enough + rng.below(2 * BETWEEN_NUMBERS as u64) as usize,
    }
}

/// 01's number and the values, by the module and the second writing where the shape is right.
fn wanted(values: Values, shaped: bool) -> Result<Vec<f64>, u32> {
    if !shaped {
        return Err(9);
    }
    match values {
        Ok(all) => Ok(all.iter().flatten().flat_map(|x| [x[0], x[1], x[2]]).collect()),
        Err(OdeError::NoDenseOutput) => Err(3),
        Err(OdeError::InterpOutOfBounds) => Err(4),
        Err(_) => Err(0),
    }
}

/// The table, the times and the output, each in a room of its own.
struct Lent {
    times: Room,
    samples: Room,
    out: Room,
}

impl Lent {
    fn call(&mut self, batch: bool) -> u32 {
        let (times, k) = (self.times.lend(), self.times.count());
        let (samples, n) = (self.samples.lend(), self.samples.count());
        let (out, m) = (self.out.lend(), self.out.count());
        unsafe {
            if batch {
                raw::gj_interpolate_batch(times, k, samples, n, out, m)
            } else {
                raw::gj_interpolate(*times, samples, n, out, m)
            }
        }
    }
}

/// One call: told and written as wanted, so many numbers a time and nothing else, or nothing at all.
fn compare(lent: &mut Lent, batch: bool, values: Values, tally: &mut Tally) -> Verdict {
    let shaped = lent.samples.count() % 10 == 0 && lent.out.count() >= BETWEEN_NUMBERS * lent.times.count();
    let told = lent.call(batch);
    match wanted(values, shaped) {
        Ok(all) => {
            holds(told == 0, format_args!("interpolation refused by {told}"))?;
            holds(all.len() == BETWEEN_NUMBERS * lent.times.count(), "the numbers wanted are not so many a time")?;
            lent.out.accept("interpolation", 0, &all)?;
            tally.times += lent.times.count() as u64;
            all.chunks(BETWEEN_NUMBERS).for_each(|one| tally.accelerations.count(&one[one.len() - 3..]));
        }
        Err(refusal) => {
            holds(told == refusal, format_args!("interpolation told {told}, refusal {refusal} was due"))?;
            tally.refused[refusal as usize] += 1;
        }
    }
    lent.times.whole_is_as_expected()?;
    lent.samples.whole_is_as_expected()?;
    lent.out.whole_is_as_expected()
}

fn lend(rng: &mut Random, table: &Table, times: &[f64]) -> Lent {
    let numbers = samples_of(rng, table);
    let count = size(rng, times.len());
    Lent { times: lent(rng, times), samples: lent(rng, &numbers), out: Room::new(rng, count) }
}

/// Times for a batch: mostly all inside, and mostly in the table's order.
fn row(rng: &mut Random, table: &Table) -> Vec<f64> {
    let (count, outside) = (rng.below(12), rng.once_in(4));
    let mut times: Vec<f64> = (0..count).map(|_| time(rng, &table.t, outside)).collect();
    match rng.below(4) {
        0 => (),
        1 => times.sort_by(f64::total_cmp),
        _ if table.t.first() < table.t.last() => times.sort_by(f64::total_cmp),
        _ => times.sort_by(|a, b| b.total_cmp(a)),
    }
    times
}

fn compare_table(table: &Table, rng: &mut Random, tally: &mut Tally) -> Verdict {
    tally.tables += 1;
    for _ in 0..4 {
        let t = time(rng, &table.t, true);
        let mut lent = lend(rng, table, &[t]);
        compare(&mut lent, false, interpolate(t, table).map(|x| vec![x]), tally)?;
    }
    let times = row(rng, table);
    let mut lent = lend(rng, table, &times);
    compare(&mut lent, true, interpolate_batch(&times, table), tally)
}

pub fn compare_random(rng: &mut Random, tally: &mut Tally) -> Verdict {
    let table = table(rng);
    compare_table(&table, rng, tally)
}

/// The samples of a finished run, where their times are in order; out of order 01 decides without the module.
pub fn compare_samples(table: &Table, rng: &mut Random, tally: &mut Tally) -> Verdict {
    let pairs = || table.t.windows(2);
    let ordered = pairs().all(|p| p[0] <= p[1]) || pairs().all(|p| p[0] >= p[1]);
    if ordered {
        compare_table(table, rng, tally)?;
    }
    Ok(())
}
