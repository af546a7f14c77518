// SPDX-License-Identifier: MIT OR Apache-2.0
//! An orbit 400 km up, carried forward for a day in one-minute steps, and read off between the steps, for a ground station too. The same orbit
//! as examples/c, over the safe crate; each operation of the force in the same order, so that both give the same bits. Units are km and seconds.
mod away;
mod print;
mod station;

pub use away::away_main;
use gauss_jackson::{Cost, Refusal, Reply, Run, Sample, Settings, State, Triple};

const ROWS: usize = 24;
const DAY: f64 = 86400.0;
const MU: f64 = 398600.4418;
const EARTH: f64 = 6378.137;
const RADIUS: f64 = 6778.137;
/// Cosine and sine of an inclination of 51.6 degrees.
const INCLINATION: (f64, f64) = (0.6211477802783103, 0.7836934573258398);

/// A row of the table: a time, with position, velocity and acceleration.
struct Row {
    t: f64,
    at: State,
}

fn distance(r: Triple) -> f64 {
    ((r.x * r.x + r.y * r.y) + r.z * r.z).sqrt()
}

/// The Earth as a point.
fn force(r: Triple) -> Triple {
    let d = distance(r);
    let cube = (d * d) * d;
    Triple { x: (-MU * r.x) / cube, y: (-MU * r.y) / cube, z: (-MU * r.z) / cube }
}

/// The run of a day, with its first question and, since its times are whole, what it takes.
fn start_day(samples: bool) -> Result<(Run, Reply, Cost), Refusal> {
    let speed = (MU / RADIUS).sqrt();
    let r0 = Triple { x: RADIUS, y: 0.0, z: 0.0 };
    let v0 = Triple { x: 0.0, y: speed * INCLINATION.0, z: speed * INCLINATION.1 };
    // The default step is 60. Samples are off unless asked for, and the slice is then left alone.
    let settings = Settings { samples, ..Settings::default() };
    Run::start_whole(settings, 0.0, DAY, r0, v0)
}

/// Once an hour, and half a minute past: between two samples. The times are in the order of the flight, as a batch must have them.
#[cfg(feature = "dense")]
fn read_off(samples: &[f64]) -> Result<Vec<Row>, Refusal> {
    let times: Vec<f64> = (0..ROWS).map(|row| 3600.0 * row as f64 + 30.0).collect();
    let states = gauss_jackson::interpolate_batch(&times, samples)?;
    Ok(times.into_iter().zip(states).map(|(t, at)| Row { t, at }).collect())
}

/// Once an hour, at a sample: for a library without interpolation.
#[cfg(not(feature = "dense"))]
fn read_off(samples: &[f64]) -> Result<Vec<Row>, Refusal> {
    let hourly = Sample::view(samples).iter().step_by(60).take(ROWS);
    Ok(hourly.map(|s| Row { t: s.t, at: State { r: s.r, v: s.v, a: s.a } }).collect())
}

/// What is printed.
enum Form {
    Table,
    Csv,
    Bits,
}

/// The start tells how much room the samples take. The library has no force of its own: it asks, here by `drive`, for one acceleration after
/// another; an app that answers at its own pace uses `Run::answer`.
fn tell(form: Form) -> Result<(), Refusal> {
    let (mut run, _, cost) = start_day(true)?;
    if matches!(form, Form::Table) {
        print::cost(&cost);
    }
    let mut samples = vec![0.0; cost.numbers];
    // A refusal has ended the run, and goes to the caller with its text; past this line the run has finished.
    let end = run.drive(|_t, r, _v| force(r), &mut samples)?;
    match form {
        Form::Table => print::table(&end, Sample::view(&samples), &read_off(&samples)?),
        Form::Csv => print::csv(Sample::view(&samples)),
        Form::Bits => print::bits(&end, &samples, &read_off(&samples)?),
    }
    Ok(())
}

/// The form that the words of the command line name.
fn form() -> Option<Form> {
    let words: Vec<String> = std::env::args().skip(1).collect();
    match words.iter().map(String::as_str).collect::<Vec<_>>()[..] {
        [] => Some(Form::Table),
        ["--csv"] => Some(Form::Csv),
        ["--bits"] => Some(Form::Bits),
        _ => None,
    }
}

/// The whole program, for a main of Rust or of C: 0, or 1 after a refusal and 2 for other words; both say so on standard error.
#[no_mangle]
pub extern "C" fn orbit_main() -> i32 {
    match form().map(tell) {
        Some(Ok(())) => 0,
        Some(Err(refusal)) => {
            eprintln!("{refusal}");
            1
        }
        None => {
            eprintln!("usage: orbit [--csv | --bits]");
            2
        }
    }
}
