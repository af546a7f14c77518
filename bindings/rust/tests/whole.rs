// SPDX-License-Identifier: MIT OR Apache-2.0
//! The whole-second profile over the real library: costs, refusals in their order, and runs held to what was told of them.
#![cfg(all(target_arch = "x86_64", target_os = "linux"))]
mod common;

use common::{force, run, start, PLAIN, SAMPLED};
use gauss_jackson::{forecast, Cost, Refusal, Reply, Run, Sample, Settings, Triple, SAMPLE_NUMBERS};

/// 2^50, for times; and the longest step.
const FARTHEST: f64 = 1_125_899_906_842_624.0;
const LONGEST: f64 = 1e9;

fn start_whole(settings: Settings, t0: f64, tf: f64) -> Result<(Run, Reply, Cost), Refusal> {
    Run::start_whole(settings, t0, tf, Triple::from([1.0, 2.0, 3.0]), Triple::default())
}

/// The cost or the refusal, which a forecast and a start tell alike.
fn told(settings: Settings, t0: f64, tf: f64) -> Result<Cost, Refusal> {
    let told = forecast(settings, t0, tf);
    assert_eq!(start_whole(settings, t0, tf).map(|(_, _, cost)| cost), told, "{t0} to {tf} by {settings:?}");
    told
}

fn cost(steps: u64, samples: usize, least: u64, most: u64) -> Cost {
    Cost { steps, samples, numbers: SAMPLE_NUMBERS * samples, least, most }
}

#[test]
fn a_year_of_minutes() {
    let (year, defaults) = (31_536_000.0, Settings::default());
    assert_eq!(told(Settings { samples: true, ..defaults }, 0.0, year), Ok(cost(525_600, 525_601, 525_645, 1_576_925)));
    assert_eq!(told(defaults, 0.0, year), Ok(cost(525_600, 0, 525_645, 1_576_925)));
    assert_eq!(told(defaults, year, 0.0), told(defaults, 0.0, year));
}

#[test]
fn short_runs() {
    let by = |h: f64| Settings { h, ..PLAIN };
    assert_eq!(told(PLAIN, 0.0, 8.0), Ok(cost(8, 0, 53, 57)));
    assert_eq!(told(SAMPLED, 0.0, 9.0), Ok(cost(9, 10, 54, 59)));
    assert_eq!(told(by(2.0), 0.0, 17.0), Ok(cost(9, 0, 57, 61)));
    assert_eq!(told(Settings { samples: true, ..by(-2.0) }, 0.0, 17.0), Ok(cost(9, 10, 58, 62)));
    assert_eq!(told(by(-10.0), 100.0, 20.0), Ok(cost(8, 0, 53, 57)));
    assert_eq!(told(Settings { max_startup_iters: 0, max_corrector_iters: 0, ..PLAIN }, 0.0, 8.0), Ok(cost(8, 0, 45, 45)));
    assert_eq!(told(Settings { max_startup_iters: 100, max_corrector_iters: 100, ..PLAIN }, 0.0, 8.0), Ok(cost(8, 0, 53, 1245)));
}

/// Each wrong value in turn is put right, and the next one is told.
#[test]
fn refusals_come_in_their_order() {
    let settings = Settings { h: 2.5, max_steps: 1_000_001, ..PLAIN };
    assert_eq!(told(settings, f64::NAN, 7.0), Err(Refusal::Setting));
    let settings = Settings { max_steps: 2, ..settings };
    assert_eq!(told(settings, f64::NAN, 7.0), Err(Refusal::BlankDate));
    assert_eq!(told(settings, 0.0, 7.0), Err(Refusal::NotWhole));
    let settings = Settings { h: 1.0, ..settings };
    assert_eq!(told(settings, 0.0, 7.0), Err(Refusal::StepNotFinite));
    assert_eq!(told(settings, 0.0, 8.0), Err(Refusal::TooFewSteps));
    assert_eq!(told(Settings { max_steps: 8, ..settings }, 0.0, 8.0), Ok(cost(8, 0, 53, 57)));
}

/// A step of zero is too short here; for a plain start it is no step.
#[test]
fn what_is_not_whole_is_refused() {
    let refused = |t0, tf, h| told(Settings { h, ..PLAIN }, t0, tf) == Err(Refusal::NotWhole);
    assert!(refused(0.5, 9.0, 1.0) && refused(0.0, 8.5, 1.0) && refused(0.0, 90.0, 1.5));
    assert!(refused(5e-324, 9.0, 1.0) && refused(0.0, FARTHEST - 0.5, LONGEST));
    for h in [0.0, -0.0, 0.5, 5e-324] {
        assert!(refused(0.0, 8.0, h), "a step of {h}");
    }
    assert_eq!(start(Settings { h: 0.0, ..PLAIN }, 0.0, 8.0).unwrap_err(), Refusal::StepNotFinite);
}

/// Either bound is within; the next whole number is not.
#[test]
fn bounds_are_within() {
    for way in [1.0, -1.0] {
        let (far, long) = (way * FARTHEST, Settings { h: way * LONGEST, ..PLAIN });
        let eight = Ok(cost(8, 0, 53, 57));
        assert_eq!((told(PLAIN, far, far - 8.0 * way), told(PLAIN, far - 8.0 * way, far)), (eight, eight));
        assert_eq!(told(PLAIN, far + way, far - 8.0 * way), Err(Refusal::NotWhole));
        assert_eq!(told(PLAIN, far - 8.0 * way, far + way), Err(Refusal::NotWhole));
        assert_eq!(told(long, 0.0, 8.0 * LONGEST), eight);
        assert_eq!(told(Settings { h: way * (LONGEST + 1.0), ..PLAIN }, 0.0, 9.0 * LONGEST), Err(Refusal::NotWhole));
        assert_eq!(told(long, 0.0, way * 1e15).map(|cost| cost.steps), Ok(1_000_000));
        assert_eq!(told(long, 0.0, way * (1e15 + 1.0)), Err(Refusal::TooFewSteps));
    }
}

#[test]
fn the_other_zero_is_zero() {
    assert_eq!(told(PLAIN, -0.0, 8.0), told(PLAIN, 0.0, 8.0));
    assert_eq!(told(PLAIN, 8.0, -0.0), Ok(cost(8, 0, 53, 57)));
}

/// Runs of each kind: with a tail and without, backward, by every pass and by tolerances.
fn several() -> [(Settings, f64, f64); 5] {
    let defaults = Settings { h: 1.0, ..Settings::default() };
    let many = Settings { h: 7.0, max_startup_iters: 3, max_corrector_iters: 4, ..SAMPLED };
    let loose = Settings { corrector_tol: 1e300, startup_tol: 1e300, ..defaults };
    let by_three = Settings { h: -3.0, samples: true, ..defaults };
    [(PLAIN, 0.0, 8.0), (many, 300.0, 5.0), (defaults, -0.0, 40.0), (by_three, -20.0, 31.0), (loose, 0.0, 12.0)]
}

/// Question by question, down to the bytes of the stored run.
#[test]
fn it_is_the_plain_starts_own_run() {
    for (settings, t0, tf) in several() {
        let (mut whole, mut reply, cost) = start_whole(settings, t0, tf).unwrap();
        let mut plain = run(settings, t0, tf);
        let (mut one, mut other) = (vec![0.0; cost.numbers], vec![0.0; cost.numbers]);
        assert_eq!(plain.open_question(), Ok(reply));
        while let Reply::Ask { number, t, r, v } = reply {
            assert_eq!(whole.store().unwrap(), plain.store().unwrap());
            reply = whole.answer(number, force(t, r, v), &mut one).unwrap();
            assert_eq!(plain.answer(number, force(t, r, v), &mut other), Ok(reply));
        }
        assert_eq!(one, other);
    }
}

type Force = fn(f64, Triple, Triple) -> Triple;

#[test]
fn it_finishes_within_its_cost_whatever_the_force_says() {
    let forces: [Force; 4] =
        [force, |_, _, _| Triple::default(), |_, _, _| Triple::from([f64::NAN; 3]), |t, _, _| Triple::from([t * 1e300; 3])];
    for (settings, t0, tf) in several() {
        for force in forces {
            let (mut run, _, cost) = start_whole(settings, t0, tf).unwrap();
            // Room for one sample more than is said, which stays empty.
            let mut room = vec![f64::NAN; cost.numbers + SAMPLE_NUMBERS];
            let end = run.drive(force, &mut room).unwrap();
            assert_eq!((end.t, end.steps), (tf, cost.steps));
            assert!((cost.least..=cost.most).contains(&end.evals), "{} answers, {cost:?}", end.evals);
            assert_eq!(Sample::view(&room).iter().filter(|sample| !sample.t.is_nan()).count(), cost.samples);
        }
    }
}

/// Tolerances of zero make every pass, and wide ones the first alone.
#[test]
fn both_bounds_are_met() {
    for (tolerance, samples) in [(0.0, false), (-1.0, true)] {
        let all = Settings { corrector_tol: tolerance, startup_tol: tolerance, samples, h: 4.0, ..Settings::default() };
        let (mut run, _, cost) = start_whole(all, 0.0, 83.0).unwrap();
        assert_eq!(run.drive(force, &mut vec![0.0; cost.numbers]).unwrap().evals, cost.most);
        let first = Settings { corrector_tol: 1e300, startup_tol: 1e300, ..all };
        let (mut run, _, cost) = start_whole(first, 0.0, 83.0).unwrap();
        assert_eq!(run.drive(force, &mut vec![0.0; cost.numbers]).unwrap().evals, cost.least);
    }
}

#[test]
fn a_number_less_than_was_said_is_too_little_room() {
    let (mut run, _, cost) = start_whole(SAMPLED, 0.0, 12.0).unwrap();
    let mut room = vec![0.0; cost.numbers];
    assert_eq!(run.clone().drive(force, &mut room[1..]), Err(Refusal::SampleRoom));
    assert!(run.drive(force, &mut room).is_ok());
}
