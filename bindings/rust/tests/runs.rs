// SPDX-License-Identifier: MIT OR Apache-2.0
//! Runs over the real library: counts, ends, and every refusal that a run can meet.
#![cfg(all(target_arch = "x86_64", target_os = "linux"))]
mod common;

use common::{force, run, start, PLAIN, SAMPLED};
use gauss_jackson::{numbers_for, Refusal, Reply, Run, Sample, Settings, Triple};

#[test]
fn the_defaults_are_as_told() {
    let told = Settings { h: 60.0, corrector_tol: 1e-13, startup_tol: 1e-13, max_corrector_iters: 2, max_startup_iters: 12, ..PLAIN };
    assert_eq!(Settings::default(), told);
}

/// Each question is told again by `open_question`, and a clone answers as its run does.
#[test]
fn eight_steps_take_57_answers() {
    let (mut run, mut reply) = start(PLAIN, 0.0, 8.0).unwrap();
    while let Reply::Ask { number, t, r, v } = reply {
        assert_eq!(run.open_question(), Ok(reply));
        let mut copy = run.clone();
        reply = run.answer(number, force(t, r, v), &mut []).unwrap();
        assert_eq!(copy.answer(number, force(t, r, v), &mut []), Ok(reply));
    }
    assert!(matches!(reply, Reply::Done { t, evals: 57, steps: 8, startup_iters: 1, .. } if t == 8.0));
    assert_eq!(run.open_question(), Err(Refusal::NoQuestion));
    assert_eq!(run.answer(0, Triple::default(), &mut []), Err(Refusal::NoQuestion));
}

#[test]
fn driven_to_the_end_with_samples() {
    let mut samples = vec![0.0; numbers_for(9)];
    let end = run(Settings { h: -2.0, ..SAMPLED }, 0.0, 17.0).drive(force, &mut samples).unwrap();
    assert_eq!((end.t, end.steps, end.evals, end.startup_iters), (17.0, 9, 62, 1));
    let samples = Sample::view(&samples);
    for (n, sample) in samples[..9].iter().enumerate() {
        assert_eq!(sample.t, 2.0 * n as f64);
    }
    assert_eq!((samples[9].t, samples[9].r, samples[9].v), (17.0, end.r, end.v));
    assert_eq!(samples[9].a, force(17.0, end.r, end.v));
}

#[test]
fn without_samples_the_slice_is_untouched() {
    let mut numbers = [7.0; 100];
    run(PLAIN, 0.0, 8.0).drive(force, &mut numbers).unwrap();
    assert_eq!(numbers, [7.0; 100]);
}

/// A force that fails leaves its question open; driven again, the run goes on as if nothing had been.
#[test]
fn a_force_that_fails_can_be_asked_again() {
    let whole = run(PLAIN, 0.0, 20.0).drive(force, &mut []).unwrap();
    let mut broken = run(PLAIN, 0.0, 20.0);
    let until_five = |t: f64, r: Triple, v: Triple| if t > 5.0 { Err(Refusal::Other(99)) } else { Ok(force(t, r, v)) };
    assert_eq!(broken.try_drive(until_five, &mut []), Err(Refusal::Other(99)));
    assert!(matches!(broken.open_question(), Ok(Reply::Ask { t, .. }) if t > 5.0));
    assert_eq!(broken.drive(force, &mut []), Ok(whole));
    assert_eq!(broken.drive(force, &mut []), Err(Refusal::NoQuestion));
}

/// The times at which a run asks.
fn times(t0: f64, tf: f64) -> Vec<f64> {
    let mut asked = Vec::new();
    let note = |t, r, v| {
        asked.push(t);
        force(t, r, v)
    };
    run(PLAIN, t0, tf).drive(note, &mut []).unwrap();
    asked
}

#[test]
fn the_startup_asks_four_steps_before_the_start() {
    let (on, back) = (times(100.0, 110.0), times(100.0, 90.0));
    let ends = |t: &[f64]| t.iter().fold((f64::INFINITY, f64::NEG_INFINITY), |(low, high), t| (low.min(*t), high.max(*t)));
    assert_eq!(ends(&on), (96.0, 110.0));
    assert_eq!(ends(&back), (90.0, 104.0));
    assert_eq!(on[..5], [100.0, 100.0, 100.5, 100.5, 101.0]);
    assert!(on.windows(2).any(|pair| pair[1] < pair[0]), "not in order");
}

#[test]
fn a_start_is_refused_by_its_settings_first() {
    let refused = |settings, tf| start(settings, 0.0, tf).unwrap_err();
    assert_eq!(refused(Settings { h: 0.0, ..PLAIN }, 8.0), Refusal::StepNotFinite);
    assert_eq!(refused(PLAIN, 7.0), Refusal::StepNotFinite);
    assert_eq!(refused(Settings { max_steps: 1_000_001, h: 0.0, ..PLAIN }, 8.0), Refusal::Setting);
    assert_eq!(refused(Settings { max_corrector_iters: 101, ..PLAIN }, 8.0), Refusal::Setting);
    assert_eq!(refused(Settings { max_startup_iters: 101, ..PLAIN }, 8.0), Refusal::Setting);
}

#[test]
fn another_number_is_refused_and_the_run_waits() {
    let (mut run, reply) = start(PLAIN, 0.0, 8.0).unwrap();
    assert_eq!(run.answer(1, Triple::default(), &mut []), Err(Refusal::NotThatQuestion));
    assert_eq!(run.open_question(), Ok(reply));
}

/// How many samples stand after an end by refusal.
#[test]
fn samples_stay_after_a_refusal() {
    for (max_steps, stand) in [(0, 5), (4, 5), (7, 8)] {
        let mut numbers = vec![f64::NAN; numbers_for(8)];
        let refused = run(Settings { max_steps, ..SAMPLED }, 0.0, 8.0).drive(force, &mut numbers);
        assert_eq!(refused, Err(Refusal::MaxStepsExceeded));
        assert_eq!(Sample::view(&numbers).iter().filter(|s| !s.t.is_nan()).count(), stand);
    }
    for (room, stand) in [(0, 0), (49, 0), (50, 5), (89, 8)] {
        let mut numbers = vec![f64::NAN; room];
        assert_eq!(run(SAMPLED, 0.0, 8.0).drive(force, &mut numbers), Err(Refusal::SampleRoom));
        assert_eq!(Sample::view(&numbers).iter().filter(|s| !s.t.is_nan()).count(), stand);
    }
}

/// After a setting over its limit, before a step of zero and a span that is too short.
#[test]
fn a_blank_date_is_refused() {
    for x in [f64::NAN, -f64::NAN, f64::INFINITY, f64::NEG_INFINITY] {
        for (t0, tf, h) in [(x, 8.0, 1.0), (0.0, x, 1.0), (0.0, 8.0, x), (x, 8.0, 0.0), (0.0, x, 0.0), (0.0, 0.0, x), (x, x, x)] {
            let settings = Settings { h, ..PLAIN };
            assert_eq!(start(settings, t0, tf).unwrap_err(), Refusal::BlankDate, "{t0} to {tf} by {h}");
            assert_eq!(start(Settings { max_steps: 1_000_001, ..settings }, t0, tf).unwrap_err(), Refusal::Setting);
        }
    }
}

/// Dates alone must be finite, and what is worked out from them need not be.
#[test]
fn other_numbers_may_be_anything() {
    let far = 2f64.powi(1023);
    let settings = Settings { h: far / 16.0, corrector_tol: f64::NAN, startup_tol: f64::INFINITY, ..PLAIN };
    let at = Triple::from([f64::NAN, f64::INFINITY, f64::NEG_INFINITY]);
    for (t0, tf) in [(-far, far), (far, -far)] {
        let (mut run, _) = Run::start(settings, t0, tf, at, at).unwrap();
        let end = run.drive(|_, _, _| at, &mut []).unwrap();
        assert_eq!((end.t, end.steps), (tf, 32));
    }
}

#[test]
fn runs_go_to_other_threads() {
    let end = run(PLAIN, 0.0, 100.0).drive(force, &mut []).unwrap();
    let driven = |mut run: Run| std::thread::spawn(move || run.drive(force, &mut []));
    let threads: Vec<_> = (0..4).map(|_| driven(run(PLAIN, 0.0, 100.0))).collect();
    for thread in threads {
        assert_eq!(thread.join().unwrap(), Ok(end));
    }
}
