// SPDX-License-Identifier: MIT OR Apache-2.0
//! Rooms that begin at a sample, over the real library: a small one, used again, beside one for all samples; and the count of samples stored.
#![cfg(all(target_arch = "x86_64", target_os = "linux"))]
mod common;

use common::{force, start, PLAIN, SAMPLED};
use gauss_jackson::{numbers_for, Answered, Refusal, Reply, Run, Settings, Triple, SAMPLE_NUMBERS};

const SMALL: usize = 5 * SAMPLE_NUMBERS;
const UNTOUCHED: f64 = 12345.5;

/// What a run told with a room: every count of samples stored, the last outcome, and the samples by their bits.
#[derive(Debug, PartialEq)]
struct Played {
    stored: Vec<u64>,
    end: Result<Reply, Refusal>,
    samples: Vec<u64>,
}

impl Played {
    fn all_stored(&self) -> u64 {
        self.stored.iter().sum()
    }
}

fn bits(numbers: &[f64]) -> impl Iterator<Item = u64> + '_ {
    numbers.iter().map(|x| x.to_bits())
}

/// Fifty numbers that begin at the samples stored so far; past what was stored nothing is written.
fn play_small(settings: Settings, t0: f64, tf: f64) -> Played {
    let (mut run, reply) = start(settings, t0, tf).unwrap();
    let mut played = Played { stored: vec![], end: Ok(reply), samples: vec![] };
    while let Ok(Reply::Ask { number, t, r, v }) = played.end {
        let mut room = [UNTOUCHED; SMALL];
        let told = run.answer_from(number, force(t, r, v), played.all_stored(), &mut room);
        let (filled, rest) = room.split_at(SAMPLE_NUMBERS * told.stored as usize);
        assert!(rest.iter().all(|x| *x == UNTOUCHED), "written past what was stored");
        played.samples.extend(bits(filled));
        played.stored.push(told.stored);
        played.end = told.outcome;
    }
    played
}

/// One room for all samples, from sample 0 on.
fn play_large(settings: Settings, t0: f64, tf: f64) -> Played {
    let (mut run, reply) = start(settings, t0, tf).unwrap();
    let mut room = vec![UNTOUCHED; numbers_for(200)];
    let mut played = Played { stored: vec![], end: Ok(reply), samples: vec![] };
    while let Ok(Reply::Ask { number, t, r, v }) = played.end {
        let told = run.answer_from(number, force(t, r, v), 0, &mut room);
        played.stored.push(told.stored);
        played.end = told.outcome;
    }
    let (filled, rest) = room.split_at(SAMPLE_NUMBERS * played.all_stored() as usize);
    assert!(rest.iter().all(|x| *x == UNTOUCHED), "written past what was stored");
    played.samples.extend(bits(filled));
    played
}

/// Forward and backward, with a tail and without, by tolerances and by all passes, and cut short by `max_steps`.
fn cases() -> Vec<(Settings, f64, f64)> {
    let wide = Settings { h: 3.0, max_startup_iters: 12, startup_tol: 1e-13, corrector_tol: 1e-13, ..SAMPLED };
    let short = |max_steps| (Settings { max_steps, ..SAMPLED }, 0.0, 30.0);
    vec![
        (SAMPLED, 0.0, 8.0),
        (Settings { h: -2.0, ..SAMPLED }, 0.0, 17.0),
        (Settings { max_corrector_iters: 3, ..SAMPLED }, 50.0, -3.5),
        (wide, -7.0, 101.0),
        short(0),
        short(4),
        short(9),
        short(29),
    ]
}

#[test]
fn a_small_room_gives_what_a_large_one_gives() {
    for (settings, t0, tf) in cases() {
        let small = play_small(settings, t0, tf);
        assert_eq!(small, play_large(settings, t0, tf), "{t0} to {tf} by {}", settings.h);
    }
}

/// None, then the startup's five, then one a step, also with the end or with refusal 2.
#[test]
fn the_counts_add_up_to_the_samples() {
    for (settings, t0, tf) in cases() {
        let played = play_small(settings, t0, tf);
        let told: Vec<u64> = played.stored.iter().copied().filter(|n| *n > 0).collect();
        assert_eq!(told[0], 5);
        assert!(told[1..].iter().all(|n| *n == 1), "{told:?}");
        let steps = match played.end {
            Ok(Reply::Done { steps, .. }) => steps,
            refused => {
                assert_eq!(refused, Err(Refusal::MaxStepsExceeded));
                settings.max_steps.max(4)
            }
        };
        assert_eq!(played.all_stored(), steps + 1);
        // The last sample comes with the last call: nothing else would tell of it.
        assert_eq!(played.stored.last(), Some(if steps > 4 { &1 } else { &5 }));
    }
}

#[test]
fn without_samples_nothing_is_stored() {
    for from in [0, 3, u64::MAX] {
        let (mut run, mut reply) = start(PLAIN, 0.0, 9.0).unwrap();
        while let Reply::Ask { number, t, r, v } = reply {
            let told = run.answer_from(number, force(t, r, v), from, &mut []);
            assert_eq!(told.stored, 0);
            reply = told.outcome.unwrap();
        }
        assert!(matches!(reply, Reply::Done { steps: 9, .. }));
    }
}

/// The answer to a question, on a copy of the run.
fn answered(run: &Run, question: Reply, from: u64, room: &mut [f64]) -> (Run, Answered) {
    let mut copy = run.clone();
    match question {
        Reply::Ask { number, t, r, v } => {
            let told = copy.answer_from(number, force(t, r, v), from, room);
            (copy, told)
        }
        Reply::Done { .. } => panic!("there is no question left"),
    }
}

/// A run with so many samples stored, at the question whose answer stores the next.
fn before_sample(samples: u64) -> (Run, Reply) {
    let (mut run, mut reply) = start(SAMPLED, 0.0, 20.0).unwrap();
    let mut so_far = 0;
    loop {
        let (next, told) = answered(&run, reply, so_far, &mut [0.0; SMALL]);
        if so_far == samples && told.stored > 0 {
            return (run, reply);
        }
        so_far += told.stored;
        run = next;
        reply = told.outcome.unwrap();
    }
}

/// A sample that is due before the room's first: refusal 6, as where there is too little room, with nothing written and the run at its end.
#[test]
fn a_sample_before_the_room_is_refused() {
    for samples in [0, 5, 12] {
        let (run, reply) = before_sample(samples);
        for from in [samples + 1, samples + 5, u64::MAX / 10, u64::MAX] {
            let mut room = [UNTOUCHED; SMALL];
            let (ended, told) = answered(&run, reply, from, &mut room);
            assert_eq!(told, Answered { outcome: Err(Refusal::SampleRoom), stored: 0 });
            assert_eq!(room, [UNTOUCHED; SMALL]);
            assert_eq!(ended.open_question(), Err(Refusal::NoQuestion));
        }
    }
}

/// From each sample up to the one that is due the room may begin, if it reaches far enough.
#[test]
fn a_room_may_begin_at_any_sample_up_to_the_next() {
    let (run, reply) = before_sample(12);
    for from in 0..=12 {
        let place = SAMPLE_NUMBERS * (12 - from) as usize;
        let mut room = vec![UNTOUCHED; place + SAMPLE_NUMBERS + 3];
        let (_, told) = answered(&run, reply, from, &mut room);
        assert_eq!((told.outcome.is_ok(), told.stored), (true, 1));
        assert_eq!(room[place], 12.0);
        room.drain(place..place + SAMPLE_NUMBERS);
        assert!(room.iter().all(|x| *x == UNTOUCHED));
        let mut short = vec![UNTOUCHED; place + SAMPLE_NUMBERS - 1];
        assert_eq!(answered(&run, reply, from, &mut short).1, Answered { outcome: Err(Refusal::SampleRoom), stored: 0 });
        assert!(short.iter().all(|x| *x == UNTOUCHED));
    }
}

/// Refusals that change nothing store nothing either.
#[test]
fn stored_is_told_with_every_refusal() {
    let (mut run, _) = start(SAMPLED, 0.0, 8.0).unwrap();
    let refused = |outcome| Answered { outcome: Err(outcome), stored: 0 };
    assert_eq!(run.answer_from(1, Triple::default(), 0, &mut [0.0; SMALL]), refused(Refusal::NotThatQuestion));
    run.drive(force, &mut [0.0; numbers_for(8)]).unwrap();
    assert_eq!(run.answer_from(0, Triple::default(), 0, &mut [0.0; SMALL]), refused(Refusal::NoQuestion));
}
