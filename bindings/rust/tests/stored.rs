// SPDX-License-Identifier: MIT OR Apache-2.0
//! Runs put away and taken up over the real library: at every question, by older and mixed forms, and by forms that are none.
#![cfg(all(target_arch = "x86_64", target_os = "linux"))]
mod common;

use common::{force, start, PLAIN, SAMPLED};
use gauss_jackson::{numbers_for, Refusal, Reply, Run, Settings, Triple, STORED_SIZE};

type Form = [u8; STORED_SIZE];
const BLOCK: usize = 512;

/// A reply by its bits, since `==` takes one zero for the other and no NaN for itself.
fn bits(reply: Reply) -> Vec<u64> {
    let (counts, t, r, v) = match reply {
        Reply::Ask { number, t, r, v } => ([u64::from(number), 0, 0], t, r, v),
        Reply::Done { t, r, v, evals, steps, startup_iters } => ([evals, steps, startup_iters], t, r, v),
    };
    let floats = [t, r.x, r.y, r.z, v.x, v.y, v.z].map(f64::to_bits);
    [&counts[..], &floats].concat()
}

/// Every reply of a run up to its end, by its bits, and its samples; `between` stands between any two questions.
fn followed(settings: Settings, t0: f64, tf: f64, between: fn(Run, Reply) -> Run) -> (Vec<Vec<u64>>, Vec<u64>) {
    let (mut run, mut reply) = start(settings, t0, tf).unwrap();
    let (mut told, mut samples) = (vec![bits(reply)], vec![0.0; numbers_for(30)]);
    while let Reply::Ask { number, t, r, v } = reply {
        run = between(run, reply);
        reply = run.answer(number, force(t, r, v), &mut samples).unwrap();
        told.push(bits(reply));
    }
    (told, samples.into_iter().map(f64::to_bits).collect())
}

/// The run goes into the form and another one comes out, with the open question; stored again, that one gives the same form.
fn away_and_back(run: Run, open: Reply) -> Run {
    let form = run.store().unwrap();
    let (again, question) = Run::load(&form).unwrap();
    assert_eq!(bits(question), bits(open));
    assert_eq!(again.store(), Ok(form));
    again
}

#[test]
fn at_every_question_it_makes_no_difference() {
    let settings = [
        (PLAIN, 0.0, 8.0),
        (Settings { h: 2.0, ..SAMPLED }, 0.0, 17.0),
        (Settings { h: 10.0, max_startup_iters: 3, max_corrector_iters: 2, ..SAMPLED }, 300.0, 5.0),
        (Settings { h: 0.125, corrector_tol: 1e-9, startup_tol: 1e-9, max_startup_iters: 12, ..PLAIN }, -1.0, 2.0),
        (Settings { max_corrector_iters: 0, max_startup_iters: 0, ..PLAIN }, 0.0, 9.0),
    ];
    for (settings, t0, tf) in settings {
        assert_eq!(followed(settings, t0, tf, away_and_back), followed(settings, t0, tf, |run, _| run));
    }
}

/// After so many answers.
fn after(answers: usize) -> (Run, Reply) {
    let (mut run, mut reply) = start(PLAIN, 0.0, 30.0).unwrap();
    for _ in 0..answers {
        reply = answered(&mut run, reply);
    }
    (run, reply)
}

fn answered(run: &mut Run, reply: Reply) -> Reply {
    match reply {
        Reply::Ask { number, t, r, v } => run.answer(number, force(t, r, v), &mut []).unwrap(),
        Reply::Done { .. } => panic!("no question is open"),
    }
}

/// What was answered since does not count: the same questions come once more, and the end counts one line.
#[test]
fn an_older_form_asks_again() {
    let (mut run, mut reply) = after(60);
    let old = run.store().unwrap();
    for _ in 0..20 {
        reply = answered(&mut run, reply);
    }
    let (mut again, mut asked) = Run::load(&old).unwrap();
    for _ in 0..20 {
        asked = answered(&mut again, asked);
    }
    assert_eq!(bits(asked), bits(reply));
    assert_eq!(again.drive(force, &mut []), after(0).0.drive(force, &mut []));
}

#[test]
fn an_ended_run_is_not_stored() {
    let (mut run, _) = after(0);
    run.drive(force, &mut []).unwrap();
    assert_eq!(run.store(), Err(Refusal::NoQuestion));
}

/// Block `block` with the check that its words ask for.
fn sealed(mut form: Form, block: usize) -> Form {
    let (words, check) = form[BLOCK * block..BLOCK * (block + 1)].split_at_mut(BLOCK - 4);
    let sum = words.chunks(4).fold(1u32, |sum, word| sum.wrapping_add(u32::from_le_bytes(word.try_into().unwrap())));
    check.copy_from_slice(&sum.to_le_bytes());
    form
}

/// With another byte at a place, and the check of its block as it was.
fn changed(mut form: Form, place: usize) -> Form {
    form[place] ^= 1;
    form
}

#[test]
fn bytes_that_are_no_form() {
    let form = after(50).0.store().unwrap();
    let refused = |bytes: &[u8]| Run::load(bytes).unwrap_err();
    for length in [0, 1, 512, 2047] {
        assert_eq!(refused(&form[..length]), Refusal::StoredShape);
    }
    assert_eq!(refused(&[&form[..], &[0]].concat()), Refusal::StoredShape);
    for place in 0..STORED_SIZE {
        assert_eq!(refused(&changed(form, place)), Refusal::StoredShape, "byte {place}");
    }
    for block in 0..4 {
        assert_eq!(refused(&sealed(changed(form, BLOCK * block), block)), Refusal::StoredShape, "the number of block {block}");
    }
    let mut swapped = form;
    swapped.rotate_left(BLOCK);
    assert_eq!(refused(&swapped), Refusal::StoredShape);
}

/// Word `word` of block `block` replaced, and the block sealed again.
fn with_word(mut form: Form, block: usize, word: usize, value: u32) -> Form {
    let place = BLOCK * block + 4 * word;
    form[place..place + 4].copy_from_slice(&value.to_le_bytes());
    sealed(form, block)
}

#[test]
fn whole_blocks_that_hold_no_run() {
    let (run, open) = after(50);
    let form = run.store().unwrap();
    assert_eq!(sealed(form, 0), form);
    // Word 0 of a block is its number: content word j of block 0 is its word j + 1.
    let wrong = [(1, 0), (1, 2), (2, 0), (2, 9), (2, 256 + 6), (3, 101), (4, 1), (5, 51), (5, 65536 + 50), (6, 2), (7, 1)];
    for (word, value) in wrong {
        assert_eq!(Run::load(&with_word(form, 0, word, value)).unwrap_err(), Refusal::StoredContent, "word {word} as {value}");
    }
    for word in 1..127 {
        assert_eq!(Run::load(&with_word(form, 3, word, 1)).unwrap_err(), Refusal::StoredContent, "unused word {word}");
    }
    // What was refused cost nothing.
    assert_eq!(run.open_question(), Ok(open));
    assert_eq!(run.store(), Ok(form));
}

/// The floats of triples 39 and 40, by their upper words in block 1; the lower ones are zero here. Tolerances may be anything.
#[test]
fn a_form_with_a_blank_date_holds_no_run() {
    let form = after(50).0.store().unwrap();
    let upper_word = |float: usize| 1 + (6 + 2 * float + 1 - 126);
    for upper in [0x7ff8_0000, 0xfff8_0000, 0x7ff0_0000, 0xfff0_0000] {
        for (float, name) in [(117, "h"), (120, "t0"), (121, "tf"), (122, "the step with its direction")] {
            let blank = with_word(form, 1, upper_word(float), upper);
            assert_eq!(Run::load(&blank).unwrap_err(), Refusal::StoredContent, "{name} as {upper:x}");
        }
        for tolerance in [118, 119] {
            assert!(Run::load(&with_word(form, 1, upper_word(tolerance), upper)).is_ok());
        }
    }
}

/// Block 0 has the question's number and block 2 the count of answers, which must agree; floats are taken as they come, but for dates.
#[test]
fn mixed_blocks_may_load_unnoticed() {
    let (one, other) = (after(50).0.store().unwrap(), after(52).0.store().unwrap());
    let mix = |block: usize| {
        let mut mixed = one;
        mixed[BLOCK * block..BLOCK * (block + 1)].copy_from_slice(&other[BLOCK * block..BLOCK * (block + 1)]);
        mixed
    };
    assert_ne!(mix(1), one);
    let (mut run, question) = Run::load(&mix(1)).unwrap();
    assert!(matches!(question, Reply::Ask { number: 50, .. }));
    assert_eq!(run.answer(51, Triple::default(), &mut []), Err(Refusal::NotThatQuestion));
    assert!(run.answer(50, Triple::default(), &mut []).is_ok());
    for block in [0, 2] {
        assert_eq!(Run::load(&mix(block)).unwrap_err(), Refusal::StoredContent);
    }
}

/// A sum does not see the order of what it adds: the two halves of a[5].x stand side by side.
#[test]
fn two_words_that_changed_places_are_not_found() {
    let mut form = after(50).0.store().unwrap();
    let place = BLOCK + 4 * (1 + 6 + 2 * 69 - 126);
    form[place..place + 8].rotate_left(4);
    let (run, question) = Run::load(&form).unwrap();
    assert_eq!((run.store(), run.open_question()), (Ok(form), Ok(question)));
    assert_ne!(after(50).0.store(), Ok(form));
}

/// Answers of NaN are stored by one pattern, whatever theirs was; infinities and the sign of zero by their own bits.
#[test]
fn odd_numbers_are_stored() {
    let (mut run, mut reply) = after(0);
    let answers = [f64::from_bits(0xfff0_dead_beef_0001), f64::INFINITY, -0.0];
    for (number, x) in answers.into_iter().enumerate() {
        reply = run.answer(number as u16, Triple { x, y: -x, z: 1.0 }, &mut []).unwrap();
    }
    assert!(matches!(reply, Reply::Ask { number: 3, .. }));
    let form = run.store().unwrap();
    let pairs: Vec<u64> = words(&form).chunks(2).map(|pair| u64::from(pair[0]) | u64::from(pair[1]) << 32).collect();
    // a[4] stands as float 66, the first two slopes as floats 81 to 86; floats begin at pair 3.
    assert_eq!(pairs[3 + 66..][..3], [0x7ff8 << 48, 0x7ff8 << 48, 1f64.to_bits()]);
    assert_eq!(pairs[3 + 81..][..2], [f64::INFINITY.to_bits(), f64::NEG_INFINITY.to_bits()]);
    assert_eq!(pairs[3 + 84..][..2], [(-0.0f64).to_bits(), 0]);
    assert_eq!(Run::load(&form).unwrap().0.store(), Ok(form));
}

/// The 504 words of content.
fn words(form: &Form) -> Vec<u32> {
    let content = form.chunks(BLOCK).flat_map(|block| block[4..BLOCK - 4].chunks(4));
    content.map(|word| u32::from_le_bytes(word.try_into().unwrap())).collect()
}
