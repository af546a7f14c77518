// SPDX-License-Identifier: MIT OR Apache-2.0
//! The safe crate over the real library: counts, states and every refusal that it can meet there.
use gauss_jackson::{forecast, numbers_for, Cost, Refusal, Reply, Run, Settings, Triple, BETWEEN_NUMBERS, SAMPLE_NUMBERS, STORED_SIZE};
use std::ffi::CStr;
use std::os::raw::c_char;

const PLAIN: Settings =
    Settings { h: 1.0, corrector_tol: 0.0, startup_tol: 0.0, max_corrector_iters: 1, max_startup_iters: 1, max_steps: 1_000_000, samples: false };

fn start(settings: Settings) -> Result<(Run, Reply), Refusal> {
    Run::start(settings, 0.0, 8.0, Triple::from([1.0, 2.0, 3.0]), Triple::default())
}

/// To the end by a = -r; tells steps and answers.
fn play(settings: Settings, samples: &mut [f64]) -> Result<(u64, u64), Refusal> {
    let (mut run, mut reply) = start(settings)?;
    loop {
        match reply {
            Reply::Ask { number, r, .. } => {
                assert_eq!(run.open_question(), Ok(reply));
                let a = Triple { x: -r.x, y: -r.y, z: -r.z };
                let mut copy = run.clone();
                reply = run.answer(number, a, samples)?;
                assert_eq!(copy.answer_from(number, a, 0, samples).outcome, Ok(reply));
            }
            Reply::Done { steps, evals, .. } => {
                assert_eq!(run.answer(0, Triple::default(), samples), Err(Refusal::NoQuestion));
                return Ok((steps, evals));
            }
        }
    }
}

fn runs() {
    assert_eq!(Settings::default(), Settings { h: 60.0, corrector_tol: 1e-13, startup_tol: 1e-13, max_corrector_iters: 2, max_startup_iters: 12, ..PLAIN });
    assert_eq!(play(PLAIN, &mut []), Ok((8, 57)));
    let sampled = Settings { samples: true, ..PLAIN };
    let mut samples = vec![0.0; numbers_for(8)];
    assert_eq!(play(sampled, &mut samples), Ok((8, 57)));
    assert_eq!((samples[10], samples[80]), (1.0, 8.0));
    assert_eq!(play(sampled, &mut samples[1..]), Err(Refusal::SampleRoom));
}

fn refusals() {
    assert_eq!(start(Settings { h: 0.0, ..PLAIN }).unwrap_err(), Refusal::StepNotFinite);
    assert_eq!(start(Settings { max_steps: 1_000_001, ..PLAIN }).unwrap_err(), Refusal::Setting);
    assert_eq!(start(Settings { h: f64::NAN, ..PLAIN }).unwrap_err(), Refusal::BlankDate);
    assert_eq!(play(Settings { max_steps: 7, ..PLAIN }, &mut []), Err(Refusal::MaxStepsExceeded));
    let (mut run, reply) = start(PLAIN).unwrap();
    assert_eq!(run.answer(1, Triple::default(), &mut []), Err(Refusal::NotThatQuestion));
    assert_eq!(run.open_question(), Ok(reply));
}

/// Room for five samples, used again, holds what one for all of them holds; how many were stored is told.
fn rooms() {
    let sampled = Settings { samples: true, ..PLAIN };
    let mut large = vec![0.0; numbers_for(8)];
    play(sampled, &mut large).unwrap();
    let (mut run, mut reply) = start(sampled).unwrap();
    let mut small = Vec::new();
    while let Reply::Ask { number, r, .. } = reply {
        let (mut room, so_far) = ([0.0; 5 * SAMPLE_NUMBERS], (small.len() / SAMPLE_NUMBERS) as u64);
        let told = run.answer_from(number, Triple { x: -r.x, y: -r.y, z: -r.z }, so_far, &mut room);
        small.extend_from_slice(&room[..SAMPLE_NUMBERS * told.stored as usize]);
        reply = told.outcome.unwrap();
    }
    assert_eq!(small, large);
}

fn stored() {
    let (mut run, reply) = start(PLAIN).unwrap();
    let form = run.store().unwrap();
    let (mut loaded, question) = Run::load(&form).unwrap();
    assert_eq!((question, loaded.store()), (reply, Ok(form)));
    let force = |_, r: Triple, _| Triple { x: -r.x, y: -r.y, z: -r.z };
    assert_eq!(loaded.drive(force, &mut []), run.drive(force, &mut []));
    assert_eq!(loaded.store(), Err(Refusal::NoQuestion));
    assert_eq!(Run::load(&form[1..]).unwrap_err(), Refusal::StoredShape);
    assert_eq!(Run::load(&[0; STORED_SIZE]).unwrap_err(), Refusal::StoredShape);
}

/// What a forecast tells, and a whole-second start too; its question is the plain start's.
fn costs(settings: Settings, t0: f64, tf: f64) -> Result<Cost, Refusal> {
    let (r0, v0) = (Triple::from([1.0, 2.0, 3.0]), Triple::default());
    let told = forecast(settings, t0, tf);
    match Run::start_whole(settings, t0, tf, r0, v0) {
        Ok((run, reply, cost)) => {
            assert_eq!((Ok(cost), run.open_question()), (told, Ok(reply)));
            assert_eq!(Run::start(settings, t0, tf, r0, v0).unwrap().1, reply);
        }
        Err(refusal) => assert_eq!(Err(refusal), told),
    }
    told
}

fn whole() {
    let sampled = Settings { h: 2.0, samples: true, ..PLAIN };
    assert_eq!(costs(sampled, 0.0, 17.0), Ok(Cost { steps: 9, samples: 10, numbers: 100, least: 58, most: 62 }));
    assert_eq!(costs(Settings { max_steps: 1_000_001, ..PLAIN }, 0.0, 8.0), Err(Refusal::Setting));
    assert_eq!(costs(PLAIN, 0.0, f64::NAN), Err(Refusal::BlankDate));
    assert_eq!(costs(PLAIN, 0.5, 9.5), Err(Refusal::NotWhole));
    assert_eq!(costs(PLAIN, 0.0, 7.0), Err(Refusal::StepNotFinite));
    assert_eq!(costs(Settings { max_steps: 7, ..PLAIN }, 0.0, 8.0), Err(Refusal::TooFewSteps));
}

#[cfg(feature = "dense")]
fn between() {
    use gauss_jackson::{interpolate, interpolate_batch};
    let mut table = vec![0.0; 10];
    table.extend([1.0, 1.0, 1.0, 1.0, 5.0, 5.0, 5.0, 20.0, 20.0, 20.0]);
    let at = interpolate(0.5, &table).unwrap();
    assert_eq!((at.r.z, at.v.x, at.a.y), (0.03125, 0.3125, 2.5));
    assert_eq!(interpolate_batch(&[0.5], &table), Ok(vec![at]));
    assert_eq!(interpolate_batch(&[], &table), Ok(vec![]));
    assert_eq!(interpolate(0.5, &table[1..]), Err(Refusal::Shape));
    assert_eq!(interpolate(0.5, &table[10..]), Err(Refusal::NoDenseOutput));
    assert_eq!(interpolate(0.5, &[]), Err(Refusal::NoDenseOutput));
    assert_eq!(interpolate_batch(&[0.5, 2.0], &table), Err(Refusal::InterpOutOfBounds));
}

#[cfg(not(feature = "dense"))]
fn between() {}

/// The header's numbers, and the crate's names.
const NAMED: [(u16, Refusal); 16] = [
    (1, Refusal::StepNotFinite),
    (2, Refusal::MaxStepsExceeded),
    (3, Refusal::NoDenseOutput),
    (4, Refusal::InterpOutOfBounds),
    (5, Refusal::Setting),
    (6, Refusal::SampleRoom),
    (7, Refusal::NoQuestion),
    (8, Refusal::NotThatQuestion),
    (9, Refusal::Shape),
    (10, Refusal::StoredShape),
    (11, Refusal::StoredContent),
    (12, Refusal::BlankDate),
    (13, Refusal::NotWhole),
    (14, Refusal::TooFewSteps),
    (15, Refusal::TooLow),
    (19, Refusal::InputLine),
];

/// Whether the crate has a refusal of that number, with the header's text; of 5 its beginning, since a flag has no limit here that it could name.
///
/// # Safety
///
/// The text ends with a zero.
#[no_mangle]
pub unsafe extern "C" fn wrapper_says(number: u16, text: *const c_char) -> i32 {
    let text = CStr::from_ptr(text).to_string_lossy();
    let said = |refusal: &Refusal| {
        let own = refusal.to_string();
        let own = own.strip_suffix(&format!(" (refusal {number})"));
        let same = |own: &str| if *refusal == Refusal::Setting { text.starts_with(own) && own.len() > 40 } else { text == own };
        refusal.number() == number && own.map_or(false, same)
    };
    NAMED.iter().any(|(its, refusal)| *its == number && said(refusal)).into()
}

/// The crate's own sizes, for the header's.
#[no_mangle]
pub extern "C" fn wrapper_between_numbers() -> usize {
    BETWEEN_NUMBERS
}

#[no_mangle]
pub extern "C" fn wrapper_sample_numbers() -> usize {
    SAMPLE_NUMBERS
}

#[no_mangle]
pub extern "C" fn wrapper_stored_size() -> usize {
    STORED_SIZE
}

/// How many of the parts failed; each says on standard error what it found.
#[no_mangle]
pub extern "C" fn wrapper_failures() -> i32 {
    let parts: [fn(); 6] = [runs, refusals, rooms, stored, whole, between];
    parts.iter().filter(|part| std::panic::catch_unwind(**part).is_err()).count() as i32
}
