// SPDX-License-Identifier: MIT OR Apache-2.0
//! W-201, with W-202's dates, written down a second time, apart from the library: a run to the 2,048 bytes of its stored form, and bytes to a
//! run, or to the fault that shuts them out.
use crate::counting::{self, places};
use crate::layout::{float_in, one_nan, place_of, point_in, words, Content, Point, CONTENT, FLOATS};
use crate::raw::Run;

pub const SIZE: usize = 2048;
pub const BLOCK: usize = 512;
/// Words of content in a block.
const IN_BLOCK: usize = 126;

pub type Form = [u8; SIZE];

/// In the order of the content: corrector and startup passes allowed, steps allowed, passes made, steps made, answers.
const COUNTS: [usize; 6] = [places::MAX_CORRECTOR, places::MAX_STARTUP, places::MAX_STEPS, places::PASSES, places::STEPS, places::EVALS];

/// Why bytes are not taken, in the order in which they are looked at.
#[derive(Clone, Copy, Debug, PartialEq)]
pub enum Fault {
    Length,
    BlockNumber,
    Check,
    FormNumber,
    WaitingPoint,
    Flag,
    Unused,
    MadeUp,
    BlankDate,
}

impl Fault {
    pub fn number(self) -> u16 {
        match self {
            Fault::Length | Fault::BlockNumber | Fault::Check => 10,
            _ => 11,
        }
    }
}

fn content_of(run: &Run) -> Content {
    let b = counting::bytes(run);
    let point = Point { at: b[places::AT].into(), index: b[places::INDEX].into(), stage: b[places::STAGE].into() };
    let mut content = [0; CONTENT];
    content[..6].copy_from_slice(&[1, point.at, point.index, point.stage, counting::number(run).into(), b[places::SAMPLES].into()]);
    for k in 0..FLOATS {
        let bits = one_nan(run.0[place_of(k)]);
        content[words::FLOATS + 2 * k] = bits as u32;
        content[words::FLOATS + 2 * k + 1] = (bits >> 32) as u32;
    }
    for (n, place) in COUNTS.iter().enumerate() {
        content[words::COUNTS + n] = counting::word(run, *place) as u32;
    }
    for (j, word) in content.iter_mut().enumerate() {
        if !point.uses_word(j) {
            *word = 0;
        }
    }
    content
}

pub fn word_at(bytes: &[u8], place: usize) -> u32 {
    u32::from_le_bytes([bytes[place], bytes[place + 1], bytes[place + 2], bytes[place + 3]])
}

pub fn put_word(bytes: &mut [u8], place: usize, word: u32) {
    bytes[place..place + 4].copy_from_slice(&word.to_le_bytes());
}

/// Where word j of the content stands among the bytes.
pub fn byte_of(j: usize) -> usize {
    BLOCK * (j / IN_BLOCK) + 4 * (1 + j % IN_BLOCK)
}

pub fn check_of(block: &[u8]) -> u32 {
    (0..127).fold(1, |sum: u32, n| sum.wrapping_add(word_at(block, 4 * n)))
}

pub fn form_of(content: &Content) -> Form {
    let mut form = [0; SIZE];
    for (j, word) in content.iter().enumerate() {
        put_word(&mut form, byte_of(j), *word);
    }
    for (n, block) in form.chunks_mut(BLOCK).enumerate() {
        put_word(block, 0, n as u32);
        let check = check_of(block);
        put_word(block, 508, check);
    }
    form
}

/// The form of a run, or nothing for one that has ended or is made up (7).
pub fn store(run: &Run) -> Option<Form> {
    counting::is_sound(run).then(|| form_of(&content_of(run)))
}

/// The content, if length, block numbers and checks are right.
pub fn content_in(bytes: &[u8]) -> Result<Content, Fault> {
    if bytes.len() != SIZE {
        return Err(Fault::Length);
    }
    for (n, block) in bytes.chunks(BLOCK).enumerate() {
        if word_at(block, 0) != n as u32 {
            return Err(Fault::BlockNumber);
        }
        if word_at(block, 508) != check_of(block) {
            return Err(Fault::Check);
        }
    }
    let mut content = [0; CONTENT];
    content.iter_mut().enumerate().for_each(|(j, word)| *word = word_at(bytes, byte_of(j)));
    Ok(content)
}

/// The run of a content whose head is known and whose unused words are zero; a number too wide for its field is outside the counting.
fn run_of(content: &Content) -> Option<Run> {
    let mut run = Run([0; 132]);
    let head = counting::bytes_mut(&mut run);
    head[places::AT] = u8::try_from(content[words::AT]).ok()?;
    head[places::INDEX] = u8::try_from(content[words::INDEX]).ok()?;
    head[places::STAGE] = u8::try_from(content[words::STAGE]).ok()?;
    head[places::NUMBER..places::NUMBER + 2].copy_from_slice(&u16::try_from(content[words::NUMBER]).ok()?.to_le_bytes());
    head[places::SAMPLES] = u8::try_from(content[words::FLAG]).ok()?;
    for k in 0..FLOATS {
        run.0[place_of(k)] = one_nan(float_in(content, k));
    }
    for (n, place) in COUNTS.iter().enumerate() {
        run.0[place / 8] = content[words::COUNTS + n].into();
    }
    counting::is_counted(&run).then_some(run)
}

/// The run of these bytes, or why there is none.
pub fn load(bytes: &[u8]) -> Result<Run, Fault> {
    let content = content_in(bytes)?;
    if content[words::FORM] != 1 {
        return Err(Fault::FormNumber);
    }
    if !(1..=8).contains(&content[words::AT]) {
        return Err(Fault::WaitingPoint);
    }
    if content[words::FLAG] > 1 {
        return Err(Fault::Flag);
    }
    let point = point_in(&content);
    if (0..CONTENT).any(|j| !point.uses_word(j) && content[j] != 0) {
        return Err(Fault::Unused);
    }
    let run = run_of(&content).ok_or(Fault::MadeUp)?;
    if counting::has_finite_dates(&run) {
        Ok(run)
    } else {
        Err(Fault::BlankDate)
    }
}

/// The same runs, field by field, all NaN alike.
pub fn are_alike(a: &Run, b: &Run) -> bool {
    let plain = |run: &Run| {
        let mut run = run.clone();
        (0..FLOATS).for_each(|k| run.0[place_of(k)] = one_nan(run.0[place_of(k)]));
        run
    };
    counting::are_same(&plain(a), &plain(b))
}
