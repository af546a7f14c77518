// SPDX-License-Identifier: MIT OR Apache-2.0
//! What may happen to a stored form: bits, bytes, words and blocks changed, cut, lengthened, swapped, mixed; and contents changed under checks
//! that are made right again, so that what lies behind the checks is met.
use crate::layout::{words, CONTENT, FLOATS};
use crate::random::Random;
use crate::stored::{byte_of, check_of, put_word, word_at, Form, BLOCK, SIZE};

const NANS: [u64; 6] = [
    0x7ff8_0000_0000_0000,
    0xfff8_0000_0000_0000,
    0x7ff0_0000_0000_0001,
    0xffff_ffff_ffff_ffff,
    0x7ff8_0000_dead_beef,
    0x7ff4_0000_0000_0000,
];
const ODD: [u64; 6] = [0x7ff0_0000_0000_0000, 0xfff0_0000_0000_0000, 0x8000_0000_0000_0000, 1, 0, 0x7fef_ffff_ffff_ffff];

/// The step as it was set, t0, tf, and the step with its direction, among the floats.
const DATES: [usize; 4] = [117, 120, 121, 122];

/// One to three kinds of damage, half of the time under checks that are right again.
pub fn damaged(form: &Form, other: &Form, rng: &mut Random) -> Vec<u8> {
    let mut bytes = form.to_vec();
    let mended = rng.once_in(2);
    for _ in 0..rng.pick(&[1, 1, 1, 1, 2, 3]) {
        if mended {
            change_content(&mut bytes, other, rng);
        } else {
            harm(&mut bytes, other, rng);
        }
    }
    if mended {
        mend(&mut bytes);
    }
    bytes
}

fn mend(bytes: &mut [u8]) {
    for block in bytes.chunks_exact_mut(BLOCK) {
        let check = check_of(block);
        put_word(block, 508, check);
    }
}

fn at(bytes: &[u8], rng: &mut Random) -> usize {
    rng.below(bytes.len() as u64) as usize
}

/// Damage as storage brings it, to bytes of any length.
fn harm(bytes: &mut Vec<u8>, other: &Form, rng: &mut Random) {
    if bytes.is_empty() {
        return;
    }
    let place = at(bytes, rng);
    match rng.below(10) {
        0 | 1 => bytes[place] ^= 1 << rng.below(8),
        2 => bytes[place] = rng.bits() as u8,
        3 => fill(bytes, place / 4 * 4, 4, rng),
        4 => fill(bytes, place / BLOCK * BLOCK, BLOCK, rng),
        5 => bytes.truncate(rng.pick(&[place, 0, 2047, 1536, 512])),
        6 => lengthen(bytes, rng),
        7 => swap(bytes, BLOCK, SIZE / BLOCK, 0, rng),
        8 => swap(bytes, 4, 126, BLOCK * rng.below(4) as usize + 4, rng),
        _ => mix(bytes, other, rng),
    }
}

/// So many bytes with zeros, ones, or anything.
fn fill(bytes: &mut [u8], from: usize, count: usize, rng: &mut Random) {
    let with = rng.below(3);
    for byte in bytes.iter_mut().skip(from).take(count) {
        *byte = [0, 0xff, rng.bits() as u8][with as usize];
    }
}

fn lengthen(bytes: &mut Vec<u8>, rng: &mut Random) {
    let (more, copied) = (rng.pick(&[1, 4, 511, 512, 2048]), rng.once_in(2));
    for i in 0..more {
        bytes.push(if copied { bytes[i % bytes.len()] } else { 0 });
    }
}

/// Two of `count` stretches of `size` bytes, from `from` on, change places; within a block no check can tell.
fn swap(bytes: &mut [u8], size: usize, count: usize, from: usize, rng: &mut Random) {
    let one = from + size * rng.below(count as u64) as usize;
    let two = from + size * rng.below(count as u64) as usize;
    if one.max(two) + size <= bytes.len() {
        (0..size).for_each(|i| bytes.swap(one + i, two + i));
    }
}

/// A block, or several, of another storing.
fn mix(bytes: &mut [u8], other: &Form, rng: &mut Random) {
    let which = 1 + rng.below(15);
    for (n, (block, others)) in bytes.chunks_exact_mut(BLOCK).zip(other.chunks(BLOCK)).enumerate() {
        if which >> n & 1 == 1 {
            block.copy_from_slice(others);
        }
    }
}

fn content(bytes: &[u8], j: usize) -> u32 {
    word_at(bytes, byte_of(j))
}

fn put(bytes: &mut [u8], j: usize, word: u32) {
    put_word(bytes, byte_of(j), word);
}

/// Near what it was, small, at a limit, or anything.
fn other_word(was: u32, rng: &mut Random) -> u32 {
    match rng.below(8) {
        0..=3 => was.wrapping_add(rng.below(9) as u32).wrapping_sub(4),
        4 => rng.below(12) as u32,
        5 => rng.pick(&[0, 1, 100, 101, 255, 256, 65535, 65536, 1_000_000, 1_000_001, u32::MAX]),
        6 => was.wrapping_add(rng.pick(&[256, 65536, 1 << 24])),
        _ => rng.bits() as u32,
    }
}

fn change_word(bytes: &mut [u8], j: usize, rng: &mut Random) {
    let word = other_word(content(bytes, j), rng);
    put(bytes, j, word);
}

fn put_float(bytes: &mut [u8], k: usize, bits: u64) {
    put(bytes, words::FLOATS + 2 * k, bits as u32);
    put(bytes, words::FLOATS + 2 * k + 1, (bits >> 32) as u32);
}

/// More or fewer answers, and the question's number to match.
fn shift_answers(bytes: &mut [u8], rng: &mut Random) {
    let by = rng.pick(&[0, 1, 2, 8, 16, 65536]);
    let evals = content(bytes, words::EVALS).wrapping_add(by).wrapping_sub(rng.below(9) as u32);
    put(bytes, words::EVALS, evals);
    put(bytes, words::NUMBER, evals % 65536);
}

/// A blank date, or another one.
fn change_date(bytes: &mut [u8], rng: &mut Random) {
    let (nan, odd, any) = (rng.pick(&NANS), rng.pick(&ODD), rng.bits());
    put_float(bytes, rng.pick(&DATES), rng.pick(&[nan, odd, odd, any]));
}

/// A change of the content of a whole form, which the checks will not show.
fn change_content(bytes: &mut [u8], other: &Form, rng: &mut Random) {
    let k = rng.below(FLOATS as u64) as usize;
    let is_zero = content(bytes, words::FLOATS + 2 * k) == 0 && content(bytes, words::FLOATS + 2 * k + 1) == 0;
    match rng.below(18) {
        0 => change_word(bytes, words::FORM, rng),
        1 => change_word(bytes, words::AT, rng),
        2 => change_word(bytes, rng.pick(&[words::INDEX, words::STAGE]), rng),
        3 => change_word(bytes, words::NUMBER, rng),
        4 => change_word(bytes, words::FLAG, rng),
        5 | 6 => change_word(bytes, words::COUNTS + rng.below(6) as usize, rng),
        7 | 8 => shift_answers(bytes, rng),
        9 => put(bytes, words::NOTHING + rng.below((CONTENT - words::NOTHING) as u64) as usize, 1 << rng.below(32)),
        10 => put(bytes, rng.below(CONTENT as u64) as usize, rng.bits() as u32),
        // Floats that are used are mostly not zero, so these three are mostly taken.
        11 if !is_zero => put_float(bytes, k, rng.pick(&NANS)),
        12 if !is_zero => put_float(bytes, k, rng.pick(&ODD)),
        13 if !is_zero => put_float(bytes, k, rng.bits()),
        14 => put_word(bytes, BLOCK * rng.below(4) as usize, rng.below(6) as u32),
        15 | 16 => change_date(bytes, rng),
        _ => mix(bytes, other, rng),
    }
}
