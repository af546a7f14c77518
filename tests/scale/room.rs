// SPDX-License-Identifier: MIT OR Apache-2.0
//! A lent buffer between two guard zones, filled with a pattern, and what is expected to stand there.
use crate::check::{all_same, holds, Verdict};
use crate::random::Random;
use std::fmt::Display;

const GUARD: usize = 24;
/// A buffer up to this long is looked at whole after each call; of a longer one the part around, and the whole now and then.
const WHOLE: usize = 4096;

pub struct Room {
    words: Vec<u64>,
    expected: Vec<u64>,
    count: usize,
    /// The sample that it begins at.
    from: u64,
    looks: usize,
}

impl Room {
    pub fn new(rng: &mut Random, count: usize) -> Room {
        let base = rng.bits();
        let words: Vec<u64> = (0..count + 2 * GUARD).map(|i| base ^ (i as u64).wrapping_mul(0x9e3779b97f4a7c15)).collect();
        Room { expected: words.clone(), words, count, from: 0, looks: 0 }
    }

    /// The same, from another sample on.
    pub fn begun_at(self, from: u64) -> Room {
        Room { from, ..self }
    }

    pub fn from(&self) -> u64 {
        self.from
    }

    /// Where sample n stands, which must not be before the first: 10(n - b).
    pub fn place(&self, n: usize) -> usize {
        10 * (n as u64).saturating_sub(self.from) as usize
    }

    /// What the caller puts there before a call that only reads it.
    pub fn fill(&mut self, numbers: &[f64]) {
        for (i, x) in numbers.iter().enumerate() {
            self.words[GUARD + i] = x.to_bits();
            self.expected[GUARD + i] = x.to_bits();
        }
    }

    pub fn count(&self) -> usize {
        self.count
    }

    /// What is lent. Of no numbers at all, now and then nothing but a null.
    pub fn lend(&mut self) -> *mut f64 {
        if self.count == 0 && self.expected[0] % 2 == 0 {
            return std::ptr::null_mut();
        }
        unsafe { self.words.as_mut_ptr().add(GUARD) as *mut f64 }
    }

    /// Whether anything stands in numbers `from` to `to` that is not expected.
    pub fn is_changed(&self, from: usize, to: usize) -> bool {
        let to = to.min(self.count);
        from < to && self.words[GUARD + from..GUARD + to] != self.expected[GUARD + from..GUARD + to]
    }

    pub fn numbers(&self, from: usize, to: usize) -> Vec<f64> {
        self.words[GUARD + from..GUARD + to].iter().map(|w| f64::from_bits(*w)).collect()
    }

    /// The numbers from `from` on were due: they are what is wanted, and expected from now on.
    pub fn accept(&mut self, what: impl Display, from: usize, wanted: &[f64]) -> Verdict {
        let to = from + wanted.len();
        holds(to <= self.count, "written past the room")?;
        all_same(what, &self.numbers(from, to), wanted)?;
        self.expected[GUARD + from..GUARD + to].copy_from_slice(&self.words[GUARD + from..GUARD + to]);
        Ok(())
    }

    /// Nothing else was written, near number `about` and, unless the room is long, anywhere.
    pub fn is_as_expected(&mut self, about: usize) -> Verdict {
        self.looks += 1;
        let near = self.words.len() > WHOLE && self.looks % 1024 != 0;
        let end = self.words.len();
        let (from, to) = if near { (about.saturating_sub(100).min(end), (about + 200).min(end)) } else { (0, end) };
        holds(self.words[from..to] == self.expected[from..to], "a number was written that was not due")
    }

    /// What the caller does with its room between calls is its own affair: numbers are changed at random.
    pub fn damage(&mut self, rng: &mut Random) {
        for _ in 0..self.count.min(8) {
            let i = GUARD + rng.below(self.count as u64) as usize;
            self.words[i] = rng.bits();
            self.expected[i] = self.words[i];
        }
    }

    pub fn whole_is_as_expected(&self) -> Verdict {
        holds(self.words == self.expected, "a number was written that was not due")
    }
}
