// SPDX-License-Identifier: MIT OR Apache-2.0
//! Lent bytes at any alignment between two guard zones, and the library's two calls on them.
use crate::check::{holds, Verdict};
use crate::random::Random;
use crate::raw::{gj_load, gj_store, Reply, Run};

const GUARD: usize = 64;

pub struct Tray {
    bytes: Vec<u8>,
    expected: Vec<u8>,
    from: usize,
    count: usize,
}

impl Tray {
    fn of(rng: &mut Random, count: usize, fill: impl Fn(&mut [u8])) -> Tray {
        let (from, pattern) = (GUARD + rng.below(8) as usize, rng.bits() as u8);
        let mut bytes = vec![pattern; from + count + GUARD];
        fill(&mut bytes[from..from + count]);
        Tray { expected: bytes.clone(), bytes, from, count }
    }

    /// Room for so many bytes.
    pub fn new(rng: &mut Random, count: usize) -> Tray {
        Tray::of(rng, count, |_| ())
    }

    pub fn holding(rng: &mut Random, bytes: &[u8]) -> Tray {
        Tray::of(rng, bytes.len(), |room| room.copy_from_slice(bytes))
    }

    pub fn bytes(&self) -> &[u8] {
        &self.bytes[self.from..self.from + self.count]
    }

    /// What is lent. Of no bytes at all, now and then nothing but a null.
    fn lend(&mut self) -> *mut u8 {
        if self.count == 0 && self.from % 2 == 0 {
            return std::ptr::null_mut();
        }
        unsafe { self.bytes.as_mut_ptr().add(self.from) }
    }

    pub fn store(&mut self, run: &Run) -> u32 {
        let out = self.lend();
        unsafe { gj_store(run, out, self.count) }
    }

    pub fn load(&mut self, run: &mut Run) -> Reply {
        let bytes = self.lend();
        unsafe { gj_load(run, bytes, self.count) }
    }

    /// These bytes were due; nothing else was written.
    pub fn accept(&mut self, due: &[u8]) -> Verdict {
        self.expected[self.from..self.from + self.count].copy_from_slice(due);
        match (0..self.count).find(|i| self.bytes()[*i] != due[*i]) {
            Some(i) => Err(format!("byte {i} of the form: library {:02x}, second writing {:02x}", self.bytes()[i], due[i])),
            None => self.is_as_expected(),
        }
    }

    pub fn is_as_expected(&self) -> Verdict {
        holds(self.bytes == self.expected, "a byte was written that was not due")
    }
}
