// SPDX-License-Identifier: MIT OR Apache-2.0
//! Which rooms a run is lent (W-207): one for all samples, a small one that begins at the next, or one that begins anywhere before it; and rooms that
//! begin too late.
use crate::check::{holds, Verdict};
use crate::random::Random;
use crate::room::Room;

/// Samples that a call stores at most: the startup's.
const FIVE: usize = 5;
/// A room that begins before the next sample begins at most so many before it: a long run is lent one at each answer.
const BACK: u64 = 40;

/// A generator beside this one, which stays where it is: the rooms draw nothing from the tampering.
pub fn aside(rng: &Random) -> Random {
    Random(rng.0 ^ 0x207)
}

/// Where a room may begin that is not written to.
pub fn anywhere(rng: &Random) -> u64 {
    aside(rng).pick(&[0, 0, 1, 5, 9, 1 << 63, u64::MAX])
}

#[derive(Clone, Copy, PartialEq)]
enum Kind {
    /// One room from sample 0 on, throughout.
    Whole,
    /// Room for five samples from the next one on, another for each answer.
    Small,
    /// The same, but begun at some sample before, and reaching as far.
    Before,
}

pub struct Rooms {
    kind: Kind,
    rng: Random,
}

impl Rooms {
    /// For a run with samples or without; without, there is nothing to lend room for.
    pub fn of(rng: &Random, samples: bool, counts: &mut Counts) -> Rooms {
        let mut rng = aside(rng);
        let kind = if samples { rng.pick(&[Kind::Whole, Kind::Whole, Kind::Small, Kind::Before]) } else { Kind::Whole };
        counts.small += u64::from(kind == Kind::Small);
        counts.before += u64::from(kind == Kind::Before);
        Rooms { kind, rng }
    }

    pub fn are_small(&self) -> bool {
        self.kind != Kind::Whole
    }

    /// The room for the next answer, where so many samples were stored; nothing where it is the one room.
    pub fn next(&mut self, written: usize) -> Option<Room> {
        let back = match self.kind {
            Kind::Whole => return None,
            Kind::Small => 0,
            Kind::Before => self.rng.below(BACK.min(written as u64) + 1) as usize,
        };
        let more = self.rng.pick(&[0, 0, 1, 9, 10, 23]);
        Some(Room::new(&mut self.rng, 10 * (back + FIVE) + more).begun_at((written - back) as u64))
    }

    /// A room that begins after sample `next`: later by little, or by so much that ten times the way back comes round to the room's beginning.
    pub fn late(&mut self, next: usize) -> Room {
        let next = next as u64;
        let from = self.rng.pick(&[next + 1, next + 1, next + 2, next + 5, next + (1 << 63), u64::MAX]);
        Room::new(&mut self.rng, 10 * FIVE).begun_at(from)
    }
}

/// What was lent, counted.
#[derive(Default)]
pub struct Counts {
    small: u64,
    before: u64,
    /// Answers with a room that begins after what is due: refused by 6; and where nothing was due: taken.
    pub late: u64,
    pub late_and_none_due: u64,
    /// Replies that told 0, 1 and 5 samples stored; of these 1 and 5 with the finished state and with refusal 2.
    stored: [u64; 3],
    at_the_end: u64,
    at_refusal_2: u64,
}

impl Counts {
    /// What a reply tells that was found right.
    pub fn count(&mut self, kind: u32, stored: u64) {
        self.stored[match stored {
            0 => 0,
            1 => 1,
            _ => 2,
        }] += 1;
        self.at_the_end += u64::from(kind == 1 && stored > 0);
        self.at_refusal_2 += u64::from(kind == 2 && stored > 0);
    }

    pub fn print(&self) {
        let Counts { small, before, late, late_and_none_due, stored, at_the_end, at_refusal_2 } = self;
        println!("  {small} runs with small rooms from the next sample on, {before} with rooms from a sample before it");
        println!("    {late} rooms that began after a sample that was due, {late_and_none_due} where none was due");
        println!("    answers that told 0, 1 and 5 samples stored: {stored:?}; {at_the_end} with the end, {at_refusal_2} with refusal 2");
    }

    pub fn every_kind_was_met(&self) -> Verdict {
        let kinds = [self.small, self.before, self.late, self.late_and_none_due, self.at_the_end, self.at_refusal_2];
        holds(kinds.iter().chain(&self.stored).all(|n| *n > 0), "a kind of room, or of a count of samples, did not occur")
    }
}
