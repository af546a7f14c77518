// SPDX-License-Identifier: MIT OR Apache-2.0
//! What was compared of the whole-second profile, counted.
use crate::case::{Case, Sharpness};
use crate::check::{holds, Verdict};
use crate::costs::{Start, Whole};
use crate::near::{self, MET, MISSES};
use crate::raw::{Cost, Reply};
use std::fmt::Display;

/// The refusals of a whole-second start, in the order in which they are judged.
const REFUSALS: [u16; 5] = [5, 12, 13, 1, 14];

/// A run of so many steps is a long one.
const LONG: u64 = 1000;

/// Runs played to their end, and the answers that they accepted, all within the bounds told beforehand.
#[derive(Default)]
pub struct Played {
    runs: u64,
    long: u64,
    answers: u64,
    samples: u64,
    /// By their answers: as many as were told at most, at least, between, and where both bounds are one.
    at_most: u64,
    at_least: u64,
    between: u64,
    at_both: u64,
    /// Rooms that were one number short, and answers under a wrong number.
    pub short_rooms: u64,
    pub wrong_numbers: u64,
}

impl Played {
    pub fn count(&mut self, cost: &Cost, reply: &Reply) {
        self.runs += 1;
        self.long += u64::from(cost.steps >= LONG);
        self.answers += reply.evals;
        self.samples += cost.samples;
        *match (reply.evals == cost.least, reply.evals == cost.most) {
            (true, true) => &mut self.at_both,
            (true, false) => &mut self.at_least,
            (false, true) => &mut self.at_most,
            (false, false) => &mut self.between,
        } += 1;
    }

    fn print(&self) {
        let Played { runs, long, answers, samples, at_most, at_least, between, at_both, short_rooms, wrong_numbers } = self;
        println!("    {runs} runs played to their end, {long} of them of {LONG} steps and more: {answers} answers, {samples} samples");
        println!("      within the bounds told: at the upper {at_most}, at the lower {at_least}, between {between}, where both are one {at_both}");
        println!("      {short_rooms} rooms one number short, {wrong_numbers} wrong numbers");
    }

    fn is_enough(&self) -> bool {
        [self.at_most, self.at_least, self.between, self.long, self.samples, self.short_rooms, self.wrong_numbers].iter().all(|n| *n > 0)
    }
}

#[derive(Default)]
pub struct Wholes {
    /// In the order of `REFUSALS`.
    refused: [u64; 5],
    /// Without and with a tail; of either, without and with samples.
    accepted: [[u64; 2]; 2],
    misses: [u64; 7],
    met: [u64; 6],
    pub played: Played,
    /// The oracle's own runs that the profile takes; and those of them that have a telling tolerance.
    own: u64,
    own_telling: u64,
}

fn add<const N: usize>(counts: &mut [u64; N], which: [bool; N]) {
    counts.iter_mut().zip(which).for_each(|(count, is_so)| *count += u64::from(is_so));
}

fn named<T: Display, const N: usize>(names: &[T; N], counts: &[u64; N]) -> String {
    let all: Vec<String> = names.iter().zip(counts).map(|(name, count)| format!("{name}: {count}")).collect();
    all.join(", ")
}

impl Wholes {
    pub fn count_refused(&mut self, start: &Start, refusal: u16) {
        add(&mut self.refused, REFUSALS.map(|n| n == refusal));
        add(&mut self.misses, near::misses(start, refusal));
    }

    pub fn count_accepted(&mut self, start: &Start, whole: &Whole, cost: &Cost) {
        self.accepted[whole.tail() as usize][usize::from(start.settings.samples)] += 1;
        add(&mut self.met, near::met(start, whole, cost));
    }

    pub fn count_own(&mut self, case: &Case) {
        self.own += 1;
        self.own_telling += u64::from(case.sharpness == Sharpness::Telling);
    }

    pub fn print(&self) {
        let [plain, tail] = self.accepted;
        let accepted = plain.iter().chain(&tail).sum::<u64>();
        let judged = accepted + self.refused.iter().sum::<u64>();
        println!("  {judged} whole-second starts judged, refused by {}", named(&REFUSALS, &self.refused));
        println!("    refused by little: {}", named(&MISSES, &self.misses));
        println!("    {accepted} accepted, without and with samples: {plain:?} without a tail, {tail:?} with one");
        println!("    just met: {}", named(&MET, &self.met));
        self.played.print();
        println!("    {} of the cases' own runs ended as told, {} of them with a telling tolerance", self.own, self.own_telling);
    }

    pub fn every_kind_was_met(&self) -> Verdict {
        let kinds = [&self.refused[..], &self.misses, &self.met, &self.accepted[0], &self.accepted[1]].concat();
        holds(kinds.iter().all(|n| *n > 0), "of the whole-second starts none met a kind of verdict, or none by little")?;
        let own = self.own > 0 && self.own_telling > 0;
        holds(own && self.played.is_enough(), "of the runs played by the whole-second profile a kind is missing")
    }
}
