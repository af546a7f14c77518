// SPDX-License-Identifier: MIT OR Apache-2.0
//! What was compared, counted.
use crate::case::{Case, Sharpness};
use crate::check::{holds, Verdict};
use crate::rooms::Counts;
use crate::whole_tally::Wholes;

/// Damaged forms, by what became of them.
#[derive(Default)]
pub struct Forms {
    pub damaged: u64,
    /// In the order of `Fault`.
    pub refused: [u64; 9],
    /// By the waiting point of the run that they load to.
    pub taken: [u64; 9],
    /// Of those taken: the damage left the form as it was; or there was a NaN pattern other than the one that is written.
    pub unchanged: u64,
    pub other_nan: u64,
}

/// Refusals that the library's calls give have numbers from 1 to this.
const REFUSALS: usize = 14;

/// From so many cases on, each refusal must be among them, and each kind of whole-second start.
const ENOUGH_CASES: u64 = 2000;

/// From so many damaged forms on, each kind of verdict must be among them; and from so many, each waiting point among those taken.
const ENOUGH: u64 = 4000;
const ENOUGH_FOR_POINTS: u64 = 40_000;

impl Forms {
    fn print(&self) {
        let (shape, content) = self.refused.split_at(3);
        let sum = |all: &[u64]| all.iter().sum::<u64>();
        let (ten, eleven, taken) = (sum(shape), sum(content), sum(&self.taken));
        println!("  {} damaged forms: {ten} refused by 10, {eleven} by 11, {taken} taken", self.damaged);
        println!("    10 (length, block number, check): {shape:?}");
        println!("    11 (form number, waiting point, flag, unused content, made up, a date alone blank): {content:?}");
        println!("    taken, by waiting points 1 to 8: {:?}", &self.taken[1..]);
        println!("    of these left as they were by the damage {}, with other NaN patterns {}", self.unchanged, self.other_nan);
    }

    pub fn every_kind_was_met(&self) -> Verdict {
        let mut kinds = self.refused.iter().chain([&self.unchanged, &self.other_nan]);
        holds(self.damaged < ENOUGH || kinds.all(|n| *n > 0), "of the damaged forms none met a kind of verdict")?;
        let all_points = self.taken[1..].iter().all(|n| *n > 0);
        holds(self.damaged < ENOUGH_FOR_POINTS || all_points, "no damaged form was taken at a waiting point")
    }
}

/// Components of accelerations between samples that were equal, by what they are.
#[derive(Default)]
pub struct Accelerations {
    finite: u64,
    infinite: u64,
    nan: u64,
}

impl Accelerations {
    pub fn count(&mut self, components: &[f64]) {
        for x in components {
            *if x.is_nan() { &mut self.nan } else if x.is_finite() { &mut self.finite } else { &mut self.infinite } += 1;
        }
    }
}

/// Runs by their tolerances, the startup's first, then the corrector's.
#[derive(Default)]
pub struct Tolerances {
    above_zero: [u64; 2],
    /// Of these: the startup, or the corrections of a step, were cut short by it.
    cut_short: [u64; 2],
    sharpened: u64,
    /// Of the sharpened ones: the number of answers changes close by.
    telling: u64,
}

impl Tolerances {
    pub fn count(&mut self, case: &Case, cut_short: [bool; 2]) {
        for (n, tol) in [case.settings.startup_tol, case.settings.corrector_tol].into_iter().enumerate() {
            self.above_zero[n] += u64::from(tol > 0.0);
            self.cut_short[n] += u64::from(cut_short[n]);
        }
        self.sharpened += u64::from(case.sharpness != Sharpness::Plain);
        self.telling += u64::from(case.sharpness == Sharpness::Telling);
    }

    fn print(&self) {
        let ([startup, corrector], [passes, corrections]) = (self.above_zero, self.cut_short);
        println!("  runs with a tolerance above zero: {startup} for the startup, {passes} of them cut short by it;");
        println!("    {corrector} for the corrector, {corrections} of them with corrections cut short by it");
        println!("    {} sharpened, {} of them telling", self.sharpened, self.telling);
    }
}

#[derive(Default)]
pub struct Tally {
    pub cases: u64,
    pub questions: u64,
    pub samples: u64,
    pub finished: u64,
    /// By 01's and 02's number; those of interpolation, storing, loading and whole-second starts too.
    pub refused: [u64; REFUSALS + 1],
    /// Answers given twice, the second time on a copy of the run and into another room.
    pub twins: u64,
    pub made_up: u64,
    /// Of these: the counts are right, and a date is blank.
    pub blank: u64,
    /// Runs that were altered, and were still within the counting; and those of them that have other dates.
    pub altered: u64,
    pub redated: u64,
    pub tables: u64,
    pub times: u64,
    pub accelerations: Accelerations,
    pub tolerances: Tolerances,
    pub wholes: Wholes,
    pub rooms: Counts,
    /// Runs put away and taken up in the middle of their line; and older forms taken up again.
    pub away: u64,
    pub older: u64,
    pub forms: Forms,
}

impl Tally {
    pub fn print(&self, seed: u64, seconds: f64) {
        println!("{} cases equal in {seconds:.0} s, {:.0} a second (seed {seed})", self.cases, self.cases as f64 / seconds);
        println!("  {} questions, {} samples, {} finished states", self.questions, self.samples, self.finished);
        let refused: Vec<String> = (1..=REFUSALS).map(|n| format!("{n}: {}", self.refused[n])).collect();
        println!("  refusals by number: {}", refused.join(", "));
        println!("  {} answers given again on a copy into another room", self.twins);
        println!("  {} runs made up, {} of them by a blank date alone", self.made_up, self.blank);
        println!("  {} runs altered within the counting, {} of them with other dates", self.altered, self.redated);
        println!("  {} tables, {} times between their samples", self.tables, self.times);
        let a = &self.accelerations;
        println!("    components of their accelerations: {} finite, {} infinite, {} NaN", a.finite, a.infinite, a.nan);
        self.tolerances.print();
        self.wholes.print();
        self.rooms.print();
        println!("  {} times put away and taken up, {} older forms taken up again", self.away, self.older);
        self.forms.print();
    }

    /// A library without the interpolation has no 3, 4 and 9.
    pub fn every_refusal_was_met(&self) -> Verdict {
        let is_left_out = |n: usize| cfg!(not(feature = "dense")) && [3, 4, 9].contains(&n);
        let missing = (1..=REFUSALS).find(|n| self.refused[*n] == 0 && !is_left_out(*n));
        holds(self.cases < ENOUGH_CASES || missing.is_none(), format_args!("refusal {missing:?} did not occur"))
    }

    pub fn every_room_was_met(&self) -> Verdict {
        if self.cases < ENOUGH_CASES {
            return Ok(());
        }
        self.rooms.every_kind_was_met()
    }

    pub fn every_whole_start_was_met(&self) -> Verdict {
        if self.cases < ENOUGH_CASES {
            return Ok(());
        }
        self.wholes.every_kind_was_met()
    }

    /// Three for each time; and each kind of them, unless there is no interpolation.
    pub fn every_acceleration_was_met(&self) -> Verdict {
        let kinds = [self.accelerations.finite, self.accelerations.infinite, self.accelerations.nan];
        holds(kinds.iter().sum::<u64>() == 3 * self.times, "a time was read without its acceleration")?;
        let few = self.cases < ENOUGH_CASES || cfg!(not(feature = "dense"));
        holds(few || kinds.iter().all(|n| *n > 0), "no acceleration between samples was finite, infinite or NaN")
    }

    pub fn every_tolerance_was_met(&self) -> Verdict {
        let few = self.cases < ENOUGH_CASES;
        holds(few || self.tolerances.telling > 0, "no tolerance was telling")?;
        holds(few || self.tolerances.cut_short.iter().all(|n| *n > 0), "no tolerance cut a startup short, or none a step's corrections")
    }
}
