// SPDX-License-Identifier: MIT OR Apache-2.0
//! A case on the library, question by question beside the module's record.
use crate::away::{self, Away};
use crate::case::Case;
use crate::check::{all_same, holds, same, Verdict};
use crate::counting;
use crate::judge::Judge;
use crate::played;
use crate::random::Random;
use crate::raw::{self, Reply, Run, Triple};
use crate::record::{Asked, Record};
use crate::refused::{blank_dates, over_a_limit, refused_start, start};
use crate::room::Room;
use crate::rooms::{anywhere, Rooms};
use crate::tally::Tally;
use crate::tamper;
use numeris::ode::OdeError;

/// The library's side of a case.
pub struct Line<'a> {
    pub case: &'a Case,
    pub record: Record,
    pub run: Run,
    pub room: Room,
    /// Where the rooms begin that are lent.
    pub rooms: Rooms,
    /// Samples stored so far.
    pub written: usize,
    pub away: Away,
}

/// The samples that a call wrote: from which on, and how many.
#[derive(Clone, Copy)]
pub struct Due {
    pub first: usize,
    pub count: usize,
}

pub fn answer(run: &mut Run, number: u16, a: Triple, room: &mut Room) -> Reply {
    let (out, count) = (room.lend(), room.count());
    unsafe { raw::gj_answer(run, number, a, room.from(), out, count) }
}

pub fn open_question(run: &Run) -> Reply {
    unsafe { raw::gj_open_question(run) }
}

pub fn numbers(reply: &Reply) -> [f64; 7] {
    [reply.t, reply.r.x, reply.r.y, reply.r.z, reply.v.x, reply.v.y, reply.v.z]
}

/// The refusal with this number, and nothing else in the reply, no sample stored either.
pub fn is_refused(reply: &Reply, refusal: u16) -> bool {
    reply.stored == 0 && is_refused_after(reply, refusal)
}

/// The same, whatever the call stored: by 2 a call may be refused after samples.
pub fn is_refused_after(reply: &Reply, refusal: u16) -> bool {
    let counts = reply.evals | reply.steps | reply.startup_iters;
    let empty = numbers(reply).iter().all(|x| x.to_bits() == 0) && counts == 0 && reply.number == 0;
    empty && reply.kind == 2 && reply.refusal == refusal
}

/// An ended run: nothing in it, and 7 to whatever it is asked, without a change.
pub fn check_ended(run: &mut Run, rng: &mut Random, tally: &mut Tally) -> Verdict {
    holds(counting::is_ended(run), "an ended run is not blank")?;
    let before = run.clone();
    let mut room = Room::new(rng, 7).begun_at(anywhere(rng));
    let told = answer(run, rng.pick(&[0, 1, 65535, 40]), Triple::default(), &mut room);
    tally.refused[7] += 1;
    let both = is_refused(&told, 7) && is_refused(&open_question(run), 7);
    holds(both && before.0 == run.0, "an ended run does more than refuse by 7")?;
    away::store_any(run, rng, tally)?;
    room.whole_is_as_expected()
}

/// The room for a case: what its samples take, and some more; without samples anything.
fn room_for(case: &Case, record: &Record, rng: &mut Random) -> Room {
    let steps = match &record.end {
        Ok(s) => s.steps,
        Err(_) => case.settings.max_steps.max(4) as usize,
    };
    let needed = if case.wants_samples() { 10 * (steps + 1) } else { 0 };
    let more = rng.below(26) as usize;
    let from = if case.wants_samples() { 0 } else { anywhere(rng) };
    Room::new(rng, needed + more).begun_at(from)
}

impl Line<'_> {
    pub fn asks(&self, reply: &Reply, n: usize) -> Verdict {
        let plain = reply.kind == 0 && reply.refusal == 0 && reply.evals | reply.steps | reply.startup_iters == 0;
        holds(plain && reply.number == n as u16, format_args!("question {n}: kind {}, number {}", reply.kind, reply.number))?;
        all_same(format_args!("question {n}"), &numbers(reply), &self.record.asked[n].at)?;
        let again = open_question(&self.run);
        all_same("the open question", &numbers(&again), &numbers(reply))?;
        holds(again.kind == 0 && again.number == reply.number && again.stored == 0, "the open question's number, and nothing stored")
    }

    /// Which samples the call wrote: none, the startup's five, or one, and each as the module has it.
    fn written_by(&mut self, n: usize) -> Verdict<Due> {
        let first = self.written;
        let none = Due { first, count: 0 };
        let place = self.room.place(first);
        if !self.case.wants_samples() || !self.room.is_changed(place, place + 10) {
            return Ok(none);
        }
        let count = if first == 0 { 5 } else { 1 };
        for sample in first..first + count {
            self.accept_sample(sample, n)?;
        }
        self.written += count;
        Ok(Due { first, count })
    }

    fn accept_sample(&mut self, sample: usize, n: usize) -> Verdict {
        let place = self.room.place(sample);
        let ten = self.room.numbers(place, place + 10);
        let wanted = match &self.record.samples {
            Some(all) => all.get(sample).ok_or("a sample that the module has not")?.to_vec(),
            None => ten.clone(),
        };
        self.room.accept(format_args!("sample {sample}"), place, &wanted)?;
        self.check_moment(sample, &ten, n)
    }

    /// A sample is written by the answer whose acceleration it holds, the startup's by the last of 41 + 8S.
    fn check_moment(&self, sample: usize, ten: &[f64], n: usize) -> Verdict {
        let Asked { at, a } = &self.record.asked[n];
        if sample > 4 {
            let own = same(ten[0], at[0]) && same(ten[7], a.x) && same(ten[8], a.y) && same(ten[9], a.z);
            return holds(own, format_args!("sample {sample} is not of answer {n}"));
        }
        let passes = (n + 1).wrapping_sub(41) / 8;
        let told = self.record.end.as_ref().map_or(passes, |s| s.startup_iters);
        holds(n + 1 == 41 + 8 * passes && passes == told, "the startup's samples come at another answer")
    }

    fn answers(&mut self, n: usize, rng: &mut Random, tally: &mut Tally) -> Verdict<Reply> {
        let before = self.run.clone();
        let a = self.record.asked[n].a;
        if let Some(room) = self.rooms.next(self.written) {
            self.room = room;
        }
        let reply = answer(&mut self.run, n as u16, a, &mut self.room);
        let due = self.written_by(n)?;
        holds(reply.stored == due.count as u64, format_args!("{} samples told as stored, {} found", reply.stored, due.count))?;
        tally.samples += reply.stored;
        tally.rooms.count(reply.kind, reply.stored);
        self.room.is_as_expected(self.room.place(self.written))?;
        if rng.once_in(if due.count > 0 { 4 } else { 24 }) {
            tamper::twin(self, before, n, due, &reply, rng, tally)?;
        }
        Ok(reply)
    }

    /// The end: the module's state or refusal, all samples written, and a run that is over.
    fn ends(&mut self, reply: &Reply, rng: &mut Random, tally: &mut Tally) -> Verdict {
        let steps = match &self.record.end {
            Ok(s) => {
                tally.finished += 1;
                let want = [s.t, s.r[0], s.r[1], s.r[2], s.v[0], s.v[1], s.v[2]];
                all_same("the finished state", &numbers(reply), &want)?;
                let counts = (reply.evals, reply.steps, reply.startup_iters) == (s.evals as u64, s.steps as u64, s.startup_iters as u64);
                holds(counts && reply.kind == 1 && reply.refusal == 0 && reply.number == 0, "the finished state's counts")?;
                s.steps
            }
            Err(_) => {
                tally.refused[2] += 1;
                holds(is_refused_after(reply, 2), "refusal 2 was due")?;
                self.case.settings.max_steps.max(4) as usize
            }
        };
        holds(!self.case.wants_samples() || self.written == steps + 1, "samples are missing")?;
        played::own_run(self.case, &self.record, reply, tally)?;
        self.room.whole_is_as_expected()?;
        #[cfg(feature = "dense")]
        if let Some(table) = self.record.end.as_ref().ok().and_then(|s| s.dense.as_ref()) {
            crate::between::compare_samples(table, rng, tally)?;
        }
        check_ended(&mut self.run, rng, tally)
    }
}

pub fn follow(case: &Case, judge: &mut Judge, rng: &mut Random, tally: &mut Tally) -> Verdict {
    if rng.once_in(4) {
        over_a_limit(case, rng, tally)?;
    }
    if rng.once_in(8) {
        blank_dates(case, rng, tally)?;
    }
    if case.has_blank_date() {
        return refused_start(case, case.settings, 12, rng, tally);
    }
    let record = Record::of(case);
    if matches!(record.end, Err(OdeError::StepNotFinite)) {
        return refused_start(case, case.settings, 1, rng, tally);
    }
    tally.tolerances.count(case, record.cut_short(case));
    let mut run = Run([rng.bits(); 132]);
    let mut reply = start(&mut run, case, case.settings);
    let room = room_for(case, &record, rng);
    holds(reply.stored == 0, "a start told samples as stored")?;
    let rooms = Rooms::of(rng, case.wants_samples(), &mut tally.rooms);
    let mut line = Line { case, record, run, room, rooms, written: 0, away: Away::new(case.away, rng) };
    let mut n = 0;
    while n < line.record.asked.len() {
        line.asks(&reply, n)?;
        tamper::before_an_answer(&mut line, n, rng, tally)?;
        n = away::before_an_answer(&mut line, n, judge, rng, tally)?;
        reply = line.answers(n, rng, tally)?;
        n += 1;
    }
    tally.questions += line.record.asked.len() as u64;
    line.ends(&reply, rng, tally)
}
