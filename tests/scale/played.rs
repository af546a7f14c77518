// SPDX-License-Identifier: MIT OR Apache-2.0
//! Whole-second runs played to their end, with accelerations of any kind and no more room than was told, or than is due: each ends as told beforehand.
use crate::case::Case;
use crate::check::{holds, same, Verdict};
use crate::costs::{forecast, Start, Whole};
use crate::counting;
use crate::follow::{answer, check_ended, is_refused};
use crate::pull::Pull;
use crate::random::Random;
use crate::raw::{Cost, Reply, Run, Triple};
use crate::record::Record;
use crate::room::Room;
use crate::rooms::Rooms;
use crate::tally::Tally;
use crate::whole::Begun;

struct Play {
    begun: Begun,
    pull: Pull,
    room: Room,
    rooms: Rooms,
    /// Whether the one room is one number short.
    is_short: bool,
    /// Samples stored so far, and answers accepted.
    written: usize,
    answers: u64,
}

impl Play {
    fn new(begun: Begun, case: &Case, rng: &mut Random, tally: &mut Tally) -> Play {
        let rooms = Rooms::of(rng, begun.cost.numbers > 0, &mut tally.rooms);
        let is_short = begun.cost.numbers > 0 && rng.once_in(4);
        let room = Room::new(rng, begun.cost.numbers as usize - usize::from(is_short));
        let pull = Pull::of(case, begun.whole.step, rng);
        let is_short = is_short && !rooms.are_small();
        Play { begun, pull, room, rooms, is_short, written: 0, answers: 0 }
    }

    /// An answer under another number: 8, and nothing moves.
    fn answer_wrongly(&mut self, asked: &Reply, rng: &mut Random, tally: &mut Tally) -> Verdict {
        let before = self.begun.run.clone();
        let other = asked.number.wrapping_add(1 + rng.below(65535) as u16);
        let reply = answer(&mut self.begun.run, other, Triple::default(), &mut self.room);
        tally.refused[8] += 1;
        tally.wholes.played.wrong_numbers += 1;
        holds(is_refused(&reply, 8) && before.0 == self.begun.run.0, "refusal 8 was due, and the same run")?;
        self.room.is_as_expected(self.room.place(self.written))
    }

    /// The same answer on a copy of the run, with a room that begins after the next sample: 6 where a sample is due, and where none is, the same.
    fn answer_late(&mut self, mut copy: Run, asked: &Reply, a: Triple, reply: &Reply, tally: &mut Tally) -> Verdict {
        let mut room = self.rooms.late(self.written - reply.stored as usize);
        let late = answer(&mut copy, asked.number, a, &mut room);
        if reply.stored == 0 {
            tally.rooms.late_and_none_due += 1;
            holds(late.kind == reply.kind && late.number == reply.number && late.stored == 0, "where none was due a late room was refused")?;
        } else {
            tally.rooms.late += 1;
            tally.refused[6] += 1;
            holds(is_refused(&late, 6) && counting::is_ended(&copy), "refusal 6 was due to a late room, and an ended run")?;
        }
        room.whole_is_as_expected()
    }

    fn answer(&mut self, asked: &Reply, rng: &mut Random, tally: &mut Tally) -> Verdict<Reply> {
        if let Some(room) = self.rooms.next(self.written) {
            self.room = room;
        }
        let before = self.begun.run.clone();
        let a = self.pull.on(asked, rng);
        let mut reply = answer(&mut self.begun.run, asked.number, a, &mut self.room);
        if self.is_short && reply.kind != 0 {
            self.lacks_room(&reply, rng, tally)?;
            self.begun.run = before.clone();
            reply = answer(&mut self.begun.run, asked.number, a, &mut self.room);
        }
        self.answers += 1;
        let stored = self.take_samples(asked, a)?;
        holds(reply.stored == stored, format_args!("{} samples told as stored, {stored} found", reply.stored))?;
        tally.rooms.count(reply.kind, stored);
        if stored > 0 || rng.once_in(16) {
            self.room.is_as_expected(self.room.place(self.written))?;
        }
        if self.rooms.are_small() {
            self.answer_late(before, asked, a, &reply, tally)?;
        }
        Ok(reply)
    }

    /// With one number too few, 6 at the last sample and not before; then a room as told.
    fn lacks_room(&mut self, reply: &Reply, rng: &mut Random, tally: &mut Tally) -> Verdict {
        tally.refused[6] += 1;
        tally.wholes.played.short_rooms += 1;
        holds(is_refused(reply, 6), format_args!("kind {}, {}, where the room is one number short", reply.kind, reply.refusal))?;
        holds(self.written as u64 + 1 == self.begun.cost.samples, format_args!("refusal 6 after {} samples", self.written))?;
        self.room.whole_is_as_expected()?;
        check_ended(&mut self.begun.run, rng, tally)?;
        self.room = Room::new(rng, self.begun.cost.numbers as usize);
        self.is_short = false;
        Ok(())
    }

    /// The samples that an answer wrote, none, the startup's five or one: each at its time, and after the startup with the answer itself. How many.
    fn take_samples(&mut self, asked: &Reply, a: Triple) -> Verdict<u64> {
        let first = self.written;
        let place = self.room.place(first);
        if !self.room.is_changed(place, place + 10) {
            return Ok(0);
        }
        let count = if first == 0 { 5 } else { 1 };
        for n in first..first + count {
            let place = self.room.place(n);
            let ten = self.room.numbers(place, place + 10);
            let time = self.begun.whole.time(n);
            holds(ten[0] == time, format_args!("sample {n} stands at {}, not at {time}", ten[0]))?;
            let own = same(ten[0], asked.t) && same(ten[7], a.x) && same(ten[8], a.y) && same(ten[9], a.z);
            holds(n <= 4 || own, format_args!("sample {n} is not of answer {}", self.answers))?;
            self.room.accept(format_args!("sample {n}"), place, &ten)?;
        }
        self.written += count;
        Ok(count as u64)
    }

    fn end(&mut self, reply: &Reply, rng: &mut Random, tally: &mut Tally) -> Verdict {
        let Begun { start, whole, cost, run, .. } = &mut self.begun;
        ends_as_told(start, whole, cost, reply)?;
        holds(reply.evals == self.answers, format_args!("{} answers told, {} accepted", reply.evals, self.answers))?;
        holds(self.written as u64 == cost.samples, format_args!("{} samples written of {}", self.written, cost.samples))?;
        self.room.whole_is_as_expected()?;
        tally.wholes.played.count(cost, reply);
        check_ended(run, rng, tally)
    }
}

/// To the end, by no more answers than were told.
pub fn play(begun: Begun, case: &Case, rng: &mut Random, tally: &mut Tally) -> Verdict {
    let mut reply = begun.reply;
    let mut play = Play::new(begun, case, rng, tally);
    while reply.kind == 0 {
        holds(play.answers < play.begun.cost.most, "a run goes on after as many answers as were told at most")?;
        if rng.once_in(64) {
            play.answer_wrongly(&reply, rng, tally)?;
        }
        reply = play.answer(&reply, rng, tally)?;
    }
    play.end(&reply, rng, tally)
}

/// A finished state: at the end, in the steps told and by answers within the bounds, of its own startup too; no size is below a tolerance that is not
/// above zero, and then all passes and corrections are made.
fn ends_as_told(start: &Start, whole: &Whole, cost: &Cost, reply: &Reply) -> Verdict {
    let s = &start.settings;
    holds(reply.kind == 1 && reply.refusal == 0 && reply.number == 0, format_args!("kind {}, {}, at the end", reply.kind, reply.refusal))?;
    holds(reply.t == start.tf, format_args!("a whole-second run ends at {}", reply.t))?;
    holds(reply.steps == cost.steps, format_args!("{} steps were made, {} told", reply.steps, cost.steps))?;
    let (passes, answers) = (reply.startup_iters, i128::from(reply.evals));
    let (least, most) = whole.answers(s, passes);
    let within = least <= answers && answers <= most && cost.least <= reply.evals && reply.evals <= cost.most;
    holds(within, format_args!("{answers} answers after {passes} passes, and told {cost:?}"))?;
    let made = s.max_startup_iters.min(1) <= passes && passes <= s.max_startup_iters;
    holds(made, format_args!("{passes} startup passes"))?;
    let unbounded = !(s.startup_tol > 0.0) && !(s.corrector_tol > 0.0);
    let all = passes == s.max_startup_iters && reply.evals == cost.most;
    holds(all || !unbounded, format_args!("{answers} answers, where no tolerance cuts them short, and told {cost:?}"))
}

/// A case whose start the profile takes too: its run, which went as the module's, ends as told, with samples at whole times.
pub fn own_run(case: &Case, record: &Record, reply: &Reply, tally: &mut Tally) -> Verdict {
    let start = Start::of(case);
    let (whole, cost) = match (Whole::of(&start), forecast(&start)) {
        (Some(whole), Ok(cost)) => (whole, cost),
        _ => return Ok(()),
    };
    ends_as_told(&start, &whole, &cost, reply)?;
    let times: Vec<f64> = record.samples.iter().flatten().map(|ten| ten[0]).collect();
    let all = times.len() as u64 == cost.samples && times.iter().enumerate().all(|(n, t)| *t == whole.time(n));
    holds(all, "the samples of a whole-second run are not where they were told")?;
    tally.wholes.count_own(case);
    Ok(())
}
