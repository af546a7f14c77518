// SPDX-License-Identifier: MIT OR Apache-2.0
//! What goes wrong in a caller's hands: stale numbers, damaged and short rooms, runs answered twice, runs made up.
use crate::away;
use crate::case::BLANKS;
use crate::check::{all_same, holds, Verdict};
use crate::counting::{self, places};
use crate::follow::{answer, check_ended, is_refused, numbers, open_question, Due, Line};
use crate::questions;
use crate::random::Random;
use crate::raw::{Reply, Run, Triple};
use crate::room::Room;
use crate::rooms::{anywhere, aside};
use crate::tally::Tally;

pub fn before_an_answer(line: &mut Line, n: usize, rng: &mut Random, tally: &mut Tally) -> Verdict {
    match rng.below(24) {
        0 => stale(line, n, rng, tally),
        1..=3 => made_up(&line.run, rng, tally),
        4 => {
            line.room.damage(rng);
            Ok(())
        }
        _ => Ok(()),
    }
}

/// An answer under another number: 8, and nothing moves.
fn stale(line: &mut Line, n: usize, rng: &mut Random, tally: &mut Tally) -> Verdict {
    let other = (n as u16).wrapping_add(1 + rng.below(65535) as u16);
    let before = line.run.clone();
    let reply = answer(&mut line.run, other, line.record.asked[n].a, &mut line.room);
    tally.refused[8] += 1;
    holds(is_refused(&reply, 8), "refusal 8 was due")?;
    holds(before.0 == line.run.0, "refusal 8 changed the run")?;
    line.room.is_as_expected(line.room.place(line.written))
}

/// Where the copy's room begins: at sample 0, at what is due, between, or after it.
fn other_begin(due: Due, rng: &Random) -> u64 {
    let (mut rng, first) = (aside(rng), due.first as u64);
    let later = first + rng.pick(&[1, 1, 2, 5, 1 << 63, u64::MAX - first]);
    match rng.below(6) {
        0 | 1 => 0,
        2 => first,
        3 => rng.below(first + 1),
        _ => later,
    }
}

/// How large a room the copy gets: short by one, just enough, empty, or anything.
fn other_size(needed: usize, rng: &mut Random) -> usize {
    match rng.below(6) {
        0 => 0,
        1 | 2 => needed.saturating_sub(1),
        3 => needed,
        4 => rng.below(needed as u64 + 1) as usize,
        _ => needed + rng.below(20) as usize,
    }
}

/// The same answer to a copy of the run, with another room: the same reply, or 6 where what is due does not fit.
pub fn twin(line: &Line, mut copy: Run, n: usize, due: Due, reply: &Reply, rng: &mut Random, tally: &mut Tally) -> Verdict {
    let begin = other_begin(due, rng);
    let is_late = begin > due.first as u64;
    let from = 10 * (due.first as u64).saturating_sub(begin) as usize;
    let to = from + 10 * due.count;
    let count = other_size(to, rng);
    let mut room = Room::new(rng, count).begun_at(begin);
    let got = answer(&mut copy, n as u16, line.record.asked[n].a, &mut room);
    tally.twins += 1;
    tally.rooms.late_and_none_due += u64::from(is_late && due.count == 0);
    if due.count > 0 && (is_late || room.count() < to) {
        tally.refused[6] += 1;
        tally.rooms.late += u64::from(is_late);
        holds(is_refused(&got, 6), "refusal 6 was due")?;
        room.whole_is_as_expected()?;
        return check_ended(&mut copy, rng, tally);
    }
    all_same("the copy's reply", &numbers(&got), &numbers(reply))?;
    let plain = |r: &Reply| (r.kind, r.refusal, r.number, r.evals, r.steps, r.startup_iters, r.stored);
    holds(plain(&got) == plain(reply) && counting::are_same(&copy, &line.run), "a copy of the run goes another way")?;
    if due.count > 0 {
        let own = line.room.place(due.first);
        room.accept("the copy's samples", from, &line.room.numbers(own, own + 10 * due.count))?;
    }
    room.whole_is_as_expected()
}

/// One field of a run, changed: near what it was, at a limit, or anything.
fn alter(run: &mut Run, rng: &mut Random) {
    let counts = [places::EVALS, places::PASSES, places::STEPS, places::MAX_CORRECTOR, places::MAX_STARTUP, places::MAX_STEPS];
    let place = rng.pick(&counts);
    let was = counting::word(run, place);
    let near = was.wrapping_add(rng.below(9)).wrapping_sub(4);
    match rng.below(20) {
        0 => counting::bytes_mut(run)[places::AT] = rng.below(11) as u8,
        1 => counting::bytes_mut(run)[places::INDEX] = rng.below(11) as u8,
        2 => counting::bytes_mut(run)[places::STAGE] = rng.below(6) as u8,
        3 => counting::bytes_mut(run)[rng.below(3) as usize] = rng.bits() as u8,
        4 => counting::bytes_mut(run)[places::NUMBER] ^= 1 + rng.below(255) as u8,
        5 => counting::bytes_mut(run)[places::SAMPLES] = rng.pick(&[0, 1, 2, 3, 255]),
        6 => run.0[places::EVALS / 8] = was.wrapping_add(65536 * (1 + rng.below(3))),
        7 | 8 => shift_answers(run, rng),
        9 => run.0[place / 8] = rng.pick(&[0, 4, 100, 101, 999_999, 1_000_000, 1_000_001, u64::MAX, 1 << 63]),
        10 => run.0[place / 8] = rng.bits(),
        11..=14 => redate(run, rng),
        _ => run.0[place / 8] = near,
    }
}

/// A date that is blank, or another one: finite dates are taken as they come.
fn redate(run: &mut Run, rng: &mut Random) {
    let (blank, any) = (rng.pick(&BLANKS), rng.bits());
    let other = rng.pick(&[0.0, -0.0, 5e-324, f64::MAX, -1.7e308, 1.0, -60.0]).to_bits();
    run.0[rng.pick(&places::DATES) / 8] = rng.pick(&[blank, blank, other, any]);
}

fn dates(run: &Run) -> [u64; 4] {
    places::DATES.map(|place| counting::word(run, place))
}

/// More or fewer answers under a question number to match: this may well be within the counting.
fn shift_answers(run: &mut Run, rng: &mut Random) {
    let evals = counting::word(run, places::EVALS).wrapping_add(rng.below(13)).wrapping_sub(6);
    run.0[places::EVALS / 8] = evals;
    counting::bytes_mut(run)[places::NUMBER..places::NUMBER + 2].copy_from_slice(&(evals as u16).to_le_bytes());
}

/// A run that no line of answers left, or one that could be: 7 exactly where the counting or a blank date shuts it out, before 8.
fn made_up(line_run: &Run, rng: &mut Random, tally: &mut Tally) -> Verdict {
    let mut run = line_run.clone();
    if rng.once_in(40) {
        run.0.iter_mut().for_each(|w| *w = rng.bits());
        counting::bytes_mut(&mut run)[places::SAMPLES] &= 1;
    }
    for _ in 0..rng.pick(&[1, 1, 1, 2, 3]) {
        alter(&mut run, rng);
    }
    let count = rng.below(80) as usize;
    let mut room = Room::new(rng, count).begun_at(anywhere(rng));
    let before = run.clone();
    let number = if rng.once_in(8) { rng.bits() as u16 } else { counting::number(&run) };
    let open = open_question(&run);
    away::store_any(&run, rng, tally)?;
    let told = answer(&mut run, number, Triple { x: 1.0, y: -2.0, z: 3.0 }, &mut room);
    if !counting::is_sound(&before) {
        tally.made_up += 1;
        tally.blank += u64::from(counting::is_counted(&before));
        tally.refused[7] += 1;
        holds(is_refused(&told, 7) && is_refused(&open, 7), format_args!("refusal 7 was due: {before:?}", before = before.0))?;
        holds(before.0 == run.0, "refusal 7 changed the run")?;
        return room.whole_is_as_expected();
    }
    tally.altered += 1;
    tally.redated += u64::from(dates(&before) != dates(line_run));
    holds(open.kind == 0 && open.number == counting::number(&before), "an altered run within the counting has a question")?;
    all_same("the question of an altered run", &numbers(&open), &questions::open(&before).1)?;
    if number != counting::number(&before) {
        tally.refused[8] += 1;
        return holds(is_refused(&told, 8) && before.0 == run.0, "refusal 8 was due to an altered run");
    }
    holds(told.kind < 2 || told.refusal == 2 || told.refusal == 6, "an altered run within the counting takes its answer")?;
    holds([0, 1, 5].contains(&told.stored), format_args!("{} samples told as stored by an altered run", told.stored))
}
