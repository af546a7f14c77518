// SPDX-License-Identifier: MIT OR Apache-2.0
//! Runs put away and taken up in the middle of a line, by the library; each form is the second writing's, byte for byte.
use crate::check::{all_same, holds, Verdict};
use crate::follow::{answer, is_refused, is_refused_after, numbers, open_question, Line};
use crate::judge::{self, Judge};
use crate::questions;
use crate::random::Random;
use crate::raw::{Run, Triple};
use crate::room::Room;
use crate::stored::{self, Form};
use crate::tally::Tally;
use crate::tray::Tray;

/// A form of this line, the question that it was stored at, and the samples that stood then.
struct Kept {
    form: Form,
    n: usize,
    written: usize,
}

/// When a line is put away, and what of it is kept.
pub struct Away {
    /// Before every so many-th answer; 0 is never.
    every: usize,
    kept: Vec<Kept>,
    returns_left: u64,
}

impl Away {
    pub fn new(every: usize, rng: &mut Random) -> Away {
        Away { every, kept: vec![], returns_left: if every == 0 { 0 } else { rng.below(4) } }
    }

    fn is_due(&self, n: usize) -> bool {
        self.every > 0 && (n + 1) % self.every == 0
    }
}

/// What a caller may hold where a form is taken up: any memory, a run that has ended, or some run.
pub fn held(run: &Run, rng: &mut Random) -> Run {
    match rng.below(4) {
        0 => Run([rng.bits(); 132]),
        1 => Run([0; 132]),
        _ => run.clone(),
    }
}

/// The library's form of a run that waits for a question.
fn form_of(run: &Run, rng: &mut Random) -> Verdict<Form> {
    let due = stored::store(run).ok_or("the second writing calls a run of the library made up")?;
    let mut tray = Tray::new(rng, stored::SIZE);
    let told = tray.store(run);
    holds(told == 0, format_args!("a run that waits is not stored: {told}"))?;
    tray.accept(&due)?;
    Ok(due)
}

/// Storing: 7 for what has ended or is made up, then 10 for another size; the buffer is untouched by both.
pub fn store_any(run: &Run, rng: &mut Random, tally: &mut Tally) -> Verdict {
    let size = rng.pick(&[2048, 2048, 2048, 0, 1, 2047, 2049, 512, 4096]);
    let mut tray = Tray::new(rng, size);
    let told = tray.store(run);
    let (due, form) = match stored::store(run) {
        None => (7, None),
        Some(_) if size != stored::SIZE => (10, None),
        Some(form) => (0, Some(form)),
    };
    holds(told == due, format_args!("storing told {told}, {due} was due"))?;
    match form {
        Some(form) => tray.accept(&form),
        None => {
            tally.refused[due as usize] += 1;
            tray.is_as_expected()
        }
    }
}

/// A form of this very line is taken up: the question asked then, and the second writing's run, which gives the form again.
fn take_up(line: &mut Line, form: &Form, n: usize, rng: &mut Random) -> Verdict {
    let mut run = held(&line.run, rng);
    let mut tray = Tray::holding(rng, form);
    let reply = tray.load(&mut run);
    tray.is_as_expected()?;
    let due = stored::load(form).map_err(|fault| format!("the second writing does not take its own form: {fault:?}"))?;
    holds(stored::are_alike(&run, &due), "the run taken up is not the second writing's")?;
    let (number, question) = questions::open(&due);
    holds(number == reply.number && reply.stored == 0, "the number asked by the run taken up, and nothing stored")?;
    all_same("the question of the run taken up", &numbers(&reply), &question)?;
    holds(form_of(&run, rng)? == *form, "the run taken up has another form")?;
    line.run = run;
    line.asks(&reply, n)
}

/// Answers that will be dropped: others than the line's, for some questions or to an end.
fn stray(line: &mut Line, rng: &mut Random) -> Verdict {
    let mut room = Room::new(rng, 400);
    let mut reply = open_question(&line.run);
    for _ in 0..rng.below(30) {
        if reply.kind != 0 {
            break;
        }
        let a = Triple { x: rng.unit(), y: f64::from_bits(rng.bits()), z: 0.0 };
        reply = answer(&mut line.run, reply.number, a, &mut room);
    }
    holds(reply.kind < 2 || is_refused_after(&reply, 2) || is_refused(&reply, 6), "a stray answer was refused")
}

/// An older form of this line, with an empty room: the question that is open then.
fn take_up_older(line: &mut Line, rng: &mut Random, tally: &mut Tally) -> Verdict<usize> {
    stray(line, rng)?;
    let which = rng.below(line.away.kept.len() as u64) as usize;
    let Kept { form, n, written } = line.away.kept.swap_remove(which);
    line.written = written;
    line.room = Room::new(rng, line.room.count()).begun_at(line.room.from());
    line.away.returns_left -= 1;
    tally.older += 1;
    take_up(line, &form, n, rng)?;
    Ok(n)
}

/// Before answer n, where it is due: away and up again, damaged forms beside it, and now and then back to an older form. Which answer is due
/// then.
pub fn before_an_answer(line: &mut Line, n: usize, judge: &mut Judge, rng: &mut Random, tally: &mut Tally) -> Verdict<usize> {
    if !line.away.is_due(n) {
        return Ok(n);
    }
    let form = form_of(&line.run, rng)?;
    take_up(line, &form, n, rng)?;
    tally.away += 1;
    judge::damaged_forms(judge, &form, &line.run, rng, tally)?;
    if rng.once_in(12) && line.away.kept.len() < 4 {
        line.away.kept.push(Kept { form, n, written: line.written });
    }
    if line.away.returns_left > 0 && !line.away.kept.is_empty() && rng.once_in(24) {
        return take_up_older(line, rng, tally);
    }
    Ok(n)
}
