// SPDX-License-Identifier: MIT OR Apache-2.0
//! Damaged forms: what the library makes of them, judged by the second writing.
use crate::away::held;
use crate::check::{all_same, holds, Verdict};
use crate::counting;
use crate::damage;
use crate::follow::{is_refused, numbers};
use crate::layout::{float_in, one_nan, point_in, words, FLOATS};
use crate::questions;
use crate::random::Random;
use crate::raw::{Reply, Run};
use crate::stored::{self, Form};
use crate::tally::Tally;
use crate::tray::Tray;

/// How many forms are damaged at each storing, or one at every so many storings; and forms of earlier storings, of any run.
pub struct Judge {
    pub each: u64,
    pub once_in: u64,
    pub others: Vec<Form>,
}

const OTHERS: usize = 24;

impl Judge {
    pub fn new(each: u64, once_in: u64) -> Judge {
        Judge { each, once_in, others: vec![] }
    }

    fn keep(&mut self, form: &Form, rng: &mut Random) {
        if self.others.len() < OTHERS {
            self.others.push(*form);
        } else if rng.once_in(8) {
            self.others[rng.below(OTHERS as u64) as usize] = *form;
        }
    }
}

pub fn damaged_forms(judge: &mut Judge, form: &Form, run: &Run, rng: &mut Random, tally: &mut Tally) -> Verdict {
    judge.keep(form, rng);
    if !rng.once_in(judge.once_in) {
        return Ok(());
    }
    for _ in 0..judge.each {
        let other = judge.others[rng.below(judge.others.len() as u64) as usize];
        let bytes = damage::damaged(form, &other, rng);
        let held = held(run, rng);
        judge_one(form, &bytes, &held, rng, tally).map_err(|fault| format!("{fault}\ndamaged form: {}", hex(&bytes)))?;
    }
    Ok(())
}

fn hex(bytes: &[u8]) -> String {
    bytes.iter().map(|b| format!("{b:02x}")).collect()
}

/// 10, 11, or which run; a refusal leaves the held run as it was.
fn judge_one(form: &Form, bytes: &[u8], held: &Run, rng: &mut Random, tally: &mut Tally) -> Verdict {
    let mut tray = Tray::holding(rng, bytes);
    let mut run = held.clone();
    let reply = tray.load(&mut run);
    tray.is_as_expected()?;
    tally.forms.damaged += 1;
    match stored::load(bytes) {
        Err(fault) => {
            tally.forms.refused[fault as usize] += 1;
            tally.refused[fault.number() as usize] += 1;
            holds(is_refused(&reply, fault.number()), format_args!("refusal {} was due: {fault:?}", fault.number()))?;
            holds(counting::are_same(&run, held), "a refused form changed the run that was held")
        }
        Ok(due) => {
            tally.forms.unchanged += u64::from(bytes == form);
            taken(bytes, &run, &due, &reply, rng, tally)
        }
    }
}

/// The second writing's run with its open question; stored, it gives the same bytes but for NaN patterns.
fn taken(bytes: &[u8], run: &Run, due: &Run, reply: &Reply, rng: &mut Random, tally: &mut Tally) -> Verdict {
    let plain = reply.kind == 0 && reply.refusal == 0 && reply.evals | reply.steps | reply.startup_iters | reply.stored == 0;
    let (number, question) = questions::open(due);
    holds(plain && reply.number == number, "a form that is one was not taken")?;
    all_same("the question of a damaged form that loads", &numbers(reply), &question)?;
    holds(stored::are_alike(run, due), "a damaged form that loads is another run")?;
    let (again, patterns) = with_one_nan(bytes);
    let mut out = Tray::new(rng, stored::SIZE);
    holds(out.store(run) == 0, "a damaged form that loads is not stored again")?;
    out.accept(&again)?;
    tally.forms.taken[counting::bytes(due)[counting::places::AT] as usize] += 1;
    tally.forms.other_nan += u64::from(patterns > 0);
    Ok(())
}

/// A form that loads, as it is stored again: every NaN pattern that is used replaced by the one; and how many there were.
fn with_one_nan(bytes: &[u8]) -> (Form, usize) {
    let mut content = stored::content_in(bytes).expect("it loads");
    let (point, mut patterns) = (point_in(&content), 0);
    for k in (0..FLOATS).filter(|k| point.uses_float(*k)) {
        let (was, bits) = (float_in(&content, k), one_nan(float_in(&content, k)));
        content[words::FLOATS + 2 * k] = bits as u32;
        content[words::FLOATS + 2 * k + 1] = (bits >> 32) as u32;
        patterns += usize::from(was != bits);
    }
    (stored::form_of(&content), patterns)
}
