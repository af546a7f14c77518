// SPDX-License-Identifier: MIT OR Apache-2.0
//! A run: its questions, answers and end.
use crate::{abi, raw, Refusal, Settings, Triple};

/// What a call tells, where it is not refused.
#[must_use = "a question waits for its answer, and the finished state is told once"]
#[derive(Debug, Clone, Copy, PartialEq)]
pub enum Reply {
    /// A question: what is the acceleration there? Answer under its number.
    Ask { number: u16, t: f64, r: Triple, v: Triple },
    /// The finished state. `evals` counts the accepted answers, `startup_iters` the passes of the startup.
    Done { t: f64, r: Triple, v: Triple, evals: u64, steps: u64, startup_iters: u64 },
}

/// What an answer tells, refused or not.
#[must_use = "its outcome may be a refusal, or the finished state"]
#[derive(Debug, Clone, Copy, PartialEq)]
pub struct Answered {
    /// The next question or the finished state, or why the call was refused.
    pub outcome: Result<Reply, Refusal>,
    /// How many samples this call stored: 0, 1 or 5. All of a run's together are the number of its next sample.
    pub stored: u64,
}

pub(crate) fn read(reply: raw::Reply) -> Result<Reply, Refusal> {
    let raw::Reply { t, r, v, evals, steps, startup_iters, kind, refusal, number, .. } = reply;
    match kind {
        0 => Ok(Reply::Ask { number, t, r, v }),
        1 => Ok(Reply::Done { t, r, v, evals, steps, startup_iters }),
        _ => Err(Refusal::from_number(refusal)),
    }
}

/// An integration under way: plain data of 1,056 bytes. A clone goes on by itself, from the same question. [`Run::store`] puts it away
/// for another day, [`Run::load`] takes it up.
///
/// Different runs may be answered from different threads at once.
#[must_use = "a run goes no further until it is answered"]
#[derive(Clone)]
pub struct Run(pub(crate) raw::Run);

impl Run {
    /// A run from `t0` towards `tf`, with its first question. For whole numbers [`Run::start_whole`] tells its cost too.
    ///
    /// ```
    /// use gauss_jackson::{Reply, Run, Settings, Triple};
    /// let (r0, v0) = (Triple::from([7000.0, 0.0, 0.0]), Triple::from([0.0, 7.5, 0.0]));
    /// let (run, reply) = Run::start(Settings::default(), 0.0, 86_400.0, r0, v0)?;
    /// assert_eq!(reply, Reply::Ask { number: 0, t: 0.0, r: r0, v: v0 });
    /// # assert_eq!(run.open_question(), Ok(reply));
    /// # Ok::<(), gauss_jackson::Refusal>(())
    /// ```
    ///
    /// # Errors
    ///
    /// In this order: [`Refusal::Setting`] for a setting over its limit, [`Refusal::BlankDate`] where `t0`, `tf` or the step is a NaN or an
    /// infinity, [`Refusal::StepNotFinite`] for a step of zero or a span shorter than eight steps.
    pub fn start(settings: Settings, t0: f64, tf: f64, r0: Triple, v0: Triple) -> Result<(Run, Reply), Refusal> {
        abi::must_be_ours();
        let mut run = raw::Run([0; 132]);
        // The run is ours and as large as the library's; it is written whole.
        let reply = unsafe { raw::gj_start(&mut run, settings.into(), t0, tf, r0, v0) };
        Ok((Run(run), read(reply)?))
    }

    /// The answer to question `number`: the acceleration there.
    ///
    /// With samples, sample n goes to numbers 10n to 10n+9 of `samples`, the same slice at every call, and nothing else of it is written.
    /// Samples 0 to 4 come with the startup's last answer, then one a step, so [`numbers_for`](crate::numbers_for) the steps is room
    /// enough. Without samples the slice may be empty. [`Run::answer_from`] takes a small slice too, and tells how many samples were stored.
    /// [`Run::drive`] makes this loop for you:
    ///
    /// ```
    /// use gauss_jackson::{numbers_for, Reply, Run, Settings, Triple};
    /// # fn force(_: f64, r: Triple, _: Triple) -> Triple { Triple { x: -r.x, y: -r.y, z: -r.z } }
    /// # let (r0, v0) = (Triple::from([1.0, 0.0, 0.0]), Triple::from([0.0, 1.0, 0.0]));
    /// let settings = Settings { h: 0.25, samples: true, ..Settings::default() };
    /// let mut samples = vec![0.0; numbers_for(40)];
    /// let (mut run, mut reply) = Run::start(settings, 0.0, 10.0, r0, v0)?;
    /// let (r, v) = loop {
    ///     match reply {
    ///         Reply::Ask { number, t, r, v } => reply = run.answer(number, force(t, r, v), &mut samples)?,
    ///         Reply::Done { r, v, .. } => break (r, v),
    ///     }
    /// };
    /// # assert!((r.x - 10f64.cos()).abs() < 1e-6 && (v.x + 10f64.sin()).abs() < 1e-6, "{r:?} {v:?}");
    /// # Ok::<(), gauss_jackson::Refusal>(())
    /// ```
    ///
    /// # Errors
    ///
    /// In this order: [`Refusal::NoQuestion`] after the run's end and [`Refusal::NotThatQuestion`] for another number leave everything as
    /// it was. [`Refusal::SampleRoom`] ends the run and writes none of this call's samples; those of earlier calls stay.
    /// [`Refusal::MaxStepsExceeded`] ends the run too, and all its samples stay: `max_steps` + 1, or the startup's five where `max_steps`
    /// is below four.
    ///
    /// A number is used again after 65,536 questions: an answer exactly so many questions late is not noticed.
    pub fn answer(&mut self, number: u16, a: Triple, samples: &mut [f64]) -> Result<Reply, Refusal> {
        self.answer_from(number, a, 0, samples).outcome
    }

    /// The same, with a slice that begins at sample `from`, and with the number of samples that the call stored.
    ///
    /// With samples, sample n goes to the ten numbers of `samples` from 10(n - `from`) on, and nothing else of it is written. The run keeps
    /// nothing of the slice: each call may lend another, and begin it elsewhere. Fifty numbers that begin at the number of samples stored so
    /// far are room enough for whatever is due, at every call; what was stored stands at their beginning. Take it before you look at the
    /// outcome: the last samples come with the finished state, or with [`Refusal::MaxStepsExceeded`].
    ///
    /// ```
    /// use gauss_jackson::{Reply, Run, Sample, Settings, Triple, SAMPLE_NUMBERS};
    /// # fn force(_: f64, r: Triple, _: Triple) -> Triple { Triple { x: -r.x, y: -r.y, z: -r.z } }
    /// # let (r0, v0) = (Triple::from([1.0, 0.0, 0.0]), Triple::from([0.0, 1.0, 0.0]));
    /// let settings = Settings { h: 0.25, samples: true, ..Settings::default() };
    /// let mut room = [0.0; 5 * SAMPLE_NUMBERS];
    /// let mut so_far = 0;
    /// let (mut run, mut reply) = Run::start(settings, 0.0, 10.0, r0, v0)?;
    /// while let Reply::Ask { number, t, r, v } = reply {
    ///     let told = run.answer_from(number, force(t, r, v), so_far, &mut room);
    ///     for (n, sample) in (so_far..so_far + told.stored).zip(Sample::view(&room)) {
    ///         println!("sample {n} at {}: {:?}", sample.t, sample.r);
    /// #       assert_eq!(sample.t, 0.25 * n as f64);
    ///     }
    ///     so_far += told.stored;
    ///     reply = told.outcome?;
    /// }
    /// assert_eq!(so_far, 41);
    /// # Ok::<(), gauss_jackson::Refusal>(())
    /// ```
    ///
    /// The outcome is that of [`Run::answer`], with the same refusals in the same order; [`Refusal::SampleRoom`] also where a sample that is
    /// due stands before `from`.
    pub fn answer_from(&mut self, number: u16, a: Triple, from: u64, samples: &mut [f64]) -> Answered {
        // The slice gives pointer and true count; run and slice cannot overlap.
        let told = unsafe { raw::gj_answer(&mut self.0, number, a, from, samples.as_mut_ptr(), samples.len()) };
        Answered { outcome: read(told), stored: told.stored }
    }

    /// The open question, once more.
    ///
    /// ```
    /// # use gauss_jackson::{Run, Settings, Triple};
    /// # let (r0, v0) = (Triple::from([7000.0, 0.0, 0.0]), Triple::from([0.0, 7.5, 0.0]));
    /// let (mut run, _) = Run::start(Settings::default(), 0.0, 86_400.0, r0, v0)?;
    /// let reply = run.answer(0, Triple::default(), &mut [])?;
    /// assert_eq!(run.open_question(), Ok(reply));
    /// # Ok::<(), gauss_jackson::Refusal>(())
    /// ```
    ///
    /// # Errors
    ///
    /// [`Refusal::NoQuestion`] where the run has ended.
    pub fn open_question(&self) -> Result<Reply, Refusal> {
        read(unsafe { raw::gj_open_question(&self.0) })
    }
}

impl std::fmt::Debug for Run {
    fn fmt(&self, f: &mut std::fmt::Formatter) -> std::fmt::Result {
        f.write_str("Run { .. }")
    }
}

#[cfg(test)]
mod tests {
    use super::*;

    fn told(kind: u32) -> raw::Reply {
        let (r, v) = (Triple::from([1.0, 2.0, 3.0]), Triple::from([4.0, 5.0, 6.0]));
        raw::Reply { t: 7.0, r, v, evals: 8, steps: 9, startup_iters: 10, stored: 5, kind, refusal: 6, number: 11 }
    }

    #[test]
    fn each_kind_is_read() {
        let (r, v) = (Triple::from([1.0, 2.0, 3.0]), Triple::from([4.0, 5.0, 6.0]));
        assert_eq!(read(told(0)), Ok(Reply::Ask { number: 11, t: 7.0, r, v }));
        assert_eq!(read(told(1)), Ok(Reply::Done { t: 7.0, r, v, evals: 8, steps: 9, startup_iters: 10 }));
        assert_eq!(read(told(2)), Err(Refusal::SampleRoom));
    }
}
