// SPDX-License-Identifier: MIT OR Apache-2.0
//! A run driven to its end by a force.
use crate::{Refusal, Reply, Run, Triple};

/// The finished state of a run that was driven to its end.
#[derive(Debug, Clone, Copy, PartialEq)]
pub struct Finished {
    pub t: f64,
    pub r: Triple,
    pub v: Triple,
    /// Accepted answers.
    pub evals: u64,
    pub steps: u64,
    /// Passes of the startup.
    pub startup_iters: u64,
}

impl Run {
    /// Answers every question by `force`, from the open one to the end. `force` is given time, position and velocity, and tells the
    /// acceleration there; which times it is asked at stands at the [crate's head](crate#what-the-force-is-asked).
    ///
    /// ```
    /// use gauss_jackson::{numbers_for, Run, Sample, Settings, Triple};
    /// // A swing of period 2π: any consistent units do.
    /// let force = |_t: f64, r: Triple, _v: Triple| Triple { x: -r.x, y: -r.y, z: -r.z };
    /// let (r0, v0) = (Triple::from([1.0, 0.0, 0.0]), Triple::from([0.0, 1.0, 0.0]));
    /// let settings = Settings { h: 0.125, samples: true, ..Settings::default() };
    /// let mut samples = vec![0.0; numbers_for(80)];
    ///
    /// let (mut run, _) = Run::start(settings, 0.0, 10.0, r0, v0)?;
    /// let end = run.drive(force, &mut samples)?;
    ///
    /// assert_eq!((end.t, end.steps), (10.0, 80));
    /// assert!((end.r.x - 10f64.cos()).abs() < 1e-9);
    /// assert_eq!(Sample::view(&samples)[80].r, end.r);
    /// # Ok::<(), gauss_jackson::Refusal>(())
    /// ```
    ///
    /// # Errors
    ///
    /// Those of [`Run::answer`] but for [`Refusal::NotThatQuestion`], which cannot come.
    pub fn drive(&mut self, mut force: impl FnMut(f64, Triple, Triple) -> Triple, samples: &mut [f64]) -> Result<Finished, Refusal> {
        self.try_drive(|t, r, v| Ok(force(t, r, v)), samples)
    }

    /// [`Run::drive`] for a force that can fail, as one that reads a table which does not reach far enough. The run then stands at the
    /// question that was not answered: when the cause is gone, drive it again, with the same slice.
    ///
    /// ```
    /// use gauss_jackson::{Refusal, Run, Settings, Triple};
    /// #[derive(Debug)]
    /// enum Trouble {
    ///     Run(Refusal),
    ///     NoDataAt(f64),
    /// }
    /// impl From<Refusal> for Trouble {
    ///     fn from(refusal: Refusal) -> Trouble {
    ///         Trouble::Run(refusal)
    ///     }
    /// }
    /// // Data from the start on are not enough: the startup asks before it.
    /// let force = |t: f64, r: Triple, _: Triple| if t < 0.0 { Err(Trouble::NoDataAt(t)) } else { Ok(r) };
    /// let (mut run, _) = Run::start(Settings::default(), 0.0, 86_400.0, Triple::default(), Triple::default())?;
    /// assert!(matches!(run.try_drive(force, &mut []), Err(Trouble::NoDataAt(_))));
    /// assert!(run.open_question().is_ok());
    /// # Ok::<(), gauss_jackson::Refusal>(())
    /// ```
    ///
    /// # Errors
    ///
    /// What the force gives, and what [`Run::drive`] gives.
    pub fn try_drive<E: From<Refusal>>(
        &mut self,
        mut force: impl FnMut(f64, Triple, Triple) -> Result<Triple, E>,
        samples: &mut [f64],
    ) -> Result<Finished, E> {
        let mut reply = self.open_question()?;
        loop {
            match reply {
                Reply::Ask { number, t, r, v } => reply = self.answer(number, force(t, r, v)?, samples)?,
                Reply::Done { t, r, v, evals, steps, startup_iters } => return Ok(Finished { t, r, v, evals, steps, startup_iters }),
            }
        }
    }
}
