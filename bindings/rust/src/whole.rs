// SPDX-License-Identifier: MIT OR Apache-2.0
//! The whole-second profile: what a run takes, told before it is begun.
use crate::{abi, raw, run, Refusal, Reply, Run, Settings, Triple};

/// What a run of whole numbers takes, by [`forecast`] or [`Run::start_whole`].
#[derive(Debug, Clone, Copy, PartialEq, Eq)]
pub struct Cost {
    /// The steps that it makes.
    pub steps: u64,
    /// The samples in all, one more than steps, which a slice from sample 0 on must hold; 0 where none are wanted.
    pub samples: usize,
    /// The same room in numbers, ten a sample: what the slice lent to [`Run::answer`] must have.
    pub numbers: usize,
    /// The fewest answers that it accepts up to its end.
    pub least: u64,
    /// The most; met exactly where both tolerances are zero or less.
    pub most: u64,
}

impl From<raw::Cost> for Cost {
    fn from(told: raw::Cost) -> Cost {
        let raw::Cost { steps, samples, numbers, least, most } = told;
        // A million steps at most: the room can be counted in 32 bits.
        Cost { steps, samples: samples as usize, numbers: numbers as usize, least, most }
    }
}

/// What a run from `t0` to `tf` would take, without a run: what an app shows beside its button.
///
/// Start, end and step must be whole numbers (-0.0 is 0): `t0` and `tf` at most 2^50 in size, the step from 1 to 10^9 in size.
///
/// ```
/// use gauss_jackson::{forecast, Settings};
/// // A year of minutes, with samples.
/// let settings = Settings { samples: true, ..Settings::default() };
/// let cost = forecast(settings, 0.0, 31_536_000.0)?;
/// assert_eq!((cost.steps, cost.samples, cost.numbers), (525_600, 525_601, 5_256_010));
/// assert_eq!((cost.least, cost.most), (525_645, 1_576_925));
/// # Ok::<(), gauss_jackson::Refusal>(())
/// ```
///
/// # Errors
///
/// Those that [`Run::start_whole`] gives to the same values, in the same order.
pub fn forecast(settings: Settings, t0: f64, tf: f64) -> Result<Cost, Refusal> {
    abi::must_be_ours();
    // Plain numbers go in and come out.
    let told = unsafe { raw::gj_forecast(settings.into(), t0, tf) };
    Refusal::told(told.refusal)?;
    Ok(told.cost.into())
}

impl Run {
    /// A run from `t0` towards `tf` in whole numbers, with its first question and what it takes.
    ///
    /// Start, end and step must be whole numbers (-0.0 is 0): `t0` and `tf` at most 2^50 in size, the step from 1 to 10^9 in size. It is the
    /// run that [`Run::start`] gives for the same values, with the same questions.
    ///
    /// **A run that is accepted here always finishes,** at `tf` exactly, in [`Cost::steps`] steps, after [`Cost::least`] to [`Cost::most`]
    /// answers, whatever the force says: if each answer comes under its question's number, with room for [`Cost::numbers`] numbers, or with
    /// a small slice that begins at the next sample ([`Run::answer_from`]).
    /// [`Run::drive`] answers so, given that room.
    ///
    /// ```
    /// use gauss_jackson::{forecast, Run, Sample, Settings, Triple};
    /// # fn force(_: f64, r: Triple, _: Triple) -> Triple { Triple { x: -r.x / 1e6, y: -r.y / 1e6, z: -r.z / 1e6 } }
    /// # let (r0, v0) = (Triple::from([7000.0, 0.0, 0.0]), Triple::from([0.0, 7.0, 0.0]));
    /// let settings = Settings { samples: true, ..Settings::default() };
    /// let (mut run, _, cost) = Run::start_whole(settings, 0.0, 3600.0, r0, v0)?;
    /// assert_eq!(forecast(settings, 0.0, 3600.0), Ok(cost));
    ///
    /// let mut samples = vec![0.0; cost.numbers];
    /// let end = run.drive(force, &mut samples)?;
    /// assert_eq!((end.t, end.steps), (3600.0, cost.steps));
    /// assert!((cost.least..=cost.most).contains(&end.evals));
    /// assert_eq!(Sample::view(&samples).len(), cost.samples);
    /// # Ok::<(), gauss_jackson::Refusal>(())
    /// ```
    ///
    /// # Errors
    ///
    /// In this order: [`Refusal::Setting`] for a setting over its limit, [`Refusal::BlankDate`] where `t0`, `tf` or the step is a NaN or an
    /// infinity, [`Refusal::NotWhole`] where one of them is no whole number or beyond its bounds (a step of zero is: its size is below 1),
    /// [`Refusal::StepNotFinite`] for a span shorter than eight steps, [`Refusal::TooFewSteps`] where `max_steps` is below the steps that
    /// the run takes.
    pub fn start_whole(settings: Settings, t0: f64, tf: f64, r0: Triple, v0: Triple) -> Result<(Run, Reply, Cost), Refusal> {
        abi::must_be_ours();
        let mut started = raw::Run([0; 132]);
        // The run is ours and as large as the library's; it is written whole.
        let told = unsafe { raw::gj_start_whole(&mut started, settings.into(), t0, tf, r0, v0) };
        let reply = run::read(told.reply)?;
        Ok((Run(started), reply, told.cost.into()))
    }
}

#[cfg(test)]
mod tests {
    use super::*;

    #[test]
    fn a_cost_is_read_field_by_field() {
        let told = raw::Cost { steps: 1, samples: 2, numbers: 3, least: 4, most: 5 };
        assert_eq!(Cost::from(told), Cost { steps: 1, samples: 2, numbers: 3, least: 4, most: 5 });
    }
}
