// SPDX-License-Identifier: MIT OR Apache-2.0
//! Position, velocity and acceleration between samples.
use crate::Triple;

/// Position, velocity and acceleration at a time.
#[repr(C)]
#[derive(Debug, Clone, Copy, PartialEq, Default)]
pub struct State {
    pub r: Triple,
    pub v: Triple,
    /// The second derivative of the curve whose position and velocity these are; not the force there, which the library does not have.
    pub a: Triple,
}

#[cfg(feature = "dense")]
mod calls {
    use super::State;
    use crate::{abi, raw, Refusal, BETWEEN_NUMBERS};

    /// At time t, from samples as a run stored them: ten numbers each, and no others in the slice.
    ///
    /// Room that the run did not fill is no sample: cut it off by [`numbers_for`](crate::numbers_for) the steps made. A time of NaN is not
    /// refused and gives NaN. The search begins at the first sample, so the cost grows with the table; for many times take
    /// [`interpolate_batch`].
    ///
    /// ```
    /// // From rest at 0 to 1: two samples, a second apart.
    /// let samples = [0.0, 0.0, 0.0, 0.0, 0.0, 0.0, 0.0, 0.0, 0.0, 0.0, 1.0, 1.0, 0.0, 0.0, 5.0, 0.0, 0.0, 20.0, 0.0, 0.0];
    /// let state = gauss_jackson::interpolate(0.5, &samples)?;
    /// assert_eq!((state.r.x, state.v.x, state.a.x), (0.03125, 0.3125, 2.5));
    /// # Ok::<(), gauss_jackson::Refusal>(())
    /// ```
    ///
    /// # Errors
    ///
    /// In this order: [`Refusal::Shape`] for numbers not in tens, [`Refusal::NoDenseOutput`] for fewer than two samples,
    /// [`Refusal::InterpOutOfBounds`] for a time outside them.
    pub fn interpolate(t: f64, samples: &[f64]) -> Result<State, Refusal> {
        abi::must_be_ours();
        let mut at = State::default();
        let out = std::ptr::addr_of_mut!(at).cast();
        // A State is so many numbers, in the order in which the library writes them.
        Refusal::told(unsafe { raw::gj_interpolate(t, samples.as_ptr(), samples.len(), out, BETWEEN_NUMBERS) })?;
        Ok(at)
    }

    /// At each of the times, which must go the way the run went: one walk along the samples serves them all.
    ///
    /// **A time before the one before it is not refused: the number that it gets is meaningless,** read off the curve of a later interval.
    /// Where the order is not certain, ask [`first_out_of_order`](crate::first_out_of_order) or take
    /// [`interpolate_in_any_order`](crate::interpolate_in_any_order).
    ///
    /// At the very time of an inner sample the batch reads the curve that ends there, [`interpolate`] the one that begins there; both
    /// meet the sample, but for rounding.
    ///
    /// ```
    /// let samples = [0.0, 0.0, 0.0, 0.0, 0.0, 0.0, 0.0, 0.0, 0.0, 0.0, 1.0, 1.0, 0.0, 0.0, 5.0, 0.0, 0.0, 20.0, 0.0, 0.0];
    /// let states = gauss_jackson::interpolate_batch(&[0.0, 0.5, 1.0], &samples)?;
    /// assert_eq!((states[1].r.x, states[2].r.x), (0.03125, 1.0));
    /// assert_eq!((states[0].a.x, states[1].a.x, states[2].a.x), (0.0, 2.5, 20.0));
    /// # Ok::<(), gauss_jackson::Refusal>(())
    /// ```
    ///
    /// # Errors
    ///
    /// Those of [`interpolate`]; a single time outside the samples refuses the whole batch.
    pub fn interpolate_batch(times: &[f64], samples: &[f64]) -> Result<Vec<State>, Refusal> {
        abi::must_be_ours();
        let mut all = vec![State::default(); times.len()];
        let out = all.as_mut_ptr().cast();
        let (k, n, m) = (times.len(), samples.len(), BETWEEN_NUMBERS * times.len());
        Refusal::told(unsafe { raw::gj_interpolate_batch(times.as_ptr(), k, samples.as_ptr(), n, out, m) })?;
        Ok(all)
    }
}

#[cfg(feature = "dense")]
pub use calls::{interpolate, interpolate_batch};

#[cfg(test)]
mod tests {
    use super::State;
    use crate::{Triple, BETWEEN_NUMBERS};
    use std::mem::{align_of, size_of};

    #[test]
    fn a_state_is_what_is_written_a_time() {
        assert_eq!(size_of::<State>(), BETWEEN_NUMBERS * size_of::<f64>());
        assert_eq!(align_of::<State>(), align_of::<f64>());
    }

    #[test]
    fn position_stands_first_then_velocity_then_acceleration() {
        let numbers: [f64; BETWEEN_NUMBERS] = std::array::from_fn(|n| n as f64);
        // A State is as large as these numbers and aligned as they are, and any numbers are a State.
        let state: State = unsafe { std::mem::transmute(numbers) };
        assert_eq!(state.r, Triple::from([0.0, 1.0, 2.0]));
        assert_eq!(state.v, Triple::from([3.0, 4.0, 5.0]));
        assert_eq!(state.a, Triple::from([6.0, 7.0, 8.0]));
    }
}
