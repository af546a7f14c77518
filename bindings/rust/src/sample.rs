// SPDX-License-Identifier: MIT OR Apache-2.0
//! Samples: how much room they take, and what stands in it.
use crate::Triple;

/// Numbers in a sample: t, then x, y and z of position, velocity and acceleration.
pub const SAMPLE_NUMBERS: usize = 10;

/// How many numbers the samples of a run of so many steps take: one more sample than steps. For whole-number times the steps are the span
/// over the step, rounded up: [`forecast`](crate::forecast) tells them, and this room too.
///
/// ```
/// // A day of minutes.
/// assert_eq!(gauss_jackson::numbers_for(1440), 14_410);
/// ```
#[must_use]
pub const fn numbers_for(steps: usize) -> usize {
    SAMPLE_NUMBERS * (steps + 1)
}

/// A sample: ten numbers of the slice lent to a run, by name.
#[repr(C)]
#[derive(Debug, Clone, Copy, PartialEq, Default)]
pub struct Sample {
    pub t: f64,
    pub r: Triple,
    pub v: Triple,
    /// The acceleration that the force gave there.
    pub a: Triple,
}

impl Sample {
    /// The samples in a slice of tens, as they stand there; numbers after the last whole ten are left out.
    ///
    /// A run writes as many samples as it makes steps, and one: where the room is larger, cut it by [`numbers_for`] first.
    ///
    /// ```
    /// use gauss_jackson::Sample;
    /// let numbers = [60.0, 1.0, 2.0, 3.0, 4.0, 5.0, 6.0, 7.0, 8.0, 9.0];
    /// for sample in Sample::view(&numbers) {
    ///     assert_eq!((sample.t, sample.r.x, sample.v.x, sample.a.z), (60.0, 1.0, 4.0, 9.0));
    /// }
    /// ```
    #[must_use]
    pub fn view(numbers: &[f64]) -> &[Sample] {
        let count = numbers.len() / SAMPLE_NUMBERS;
        // A Sample is ten numbers without a gap, aligned as one number is, and any ten numbers are a Sample.
        unsafe { std::slice::from_raw_parts(numbers.as_ptr().cast(), count) }
    }
}

#[cfg(test)]
mod tests {
    use super::*;
    use std::mem::{align_of, size_of};

    #[test]
    fn a_day_of_minutes_takes_1441_samples() {
        assert_eq!(numbers_for(1440), 14_410);
    }

    #[test]
    fn a_sample_is_ten_numbers() {
        assert_eq!(size_of::<Sample>(), SAMPLE_NUMBERS * size_of::<f64>());
        assert_eq!(align_of::<Sample>(), align_of::<f64>());
    }

    #[test]
    fn a_view_reads_whole_tens_in_order() {
        let numbers: Vec<f64> = (0..29).map(f64::from).collect();
        let samples = Sample::view(&numbers);
        assert_eq!(samples.len(), 2);
        let (first, second) = (samples[0], samples[1]);
        assert_eq!((first.t, <[f64; 3]>::from(first.r)), (0.0, [1.0, 2.0, 3.0]));
        assert_eq!((second.t, <[f64; 3]>::from(second.v)), (10.0, [14.0, 15.0, 16.0]));
        assert_eq!(<[f64; 3]>::from(second.a), [17.0, 18.0, 19.0]);
        assert_eq!(Sample::view(&numbers[..9]), []);
        assert_eq!(Sample::view(&[]), []);
    }
}
