// SPDX-License-Identifier: MIT OR Apache-2.0
//! The order of times, which a batch takes on trust.
use crate::{interpolate_batch, Refusal, Sample, State};
use std::cmp::Ordering;

/// How one time stands to another, the way the samples go: forward if the last is later than the first, else backward.
fn along(samples: &[f64]) -> impl Fn(f64, f64) -> Ordering {
    let samples = Sample::view(samples);
    let forward = matches!((samples.first(), samples.last()), (Some(first), Some(last)) if last.t > first.t);
    move |a, b| if forward { a.total_cmp(&b) } else { b.total_cmp(&a) }
}

/// The place of the first time that comes before an earlier one, the way the samples go; `None` where
/// [`interpolate_batch`] may be asked. Times of NaN have no order and are passed over.
///
/// ```
/// # let numbers = |t| [t, 0.0, 0.0, 0.0, 0.0, 0.0, 0.0, 0.0, 0.0, 0.0];
/// let samples = [numbers(0.0), numbers(60.0)].concat();
/// assert_eq!(gauss_jackson::first_out_of_order(&[10.0, 20.0, 20.0, 15.0], &samples), Some(3));
/// assert_eq!(gauss_jackson::first_out_of_order(&[10.0, 20.0, 20.0, 25.0], &samples), None);
/// ```
#[must_use]
pub fn first_out_of_order(times: &[f64], samples: &[f64]) -> Option<usize> {
    let along = along(samples);
    let mut latest: Option<f64> = None;
    for (place, t) in times.iter().copied().enumerate().filter(|(_, t)| !t.is_nan()) {
        // The two zeros are one time.
        if latest.map_or(false, |before| t != before && along(t, before).is_lt()) {
            return Some(place);
        }
        latest = Some(t);
    }
    None
}

/// [`interpolate_batch`] for times in any order: they are sorted first, and each state stands where its time stood.
///
/// ```
/// let samples = [0.0, 0.0, 0.0, 0.0, 0.0, 0.0, 0.0, 0.0, 0.0, 0.0, 1.0, 1.0, 0.0, 0.0, 5.0, 0.0, 0.0, 20.0, 0.0, 0.0];
/// let states = gauss_jackson::interpolate_in_any_order(&[1.0, 0.5, 0.0], &samples)?;
/// assert_eq!((states[0].r.x, states[1].r.x, states[1].a.x), (1.0, 0.03125, 2.5));
/// # Ok::<(), gauss_jackson::Refusal>(())
/// ```
///
/// # Errors
///
/// Those of [`interpolate_batch`].
pub fn interpolate_in_any_order(times: &[f64], samples: &[f64]) -> Result<Vec<State>, Refusal> {
    let along = along(samples);
    let mut places: Vec<usize> = (0..times.len()).collect();
    places.sort_by(|a, b| along(times[*a], times[*b]));
    let sorted: Vec<f64> = places.iter().map(|place| times[*place]).collect();
    let mut states = vec![State::default(); times.len()];
    for (place, state) in places.into_iter().zip(interpolate_batch(&sorted, samples)?) {
        states[place] = state;
    }
    Ok(states)
}

#[cfg(test)]
mod tests {
    use super::first_out_of_order;

    fn table(first: f64, last: f64) -> Vec<f64> {
        let mut numbers = vec![0.0; 20];
        numbers[0] = first;
        numbers[10] = last;
        numbers
    }

    #[test]
    fn the_first_step_back_is_told() {
        let (on, back) = (table(0.0, 9.0), table(9.0, 0.0));
        assert_eq!(first_out_of_order(&[1.0, 2.0, 2.0, 3.0], &on), None);
        assert_eq!(first_out_of_order(&[1.0, 2.0, 1.5, 1.0], &on), Some(2));
        assert_eq!(first_out_of_order(&[3.0, 2.0, 2.0, 1.0], &back), None);
        assert_eq!(first_out_of_order(&[1.0, 2.0], &back), Some(1));
        assert_eq!(first_out_of_order(&[], &on), None);
    }

    #[test]
    fn nan_is_passed_over_and_zeros_are_equal() {
        let on = table(-9.0, 9.0);
        assert_eq!(first_out_of_order(&[f64::NAN, 2.0, f64::NAN, 1.0], &on), Some(3));
        assert_eq!(first_out_of_order(&[2.0, f64::NAN, 3.0], &on), None);
        assert_eq!(first_out_of_order(&[0.0, -0.0], &on), None);
    }
}
