// SPDX-License-Identifier: MIT OR Apache-2.0
//! What the caller chooses.
use crate::{abi, raw};

/// What the caller chooses. [`Settings::default`] has the library's own values; change what you need:
///
/// ```
/// use gauss_jackson::Settings;
/// let settings = Settings { h: 30.0, samples: true, ..Settings::default() };
/// # assert_eq!(settings.max_startup_iters, 12);
/// ```
#[derive(Debug, Clone, Copy, PartialEq)]
pub struct Settings {
    /// The step, in the unit of time of your force: 60 by default, a minute where that unit is the second. Its sign does not count.
    pub h: f64,
    /// A step's corrections stop when the relative change of position and of velocity, by the root of the mean of squares, falls below this: 1e-13. Zero
    /// or less makes every pass.
    pub corrector_tol: f64,
    /// The startup's passes stop when the relative change of the accelerations, measured likewise, falls below this: 1e-13. Zero or less makes every
    /// pass.
    pub startup_tol: f64,
    /// The most corrections a step: 2, and at most 100.
    pub max_corrector_iters: u64,
    /// The most passes of the startup: 12, and at most 100.
    pub max_startup_iters: u64,
    /// The most steps of the run: 1,000,000, which is also the most that is taken.
    pub max_steps: u64,
    /// Whether samples are stored in the slice lent to each answer. Off by default: then the slice is not looked at.
    pub samples: bool,
}

impl Default for Settings {
    /// The library's own values, asked from it.
    fn default() -> Settings {
        abi::must_be_ours();
        // It takes nothing, and every value of the record that it gives is taken.
        let raw = unsafe { raw::gj_default_settings() };
        Settings {
            h: raw.h,
            corrector_tol: raw.corrector_tol,
            startup_tol: raw.startup_tol,
            max_corrector_iters: raw.max_corrector_iters,
            max_startup_iters: raw.max_startup_iters,
            max_steps: raw.max_steps,
            samples: raw.samples != 0,
        }
    }
}

impl From<Settings> for raw::Settings {
    fn from(s: Settings) -> raw::Settings {
        raw::Settings {
            h: s.h,
            corrector_tol: s.corrector_tol,
            startup_tol: s.startup_tol,
            max_corrector_iters: s.max_corrector_iters,
            max_startup_iters: s.max_startup_iters,
            max_steps: s.max_steps,
            samples: u8::from(s.samples),
        }
    }
}
