// SPDX-License-Identifier: MIT OR Apache-2.0
//! A case, read from its line (the format is in the oracle).
use crate::force::{Force, NAMES};
use crate::raw::{Settings, Triple};

/// What no date may be, by its bits: NaN of several patterns, and both infinities.
pub const BLANKS: [u64; 6] =
    [0x7ff8_0000_0000_0000, 0xfff8_0000_0000_0000, 0x7ff0_0000_0000_0001, 0xffff_ffff_ffff_ffff, 0x7ff0_0000_0000_0000, 0xfff0_0000_0000_0000];

#[derive(Clone)]
pub struct Case {
    pub t0: f64,
    pub tf: f64,
    pub settings: Settings,
    pub r0: Triple,
    pub v0: Triple,
    pub force: Force,
    pub p: [f64; 4],
    /// The run is put away and taken up before every so many-th answer; 0 is never.
    pub away: usize,
    pub sharpness: Sharpness,
}

/// Whether a tolerance was put where the run decides, and whether the number of answers changes close by; a case's name ends accordingly
/// (oracle/src/tolerances.rs).
#[derive(Clone, Copy, PartialEq)]
pub enum Sharpness {
    Plain,
    Sharpened,
    Telling,
}

impl Sharpness {
    fn of(name: &str) -> Sharpness {
        match name.rsplit('-').next() {
            Some("s") => Sharpness::Sharpened,
            Some("t") => Sharpness::Telling,
            _ => Sharpness::Plain,
        }
    }
}

impl Case {
    pub fn read(line: &str) -> Option<Case> {
        let words: Vec<&str> = line.split(' ').collect();
        let away = match words[..] {
            [_, .., "away", every] if words.len() == 24 => every.parse::<usize>().ok().filter(|n| *n > 0)?,
            _ if words.len() == 22 => 0,
            _ => return None,
        };
        if words[0] != "case" {
            return None;
        }
        let f = |i: usize| u64::from_str_radix(words[i], 16).ok().map(f64::from_bits);
        let n = |i: usize| words[i].parse::<u64>().ok();
        let settings = Settings {
            h: f(4)?,
            max_corrector_iters: n(5)?,
            corrector_tol: f(6)?,
            max_startup_iters: n(7)?,
            startup_tol: f(8)?,
            max_steps: n(9)?,
            samples: u8::from(words[10] == "1"),
        };
        Some(Case {
            t0: f(2)?,
            tf: f(3)?,
            settings,
            r0: Triple { x: f(11)?, y: f(12)?, z: f(13)? },
            v0: Triple { x: f(14)?, y: f(15)?, z: f(16)? },
            force: NAMES.iter().find(|(name, _)| *name == words[17])?.1,
            p: [f(18)?, f(19)?, f(20)?, f(21)?],
            away,
            sharpness: Sharpness::of(words[1]),
        })
    }

    pub fn wants_samples(&self) -> bool {
        self.settings.samples == 1
    }

    /// Whether the start, the end or the step is a NaN or an infinity (W-202).
    pub fn has_blank_date(&self) -> bool {
        ![self.t0, self.tf, self.settings.h].iter().all(|x| x.is_finite())
    }

    /// The same case, ending where the clock stands after so many steps.
    pub fn cut_after(&self, steps: u64) -> Case {
        let h = self.settings.h.abs() * if self.tf >= self.t0 { 1.0 } else { -1.0 };
        let mut t = self.t0 + 4.0 * h;
        for _ in 4..steps {
            t += h;
        }
        Case { tf: t, ..self.clone() }
    }
}
