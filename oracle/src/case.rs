// SPDX-License-Identifier: MIT OR Apache-2.0
//! A case, read from its words and written as its line; `transcript` has the format.
use crate::force::{Force, NAMES};
use crate::gauss_jackson::GJSettings;

#[derive(Clone, Debug)]
pub struct Case {
    pub name: String,
    pub t0: f64,
    pub tf: f64,
    pub h: f64,
    pub max_corrector: usize,
    pub corrector_tol: f64,
    pub max_startup: usize,
    pub startup_tol: f64,
    pub max_steps: usize,
    pub samples: bool,
    pub r0: [f64; 3],
    pub v0: [f64; 3],
    pub force: Force,
    pub p: [f64; 4],
    /// Before every so many-th answer the run is put away and taken up; 0 is never.
    pub away: usize,
}

pub fn read_float(word: &str) -> Option<f64> {
    let shaped = word.len() == 16 && word.bytes().all(|b| b.is_ascii_hexdigit());
    shaped.then(|| f64::from_bits(u64::from_str_radix(word, 16).unwrap()))
}

/// At most ten decimal digits.
fn read_count(word: &str) -> Option<usize> {
    let shaped = (1..=10).contains(&word.len()) && word.bytes().all(|b| b.is_ascii_digit());
    shaped.then(|| word.parse().unwrap())
}

/// What follows a case's other words: nothing, or `away` and a count above zero.
fn read_away(words: &[&str]) -> Option<usize> {
    match words {
        [] => Some(0),
        ["away", every] => read_count(every).filter(|n| *n > 0),
        _ => None,
    }
}

impl Case {
    /// The words after `case`.
    pub fn read(words: &[&str]) -> Option<Case> {
        if words.len() < 21 {
            return None;
        }
        let f = |i: usize| read_float(words[i]);
        let n = |i: usize| read_count(words[i]);
        let triple = |i: usize| Some([f(i)?, f(i + 1)?, f(i + 2)?]);
        Some(Case {
            name: words[0].to_string(),
            t0: f(1)?,
            tf: f(2)?,
            h: f(3)?,
            max_corrector: n(4)?,
            corrector_tol: f(5)?,
            max_startup: n(6)?,
            startup_tol: f(7)?,
            max_steps: n(8)?,
            samples: match words[9] {
                "0" => false,
                "1" => true,
                _ => return None,
            },
            r0: triple(10)?,
            v0: triple(13)?,
            force: NAMES.iter().find(|(name, _)| *name == words[16])?.1,
            p: [f(17)?, f(18)?, f(19)?, f(20)?],
            away: read_away(&words[21..])?,
        })
    }

    pub fn line(&self) -> String {
        let bits = |xs: &[f64]| xs.iter().map(|x| format!(" {:016x}", x.to_bits())).collect::<String>();
        let force = NAMES.iter().find(|(_, f)| *f as u8 == self.force as u8).unwrap().0;
        let away = if self.away == 0 { String::new() } else { format!(" away {}", self.away) };
        format!(
            "case {}{} {}{} {}{} {} {}{}{} {}{}{away}",
            self.name,
            bits(&[self.t0, self.tf, self.h]),
            self.max_corrector,
            bits(&[self.corrector_tol]),
            self.max_startup,
            bits(&[self.startup_tol]),
            self.max_steps,
            self.samples as u8,
            bits(&self.r0),
            bits(&self.v0),
            force,
            bits(&self.p)
        )
    }

    /// Whether the start, the end or the step is a NaN or an infinity: W-202's refusal 12, which the module does not know.
    pub fn has_blank_date(&self) -> bool {
        ![self.t0, self.tf, self.h].iter().all(|x| x.is_finite())
    }

    pub fn settings(&self) -> GJSettings<f64> {
        GJSettings {
            h: self.h,
            max_corrector_iters: self.max_corrector,
            corrector_tol: self.corrector_tol,
            max_startup_iters: self.max_startup,
            startup_tol: self.startup_tol,
            max_steps: self.max_steps,
            dense_output: self.samples,
        }
    }
}
