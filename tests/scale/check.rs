// SPDX-License-Identifier: MIT OR Apache-2.0
//! What a comparison says, and comparing floats: bits for bits, all NaN alike. A text is only put together where it is needed.
use std::fmt::Display;

pub type Verdict<T = ()> = Result<T, String>;

pub fn same(a: f64, b: f64) -> bool {
    a.to_bits() == b.to_bits() || (a.is_nan() && b.is_nan())
}

pub fn all_same(what: impl Display, got: &[f64], want: &[f64]) -> Verdict {
    if got.len() == want.len() && got.iter().zip(want).all(|(a, b)| same(*a, *b)) {
        return Ok(());
    }
    Err(format!("{what}: library {got:?}, module {want:?}"))
}

pub fn holds(fact: bool, what: impl Display) -> Verdict {
    if fact {
        Ok(())
    } else {
        Err(what.to_string())
    }
}
