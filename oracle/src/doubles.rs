// SPDX-License-Identifier: MIT OR Apache-2.0
//! The doubles next to a number, from its bits: rustc 1.63 has no such functions of its own.

/// The next one towards plus infinity; a NaN and plus infinity stay.
pub fn next_up(x: f64) -> f64 {
    if x.is_nan() || x == f64::INFINITY {
        return x;
    }
    let bits = x.to_bits();
    f64::from_bits(if x == 0.0 {
        1
    } else if x > 0.0 {
        bits + 1
    } else {
        bits - 1
    })
}

pub fn next_down(x: f64) -> f64 {
    -next_up(-x)
}
