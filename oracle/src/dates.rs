// SPDX-License-Identifier: MIT OR Apache-2.0
//! W-202's part of the stored list: dates that are none, and dates that are finite but far apart.
use crate::case::Case;
use crate::list::{like, times};

/// Every mixture of blank and finite dates, refusal 12: with steps that would do, and with none, which would be refusal 1.
pub fn blanks() -> Vec<Case> {
    let blank = [("nan", f64::NAN), ("inf", f64::INFINITY), ("minus-inf", f64::NEG_INFINITY)];
    let with = |name, x| std::iter::once((name, x)).chain(blank);
    let mut all = vec![];
    for (start, t0) in with("0", 0.0) {
        for (end, tf) in with("8", 8.0).chain([("0", 0.0)]) {
            for (step, h) in with("1", 1.0).chain([("0", 0.0)]) {
                all.push(times(&format!("blank-{start}-{end}-{step}"), t0, tf, h));
            }
        }
    }
    all.retain(Case::has_blank_date);
    for bits in [0xfff8_0000_0000_0000, 0x7ff0_0000_0000_0001, 0xfff4_0000_0000_0000, u64::MAX] {
        all.push(like(&format!("blank-pattern-{bits:x}"), |c| (c.tf, c.samples, c.away) = (f64::from_bits(bits), true, 1)));
    }
    all
}

/// Finite dates whose difference, clock or startup overflows: no blank date. Forward and backward.
pub fn far_apart() -> Vec<Case> {
    let (two1023, max) = (2f64.powi(1023), f64::MAX);
    let dates = [
        (-1.7e308, 1.7e308, 1e307),
        (-1.7e308, 1.7e308, -4.2e307),
        (-1.7e308, 1.7e308, 4.4e307),
        (-1.7e308, 1.7e308, 1e308),
        (-two1023, two1023, two1023 / 16.0),
        (-two1023, two1023, two1023 / 4.0),
        (-max, max, max / 8.0),
        (-max, max, max / 9.0),
        (-max, max, max),
        (0.0, max, max / 8.0),
        (0.0, max, max / 7.0),
        (0.0, 1.7e308, 1.9e307),
        (1e308, max, 1.0),
        (-max, 0.0, 5e-324),
        (max, max, 1.0),
        (0.0, 1e201, 1e200),
    ];
    let mut all = vec![];
    for (n, (t0, tf, h)) in dates.into_iter().enumerate() {
        for (way, t0, tf) in [("on", t0, tf), ("back", tf, t0)] {
            all.push(like(&format!("far-{n}-{way}"), |c| (c.t0, c.tf, c.h, c.max_steps, c.samples) = (t0, tf, h, 40, true)));
        }
    }
    all
}
