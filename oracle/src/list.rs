// SPDX-License-Identifier: MIT OR Apache-2.0
//! The stored list of cases: 01's edges, corners, grids, and a few random ones.
use crate::case::Case;
use crate::cases::{drawn, plain, SPECIAL, TOLERANCES};
use crate::dates::{blanks, far_apart};
use crate::force::Force;
use crate::sizes;
use crate::tables;
use std::io::{self, Write};

/// A case like `plain` but for what is said.
pub fn like(name: &str, change: impl FnOnce(&mut Case)) -> Case {
    let mut c = plain(name);
    change(&mut c);
    c
}

pub fn times(name: &str, t0: f64, tf: f64, h: f64) -> Case {
    like(name, |c| (c.t0, c.tf, c.h) = (t0, tf, h))
}

/// 01's "Examples at the edges".
fn edges() -> Vec<Case> {
    let two53 = 9007199254740992.0;
    vec![
        times("edge-8", 0.0, 8.0, 1.0),
        times("edge-9", 0.0, 9.0, 1.0),
        times("edge-17-by-2", 0.0, 17.0, 2.0),
        like("edge-17-by-2-samples", |c| (c.tf, c.h, c.samples) = (17.0, 2.0, true)),
        times("edge-15-by-2", 0.0, 15.0, 2.0),
        times("edge-16-by-2", 0.0, 16.0, 2.0),
        like("edge-back", |c| (c.t0, c.tf, c.h, c.samples) = (100.0, 20.0, -10.0, true)),
        times("edge-same", 3.0, 3.0, 1.0),
        times("edge-no-step", 0.0, 8.0, 0.0),
        like("edge-seven", |c| c.max_steps = 7),
        like("edge-four", |c| c.max_steps = 4),
        like("edge-none", |c| c.max_steps = 0),
        like("edge-tenths", |c| (c.tf, c.h, c.samples) = (0.8, 0.1, true)),
        like("edge-sticks", |c| (c.t0, c.tf, c.max_steps, c.samples) = (two53, two53 + 8.0, 20, true)),
        times("edge-to-nan", 0.0, f64::NAN, 1.0),
    ]
}

/// 01's year, all passes made, under a pull towards the centre that goes round in about an hour and a half.
fn year() -> Case {
    like("year", |c| {
        (c.tf, c.h, c.max_startup, c.max_corrector, c.max_steps) = (31536000.0, 60.0, 12, 2, 1000000);
        c.p = [-1.28e-6, 0.0, 0.0, 0.0];
    })
}

/// The corners that are easy to misread.
fn corners() -> Vec<Case> {
    let inf = f64::INFINITY;
    let two53 = 9007199254740992.0;
    vec![
        times("both-infinite", inf, inf, 1.0),
        times("same-nan-step", 0.0, 0.0, f64::NAN),
        like("minus-zero-start", |c| (c.t0, c.samples) = (-0.0, true)),
        like("infinite-step", |c| (c.h, c.samples, c.max_steps) = (inf, true, 9)),
        times("question-twelve", 0.1, 2.1, 0.2),
        like("tail-past-clock", |c| (c.t0, c.tf, c.samples) = (-8.5, 1e-20, true)),
        like("past-the-end", |c| (c.tf, c.h, c.samples) = (2.0, 0.1, true)),
        times("to-minus-zero", -8.0, -0.0, 1.0),
        like("to-nan-no-steps", |c| (c.tf, c.max_steps) = (f64::NAN, 0)),
        times("just-eight", 1e-17, 8.0, 1.0),
        times("just-below-eight", 0.0, 0.7999999999999999, 0.1),
        like("span-overflows", |c| (c.t0, c.tf, c.h, c.max_steps) = (-1.5e308, 1.5e308, 2e307, 20)),
        like("subnormal-step", |c| (c.tf, c.h, c.samples) = (8.5 * 1e-320, 1e-320, true)),
        like("least-step", |c| (c.tf, c.h) = (9.0 * 5e-324, 5e-324)),
        like("limit-before-tail", |c| (c.tf, c.h, c.max_steps) = (17.0, 2.0, 8)),
        like("limit-before-tail-samples", |c| (c.tf, c.h, c.max_steps, c.samples) = (17.0, 2.0, 8, true)),
        like("all-nan", |c| (c.p[0], c.startup_tol, c.corrector_tol, c.max_startup) = (f64::NAN, 1e-13, 1e-13, 6)),
        like("equal-times", |c| (c.t0, c.tf, c.h, c.samples) = (two53, two53 + 40.0, 1.5, true)),
        like("nearly-a-step", |c| (c.tf, c.h) = (9.0 - 1e-13, 1.0)),
        like("hardly-short", |c| (c.tf, c.h) = (9.0 - 1e-11, 1.0)),
    ]
}

/// Every count of passes, every tolerance, every force, and one odd value at a time.
fn grids() -> Vec<Case> {
    let forces = [Force::Lin, Force::Cub, Force::Lcg, Force::Mix];
    let mut all = vec![];
    for s in 0..=6usize {
        for k in 0..=4usize {
            all.push(like(&format!("passes-{s}-{k}"), |c| {
                (c.max_startup, c.max_corrector, c.samples) = (s, k, (s + k) % 2 == 0);
                (c.tf, c.force) = (8.0 + (k as f64) * 0.5, forces[(s + k) % 4]);
                if s % 2 == 1 {
                    (c.t0, c.tf) = (c.tf, c.t0);
                }
            }));
        }
    }
    for (n, tol) in TOLERANCES.iter().enumerate() {
        all.push(like(&format!("startup-tol-{n}"), |c| (c.startup_tol, c.max_startup) = (*tol, 4)));
        all.push(like(&format!("corrector-tol-{n}"), |c| (c.corrector_tol, c.max_corrector, c.tf) = (*tol, 4, 10.0)));
    }
    for (n, x) in SPECIAL.iter().enumerate() {
        all.push(like(&format!("start-{n}"), |c| (c.t0, c.max_steps, c.samples) = (*x, 7, true)));
        all.push(like(&format!("end-{n}"), |c| (c.tf, c.max_steps, c.samples) = (*x, 7, true)));
        all.push(like(&format!("step-{n}"), |c| (c.h, c.max_steps, c.samples) = (*x, 7, true)));
        all.push(like(&format!("position-{n}"), |c| c.r0[n % 3] = *x));
        all.push(like(&format!("velocity-{n}"), |c| c.v0[n % 3] = *x));
    }
    all
}

/// Put away and taken up on the way: before every answer, before some, never reached; through tails, limits, NaN and backward.
fn away() -> Vec<Case> {
    let put = |name: &str, every: usize, change: fn(&mut Case)| {
        like(name, |c| {
            c.away = every;
            change(c);
        })
    };
    let mut all = vec![
        put("away-plain", 1, |_| ()),
        put("away-tail-samples", 1, |c| (c.tf, c.h, c.samples) = (17.0, 2.0, true)),
        put("away-back", 1, |c| (c.t0, c.tf, c.h, c.samples) = (100.0, 20.0, -10.0, true)),
        put("away-mix", 1, |c| (c.tf, c.force, c.max_startup, c.max_corrector, c.samples) = (10.5, Force::Mix, 2, 2, true)),
        put("away-lcg", 1, |c| (c.tf, c.force, c.max_startup, c.max_corrector, c.samples) = (9.5, Force::Lcg, 2, 3, true)),
        put("away-all-nan", 1, |c| (c.p[0], c.startup_tol, c.corrector_tol) = (f64::NAN, 1e-13, 1e-13)),
        put("away-minus-zero", 1, |c| (c.t0, c.r0[0], c.samples) = (-0.0, -0.0, true)),
        put("away-subnormal", 2, |c| (c.tf, c.h, c.samples) = (8.5 * 1e-320, 1e-320, true)),
        put("away-tenths", 3, |c| (c.tf, c.h, c.samples) = (0.8, 0.1, true)),
        put("away-passes", 8, |c| (c.max_startup, c.max_corrector, c.force) = (6, 4, Force::Cub)),
        put("away-after-survey", 41, |c| c.samples = true),
        put("away-never-reached", 1000, |_| ()),
        put("away-limit", 1, |c| (c.max_steps, c.samples) = (7, true)),
        put("away-refused", 1, |c| (c.tf, c.h) = (15.0, 2.0)),
    ];
    all.extend(drawn(2, 20).map(|mut c| {
        c.away = 1;
        c
    }));
    all
}

/// A run long enough for its numbers to begin again at 0, by its end alone.
fn away_late() -> Case {
    like("away-late", |c| (c.tf, c.max_corrector, c.p, c.away) = (30000.0, 2, [-0.01, 0.0, 0.0, 0.0], 997))
}

/// What may not follow a case.
const BAD_AWAY: [&str; 5] = [" away", " away 0", " away 12345678901", " aways 2", " away 2 3"];

/// Lines that have no such shape; each is answered `bad line N`.
const BAD: [&str; 6] = [
    "case short 0000000000000000",
    "case upper 0000000000000000 4020000000000000 3ff0000000000000 1 0 1 0000000000000000 9 0",
    "cases 1 2 3",
    "at 3ff000000000000",
    "table odd 0000000000000000",
    "batch 3ff0000000000000 nan",
];

/// Times asked of these cases' samples, if they leave any.
fn asked(name: &str) -> Vec<String> {
    tables::after_case(match name {
        "edge-8" | "edge-15-by-2" | "edge-seven" => &[0.0],
        "edge-17-by-2-samples" => &[0.0, 1.0, 2.0, 8.5, 16.0, 16.5, 17.0, f64::NAN],
        "edge-back" => &[100.0, 95.0, 70.0, 69.0, 25.0, 20.0],
        "edge-tenths" => &[0.0, 0.05, 0.1, 0.75, 0.7999999999999999, 0.8],
        "minus-zero-start" => &[-0.0, 0.0, 3.5, 8.0, f64::NEG_INFINITY],
        "past-the-end" => &[1.95, 2.0, 2.0000000000000004],
        "equal-times" => &[9007199254740992.0, 9007199254740994.0, 9007199254741022.0, 9007199254741032.0],
        _ => return vec![],
    })
}

/// What `crates/replay` has as its standard input.
pub fn print(out: &mut impl Write) -> io::Result<()> {
    writeln!(out, "# Made by: oracle list. The expected output is what the module says: oracle run.")?;
    let nothing = tables::after_case(&[0.0]);
    let of_cases = edges().into_iter().chain(corners()).chain(blanks()).chain(far_apart()).chain(grids());
    let cases = of_cases.flat_map(|c| std::iter::once(c.line()).chain(asked(&c.name)));
    for line in nothing.into_iter().chain(cases).chain(tables::list()) {
        writeln!(out, "{line}")?;
    }
    writeln!(out, "\n# The year of one-minute steps, by its end: 525,600 steps, 1,576,925 answers.")?;
    writeln!(out, "{}", year().line().replacen("case", "final", 1))?;
    writeln!(out, "\n# Misshapen lines.")?;
    for line in BAD {
        writeln!(out, "{line}")?;
    }
    writeln!(out, "\n# Random cases and tables.")?;
    for c in drawn(1, 180) {
        writeln!(out, "{}", c.line())?;
    }
    tables::random(1, 60, out)?;
    writeln!(out, "\n# Runs that are put away and taken up on their way, then misshapen words for it.")?;
    for c in away() {
        writeln!(out, "{}", c.line())?;
    }
    writeln!(out, "{}", away_late().line().replacen("case", "final", 1))?;
    for words in BAD_AWAY {
        writeln!(out, "{}{words}", plain("away-bad").line())?;
    }
    writeln!(out, "\n# Tolerances at what they are compared with and beside it, and sizes that overflow, underflow or are NaN.")?;
    for c in sizes::list() {
        writeln!(out, "{}", c.line())?;
    }
    Ok(())
}
