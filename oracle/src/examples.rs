// SPDX-License-Identifier: MIT OR Apache-2.0
//! 01's "Examples at the edges", run on the module: what 01's text and counting give beside what the module does.
use crate::case::Case;
use crate::cases::plain;
use crate::force::{Source, V3};
use crate::gauss_jackson::{GJDenseOutput, GJSolution, GaussJackson8};
use crate::transcript::number;
use crate::with_acceleration::interpolate;
use numeris::ode::OdeError;
use numeris::Vector;
use std::io::{self, Write};

struct Ran {
    answers: u64,
    result: Result<GJSolution<f64, 3>, OdeError>,
}

fn run(case: &Case) -> Ran {
    let mut source = Source::new(case.force, case.p);
    let mut answers = 0;
    let force = |t: f64, r: &V3, v: &V3| {
        answers += 1;
        source.answer(t, r, v)
    };
    let (r0, v0) = (V3::from_array(case.r0), V3::from_array(case.v0));
    let result = GaussJackson8::integrate(case.t0, case.tf, &r0, &v0, force, &case.settings());
    Ran { answers, result }
}

fn told(ran: &Ran) -> String {
    match &ran.result {
        Ok(s) => format!("{} steps, {} answers, ends at {:?}", s.steps, ran.answers, s.t),
        Err(e) => format!("refusal {} after {} answers", number(*e), ran.answers),
    }
}

/// One row: what 01 gives, in the words of `told`.
fn row(out: &mut impl Write, what: &str, said: &str, change: impl FnOnce(&mut Case)) -> io::Result<()> {
    let mut case = plain("example");
    change(&mut case);
    line(out, what, said, &told(&run(&case)))
}

fn line(out: &mut impl Write, what: &str, said: &str, got: &str) -> io::Result<()> {
    let verdict = if said == got { "agrees" } else { "DIFFERS" };
    writeln!(out, "{verdict}: {what}\n    expected: {said}\n    module:   {got}")
}

pub fn print(out: &mut impl Write) -> io::Result<()> {
    let two53 = 9007199254740992.0;
    row(out, "0 to 8, h 1", "8 steps, 57 answers, ends at 8.0", |_| ())?;
    row(out, "0 to 9, h 1", "9 steps, 59 answers, ends at 9.0", |c| c.tf = 9.0)?;
    row(out, "0 to 17, h 2", "9 steps, 61 answers, ends at 17.0", |c| (c.tf, c.h) = (17.0, 2.0))?;
    row(out, "0 to 17, h 2, samples", "9 steps, 62 answers, ends at 17.0", |c| (c.tf, c.h, c.samples) = (17.0, 2.0, true))?;
    row(out, "0 to 15, h 2", "refusal 1 after 0 answers", |c| (c.tf, c.h) = (15.0, 2.0))?;
    row(out, "0 to 16, h 2", "8 steps, 57 answers, ends at 16.0", |c| (c.tf, c.h) = (16.0, 2.0))?;
    row(out, "100 to 20, h -10", "8 steps, 57 answers, ends at 20.0", |c| (c.t0, c.tf, c.h) = (100.0, 20.0, -10.0))?;
    row(out, "t0 = tf", "refusal 1 after 0 answers", |c| c.tf = 0.0)?;
    row(out, "h 0", "refusal 1 after 0 answers", |c| c.h = 0.0)?;
    row(out, "0 to 8, max_steps 7", "refusal 2 after 55 answers", |c| c.max_steps = 7)?;
    row(out, "0 to 8, max_steps 0", "refusal 2 after 49 answers", |c| c.max_steps = 0)?;
    row(out, "0 to 8, max_steps 4", "refusal 2 after 49 answers", |c| c.max_steps = 4)?;
    row(out, "the year", "525600 steps, 1576925 answers, ends at 31536000.0", |c| {
        (c.tf, c.h, c.max_startup, c.max_corrector, c.p) = (31536000.0, 60.0, 12, 2, [-1e-6, 0.0, 0.0, 0.0])
    })?;
    blank_end(out)?;
    row(out, "2^53 to 2^53+8, h 1", "refusal 2 after 2000041 answers", |c| (c.t0, c.tf) = (two53, two53 + 8.0))?;
    samples(out)?;
    clocks(out)?;
    quintic(out)
}

/// W-202 has made a refusal of this example. The module has none there, and is not compared.
fn blank_end(out: &mut impl Write) -> io::Result<()> {
    let mut case = plain("example");
    case.tf = f64::NAN;
    writeln!(out, "not compared: 0 to NaN, h 1\n    expected: refusal 12 after 0 answers\n    module:   {}", told(&run(&case)))
}

fn samples(out: &mut impl Write) -> io::Result<()> {
    let mut c = plain("example");
    (c.t0, c.tf, c.h, c.samples) = (100.0, 20.0, -10.0, true);
    let d = run(&c).result.ok().and_then(|s| s.dense).expect("samples were asked for");
    line(out, "100 to 20, h -10, sample 3", "at 70.0", &format!("at {:?}", d.t[3]))
}

/// Where the clock stands before the tail, and where it sticks.
fn clocks(out: &mut impl Write) -> io::Result<()> {
    let mut c = plain("example");
    (c.tf, c.h, c.samples) = (0.8, 0.1, true);
    let s = run(&c).result.ok().expect("0 to 0.8 finishes");
    let d = s.dense.expect("samples were asked for");
    let got = format!("clock {:?} before the tail, {} steps", d.t[8], s.steps);
    line(out, "0 to 0.8, h 0.1", "clock 0.7999999999999999 before the tail, 9 steps", &got)?;
    let two53 = 9007199254740992.0f64;
    line(out, "2^53 + 4, and a step of 1", "sticks", if two53 + 4.0 + 1.0 == two53 + 4.0 { "sticks" } else { "moves" })
}

fn quintic(out: &mut impl Write) -> io::Result<()> {
    let one = |x: f64| Vector::<f64, 1>::from_array([x]);
    let dense = GJDenseOutput {
        t: vec![0.0, 1.0],
        r: vec![one(0.0), one(1.0)],
        v: vec![one(0.0), one(5.0)],
        a: vec![one(0.0), one(20.0)],
    };
    let [r, v, a] = interpolate(0.5, &dense).expect("0.5 lies between");
    line(out, "quintic at 0.5", "0.03125 and 0.3125", &format!("{:?} and {:?}", r[0], v[0]))?;
    let verdict = if a[0] == 2.5 { "agrees" } else { "DIFFERS" };
    writeln!(out, "{verdict}: its acceleration there, by W-203\n    expected: 2.5\n    second writing: {:?}", a[0])
}
