// SPDX-License-Identifier: MIT OR Apache-2.0
//! W-207's program over the module: nine lines in, a line per sample out, a refusal's number last. The module knows no refusal 15, and its force
//! cannot end a run. So from the first question that is too low on it is answered zeros, and of its samples those are printed that stood
//! before that question. What is stored by then does not lean on later answers.
use crate::case::read_float;
use crate::force::V3;
use crate::gauss_jackson::{GJSettings, GaussJackson8};
use crate::transcript::{number, Samples};
use numeris::ode::OdeError;
use std::io::{self, BufRead, Read, Write};

const MU: f64 = 398600.4418;
const TOO_LOW: u8 = 15;
const MISSHAPEN: u8 = 19;
const BLANK_DATE: u8 = 12;
/// Most runs end, or fall too low, within the first; only the others are flown to the second, which is the default of max_steps.
const LIMITS: [usize; 2] = [1_000, 1_000_000];

#[derive(Clone, Debug)]
pub struct Forecast {
    pub t0: f64,
    pub tf: f64,
    pub h: f64,
    pub r: [f64; 3],
    pub v: [f64; 3],
}

/// The point mass: how many questions it was asked, and how many before the first that is too low.
#[derive(Default)]
struct Pull {
    asked: u64,
    low_after: Option<u64>,
}

impl Pull {
    fn answer(&mut self, r: &V3) -> V3 {
        let d = ((r[0] * r[0] + r[1] * r[1]) + r[2] * r[2]).sqrt();
        if d < 1.0 || d.is_nan() {
            self.low_after.get_or_insert(self.asked);
        }
        self.asked += 1;
        if self.low_after.is_some() {
            return V3::zeros();
        }
        let cube = (d * d) * d;
        V3::from_array(std::array::from_fn(|i| (-MU * r[i]) / cube))
    }
}

struct Flight {
    pull: Pull,
    end: Result<(Samples, usize), OdeError>,
}

/// The samples to print, and the refusal's number after them.
type Printed = (Samples, Option<u8>);

impl Forecast {
    pub fn from_words(words: &[&str]) -> Option<Forecast> {
        let x: Vec<f64> = words.iter().map(|w| read_float(w)).collect::<Option<_>>()?;
        let [t0, tf, h, rx, ry, rz, vx, vy, vz]: [f64; 9] = x.try_into().ok()?;
        Some(Forecast { t0, tf, h, r: [rx, ry, rz], v: [vx, vy, vz] })
    }

    /// Nine lines of sixteen digits; the last may lack its newline.
    fn from_bytes(bytes: &[u8]) -> Option<Forecast> {
        let text = std::str::from_utf8(bytes).ok()?;
        let lines: Vec<&str> = text.strip_suffix('\n').unwrap_or(text).split('\n').collect();
        Forecast::from_words(&lines)
    }

    pub fn words(&self) -> String {
        let all = [[self.t0, self.tf, self.h], self.r, self.v];
        all.iter().flatten().map(|x| format!("{:016x}", x.to_bits())).collect::<Vec<_>>().join(" ")
    }

    fn fly(&self, t0: f64, tf: f64, max_steps: usize) -> Flight {
        let mut pull = Pull::default();
        let settings = GJSettings { h: self.h, max_steps, dense_output: true, ..GJSettings::default() };
        let (r, v) = (V3::from_array(self.r), V3::from_array(self.v));
        let end = GaussJackson8::integrate(t0, tf, &r, &v, |_, r: &V3, _: &V3| pull.answer(r), &settings);
        Flight { pull, end: end.map(|s| (s.dense.expect("samples were asked for"), s.steps)) }
    }

    fn flown(&self, max_steps: usize) -> Flight {
        self.fly(self.t0, self.tf, max_steps)
    }

    /// The answers after which sample n stands, for n from 4 on: a run that may make n steps and no more is at its end then, whether it is
    /// refused or finished. Samples 0 to 4 stand together.
    fn answers_for(&self, n: usize) -> u64 {
        self.flown(n).pull.asked
    }

    /// How many samples stand after so many answers of a run that gets more, in at most `steps` steps.
    fn stored_after(&self, answers: u64, steps: usize) -> usize {
        if self.answers_for(4) > answers {
            return 0;
        }
        let (mut stands, mut not_yet) = (4, steps);
        while not_yet - stands > 1 {
            let middle = stands + (not_yet - stands) / 2;
            if self.answers_for(middle) <= answers {
                stands = middle;
            } else {
                not_yet = middle;
            }
        }
        stands + 1
    }

    /// The first samples of a run that the module refuses for its length, dropping what it stored. The force does not ask for the time, so a run
    /// around zero, whose clock moves whatever the dates are, has the same states; the times are worked out by 01's rule.
    fn dropped(&self, count: usize) -> Samples {
        let h = self.h.abs() * if self.tf >= self.t0 { 1.0 } else { -1.0 };
        let half = (count / 2) as f64;
        let (mut d, _) = self.fly(-half * h, (half + 9.0) * h, count + 20).end.expect("a run around zero ends");
        assert!(d.t.len() > count, "a run around zero is long enough");
        keep(&mut d, count);
        for n in 0..count {
            d.t[n] = if n < 5 { self.t0 + n as f64 * h } else { d.t[n - 1] + h };
        }
        d
    }

    /// Whether the run ends, or falls too low, within so many steps that it can be one of many.
    pub fn is_short(&self) -> bool {
        let flight = self.flown(LIMITS[0]);
        flight.pull.low_after.is_some() || !matches!(flight.end, Err(OdeError::MaxStepsExceeded))
    }

    /// Whether the last of all questions is the first that is too low.
    pub fn ends_low(&self) -> bool {
        let pull = self.flown(LIMITS[0]).pull;
        pull.low_after.map(|answers| answers + 1) == Some(pull.asked)
    }

    fn printed(&self) -> Printed {
        let nothing = |refusal| (Samples { t: vec![], r: vec![], v: vec![], a: vec![] }, Some(refusal));
        if ![self.t0, self.tf, self.h].iter().all(|x| x.is_finite()) {
            return nothing(BLANK_DATE);
        }
        let limit = if self.is_short() { LIMITS[0] } else { LIMITS[1] };
        let Flight { pull, end } = self.flown(limit);
        let steps = end.as_ref().map_or(limit, |(_, steps)| *steps);
        let low = pull.low_after.map(|answers| self.stored_after(answers, steps));
        match (low, end) {
            (_, Err(OdeError::StepNotFinite)) => nothing(1),
            (None, Ok((d, _))) => (d, None),
            (None, Err(e)) => (self.dropped(limit + 1), Some(number(e))),
            (Some(0), _) => nothing(TOO_LOW),
            (Some(count), Ok((mut d, _))) => {
                keep(&mut d, count);
                (d, Some(TOO_LOW))
            }
            (Some(count), Err(_)) => (self.dropped(count), Some(TOO_LOW)),
        }
    }

    fn print(&self, out: &mut impl Write) -> io::Result<()> {
        let (d, refusal) = self.printed();
        for n in 0..d.t.len() {
            write!(out, "{n} {}", digits(d.t[n]))?;
            for x in [&d.r[n], &d.v[n], &d.a[n]] {
                write!(out, " {} {} {}", digits(x[0]), digits(x[1]), digits(x[2]))?;
            }
            writeln!(out)?;
        }
        refusal.map_or(Ok(()), |n| writeln!(out, "{n}"))
    }
}

fn keep(d: &mut Samples, count: usize) {
    d.t.truncate(count);
    d.r.truncate(count);
    d.v.truncate(count);
    d.a.truncate(count);
}

/// Every NaN by one pattern: processors leave others.
fn digits(x: f64) -> String {
    format!("{:016x}", if x.is_nan() { 0x7ff8_0000_0000_0000 } else { x.to_bits() })
}

/// What the program prints to this input.
pub fn one(mut input: impl Read, out: &mut impl Write) -> io::Result<()> {
    let mut bytes = vec![];
    input.read_to_end(&mut bytes)?;
    match Forecast::from_bytes(&bytes) {
        Some(forecast) => forecast.print(out),
        None => writeln!(out, "{MISSHAPEN}"),
    }
}

/// Many in one process, a line of nine words each: `forecast` with the line's number, then what the program prints.
pub fn many(input: impl BufRead, out: &mut impl Write) -> io::Result<()> {
    for (at, line) in input.lines().enumerate() {
        writeln!(out, "forecast {}", at + 1)?;
        let line = line?;
        match Forecast::from_words(&line.split(' ').collect::<Vec<_>>()) {
            Some(forecast) => forecast.print(out)?,
            None => writeln!(out, "{MISSHAPEN}")?,
        }
    }
    Ok(())
}
