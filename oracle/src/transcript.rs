// SPDX-License-Identifier: MIT OR Apache-2.0
//! Cases in, transcripts out: the format that `crates/replay` speaks too. A line is words between blanks; a float is the sixteen hex digits of
//! its bits, a count is one to ten decimal digits; a line that begins with `#` is passed over.
//!
//!   case NAME t0 tf h C tol S tol MAX_STEPS SAMPLES r0 v0 FORCE p     C and S are the passes of corrector and startup, each with its
//!                                                                     tolerance; SAMPLES is 0 or 1; r0 and v0 are three floats, p four
//!   case ... away N          the same; the run is put away and taken up before the N-th answer, the 2N-th and so on, N being 1 or more
//!   final ...                as `case`, answered by its end alone
//!   table NAME SAMPLES..     ten floats a sample
//!   at t                     a time between the samples of the last case or table
//!   batch t..                several
//!
//! What comes back: `case NAME`, `ask` with number, t, r, v for each question, `sample` with number and ten floats, `done` with t, r, v, evals,
//! steps, startup_iters, or `refused` with 01's or 02's number; `interp` with r, v and a; `bad line N` for any other line. Every NaN is written `nan`.
//! The module cannot put a run away, and has no need to: with and without `away` the transcript is the same, by W-201. It takes a start, end or
//! step that is a NaN or an infinity; its answers there leave the comparison, and such a case comes back as `refused 12`, by W-202. It knows no
//! limits of settings (refusal 5), so no case here goes beyond them. It tells no acceleration between samples: that is a second writing's.
use crate::case::{read_float, Case};
use crate::force::{Source, V3};
use crate::gauss_jackson::{GJDenseOutput, GaussJackson8};
use crate::with_acceleration::{interpolate, interpolate_batch, Told};
use numeris::ode::OdeError;
use std::io::{self, BufRead, Write};

pub type Samples = GJDenseOutput<f64, 3>;

/// Sixteen hex digits of the bits; every NaN is `nan`.
pub fn hex(x: f64) -> String {
    if x.is_nan() {
        "nan".to_string()
    } else {
        format!("{:016x}", x.to_bits())
    }
}

/// 01's number of a refusal.
pub fn number(e: OdeError) -> u8 {
    match e {
        OdeError::StepNotFinite => 1,
        OdeError::MaxStepsExceeded => 2,
        OdeError::NoDenseOutput => 3,
        OdeError::InterpOutOfBounds => 4,
    }
}

fn floats(xs: &[f64]) -> String {
    xs.iter().map(|x| format!(" {}", hex(*x))).collect()
}

fn three(v: &V3) -> [f64; 3] {
    [v[0], v[1], v[2]]
}

impl Case {
    /// Runs the module, prints the transcript, whole or its end alone, and hands back the samples of a finished run.
    fn play(&self, whole: bool, out: &mut impl Write) -> io::Result<Option<Samples>> {
        writeln!(out, "{} {}", if whole { "case" } else { "final" }, self.name)?;
        if self.has_blank_date() {
            writeln!(out, "refused 12")?;
            return Ok(None);
        }
        let mut source = Source::new(self.force, self.p);
        let mut asked = 0u16;
        let mut failed = Ok(());
        let r0 = V3::from_array(self.r0);
        let v0 = V3::from_array(self.v0);
        let force = |t: f64, r: &V3, v: &V3| {
            if whole && failed.is_ok() {
                failed = writeln!(out, "ask {} {}{}{}", asked, hex(t), floats(&three(r)), floats(&three(v)));
            }
            asked = asked.wrapping_add(1);
            source.answer(t, r, v)
        };
        let solution = GaussJackson8::integrate(self.t0, self.tf, &r0, &v0, force, &self.settings());
        failed?;
        match solution {
            Err(e) => {
                writeln!(out, "refused {}", number(e))?;
                Ok(None)
            }
            Ok(s) => {
                if let Some(d) = s.dense.as_ref().filter(|_| whole) {
                    for n in 0..d.t.len() {
                        let (r, v, a) = (three(&d.r[n]), three(&d.v[n]), three(&d.a[n]));
                        writeln!(out, "sample {n} {}{}{}{}", hex(d.t[n]), floats(&r), floats(&v), floats(&a))?;
                    }
                }
                let (r, v) = (three(&s.r), three(&s.v));
                writeln!(out, "done {}{}{} {} {} {}", hex(s.t), floats(&r), floats(&v), s.evals, s.steps, s.startup_iters)?;
                Ok(s.dense)
            }
        }
    }
}

fn empty() -> Samples {
    GJDenseOutput { t: vec![], r: vec![], v: vec![], a: vec![] }
}

/// The words after `table`: a name, then ten floats a sample.
fn read_table(words: &[&str]) -> Option<(String, Samples)> {
    let (name, rest) = words.split_first()?;
    let xs: Vec<f64> = rest.iter().map(|w| read_float(w)).collect::<Option<_>>()?;
    let mut d = empty();
    if xs.len() % 10 != 0 {
        return None;
    }
    for s in xs.chunks(10) {
        d.t.push(s[0]);
        d.r.push(V3::from_array([s[1], s[2], s[3]]));
        d.v.push(V3::from_array([s[4], s[5], s[6]]));
        d.a.push(V3::from_array([s[7], s[8], s[9]]));
    }
    Some((name.to_string(), d))
}

fn between(out: &mut impl Write, got: Result<Vec<Told<3>>, OdeError>) -> io::Result<()> {
    match got {
        Err(e) => writeln!(out, "refused {}", number(e)),
        Ok(all) => {
            for [r, v, a] in all {
                writeln!(out, "interp{}{}{}", floats(&three(&r)), floats(&three(&v)), floats(&three(&a)))?;
            }
            Ok(())
        }
    }
}

/// One line; false where it has no such shape.
fn take(words: &[&str], samples: &mut Samples, out: &mut impl Write) -> io::Result<bool> {
    let (kind, rest) = match words.split_first() {
        Some(parts) => parts,
        None => return Ok(true),
    };
    let times: Option<Vec<f64>> = rest.iter().map(|w| read_float(w)).collect();
    match (*kind, times) {
        ("case" | "final", _) => match Case::read(rest) {
            Some(case) => *samples = case.play(*kind == "case", out)?.unwrap_or_else(empty),
            None => return Ok(false),
        },
        ("table", _) => match read_table(rest) {
            Some((name, table)) => {
                *samples = table;
                writeln!(out, "table {name}")?;
            }
            None => return Ok(false),
        },
        ("at", Some(t)) if t.len() == 1 => between(out, interpolate(t[0], samples).map(|x| vec![x]))?,
        ("batch", Some(ts)) => between(out, interpolate_batch(&ts, samples))?,
        _ => return Ok(false),
    }
    Ok(true)
}

/// The longest line that is read; a longer one is misshapen.
const LONGEST: usize = 32 * 1024;

/// A line's words, or nothing where it is too long or not printable ASCII.
fn words_of(line: &[u8]) -> Option<Vec<&str>> {
    let printable = line.len() <= LONGEST && line.iter().all(|b| (b' '..=b'~').contains(b));
    let text = std::str::from_utf8(line).ok().filter(|_| printable)?;
    Some(text.split(' ').filter(|w| !w.is_empty()).collect())
}

pub fn run(input: impl BufRead, out: &mut impl Write) -> io::Result<()> {
    let mut samples = empty();
    for (at, line) in input.split(b'\n').enumerate() {
        let line = line?;
        if line.first() == Some(&b'#') {
            continue;
        }
        let shaped = match words_of(&line) {
            Some(words) => take(&words, &mut samples, out)?,
            None => false,
        };
        if !shaped {
            writeln!(out, "bad line {}", at + 1)?;
        }
    }
    Ok(())
}
