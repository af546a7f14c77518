// SPDX-License-Identifier: MIT OR Apache-2.0
//! The judge that nobody here wrote: the Rust module itself, run on cases and printing what it asked and answered. What the module has not is
//! written a second time: refusal 12, and the acceleration between samples (tools/with_acceleration.rs).
//!
//!   oracle run              cases on standard input, transcripts on standard output
//!   oracle examples         01's "Examples at the edges", each beside what the module does
//!   oracle list             the stored list of cases
//!   oracle cases SEED N     N random cases
//!   oracle tables SEED N    N random tables, with times asked between their samples
//!   oracle orbit            the orbit of examples/, by its bits
//!   oracle forecast         W-207's nine lines on standard input, and what its program prints
//!   oracle forecast many    the same for many, each a line of nine words
//!   oracle forecast random SEED N   N random ones, a line each
mod case;
mod cases;
mod dates;
mod doubles;
mod examples;
mod force;
mod forecast;
mod forecasts;
mod list;
mod orbit;
mod random;
mod sizes;
mod tables;
mod tolerances;
mod transcript;
#[path = "../../tools/with_acceleration.rs"]
mod with_acceleration;

include!(concat!(env!("OUT_DIR"), "/module.rs"));

use std::io::{self, BufWriter, Write};

fn main() -> io::Result<()> {
    let words: Vec<String> = std::env::args().skip(1).collect();
    let words: Vec<&str> = words.iter().map(String::as_str).collect();
    let mut out = BufWriter::new(io::stdout().lock());
    match words[..] {
        ["run"] => transcript::run(io::stdin().lock(), &mut out)?,
        ["examples"] => examples::print(&mut out)?,
        ["list"] => list::print(&mut out)?,
        ["orbit"] => orbit::print(&mut out)?,
        ["forecast"] => forecast::one(io::stdin().lock(), &mut out)?,
        ["forecast", "many"] => forecast::many(io::stdin().lock(), &mut out)?,
        ["forecast", "random", seed, count] => forecasts::random(number(seed), number(count), &mut out)?,
        ["cases", seed, count] => cases::random(number(seed), number(count), &mut out)?,
        ["tables", seed, count] => tables::random(number(seed), number(count), &mut out)?,
        _ => usage(),
    }
    out.flush()
}

fn number(word: &str) -> u64 {
    word.parse().unwrap_or_else(|_| usage())
}

fn usage() -> ! {
    eprintln!("usage: oracle run | examples | list | cases SEED N | tables SEED N | orbit | forecast [many | random SEED N]");
    std::process::exit(2)
}
