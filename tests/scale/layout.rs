// SPDX-License-Identifier: MIT OR Apache-2.0
//! The content of a stored form, 504 words: where each thing stands, and which waiting point uses it. docs/STORED.md has it as tables.

pub const CONTENT: usize = 504;
pub type Content = [u32; CONTENT];

/// Where things stand in the content.
pub mod words {
    pub const FORM: usize = 0;
    pub const AT: usize = 1;
    pub const INDEX: usize = 2;
    pub const STAGE: usize = 3;
    pub const NUMBER: usize = 4;
    pub const FLAG: usize = 5;
    pub const FLOATS: usize = 6;
    pub const COUNTS: usize = 252;
    pub const EVALS: usize = 257;
    pub const NOTHING: usize = 258;
}

pub const FLOATS: usize = 123;

/// What a float belongs to: a point's place or acceleration, a slope of the open RK4 step, or one of the single things.
#[derive(Clone, Copy)]
enum Part {
    Place(usize),
    Acceleration(usize),
    Slope(usize),
    State,
    Sums,
    Trial,
    Fixed,
    Widest,
    Clock,
    Plan,
}

fn part_of(k: usize) -> Part {
    match (k / 3, k % 3) {
        (q @ 0..=17, _) => Part::Place(q % 9),
        (q @ 18..=26, _) => Part::Acceleration(q - 18),
        (q @ 27..=29, _) => Part::Slope(q - 27),
        (30 | 31, _) => Part::State,
        (32 | 33, _) => Part::Sums,
        (34 | 35, _) => Part::Trial,
        (36 | 37, _) => Part::Fixed,
        (38, 2) => Part::Clock,
        (38, _) => Part::Widest,
        _ => Part::Plan,
    }
}

/// Where a run waits: the code, the point or pass, the stage.
#[derive(Clone, Copy)]
pub struct Point {
    pub at: u32,
    pub index: u32,
    pub stage: u32,
}

impl Point {
    fn has_index(self) -> bool {
        (2..=6).contains(&self.at)
    }

    fn has_stage(self) -> bool {
        matches!(self.at, 2 | 3 | 7)
    }

    pub fn uses_float(self, k: usize) -> bool {
        let (i, s) = (self.index as usize, self.stage as usize);
        match (self.at, part_of(k)) {
            (_, Part::Plan) => true,
            (1, Part::Place(p)) => p == 4,
            (2, Part::Place(p)) => 4 <= p && p <= i,
            (3, Part::Place(p)) => i <= p,
            (4 | 5, Part::Place(p)) => i.min(4) <= p,
            (2 | 3, Part::Acceleration(p)) => p == 4,
            (4, Part::Acceleration(p)) => p < i || p == 4,
            (5, Part::Acceleration(_)) => true,
            (6, Part::Acceleration(p)) => p >= 1,
            (2 | 3 | 7, Part::Slope(n)) => n < s,
            (5, Part::Widest) | (6 | 7, Part::Clock) => true,
            (6, Part::Sums | Part::Trial | Part::Fixed) | (7, Part::State) | (8, Part::Trial) => true,
            _ => false,
        }
    }

    pub fn uses_word(self, j: usize) -> bool {
        match j {
            words::INDEX => self.has_index(),
            words::STAGE => self.has_stage(),
            0..=5 => true,
            6..=251 => self.uses_float((j - words::FLOATS) / 2),
            252..=257 => true,
            _ => false,
        }
    }
}

pub fn point_in(content: &Content) -> Point {
    Point { at: content[words::AT], index: content[words::INDEX], stage: content[words::STAGE] }
}

/// Which eight bytes of a run hold float k of the 123, by include/gauss_jackson_run.h.
pub fn place_of(k: usize) -> usize {
    match k {
        0..=89 => 13 + k,
        90..=113 => 108 + (k - 90),
        114 | 115 => 103 + (k - 114),
        116 => 106,
        117..=119 => 3 + (k - 117),
        _ => 10 + (k - 120),
    }
}

/// Every NaN is one NaN.
pub fn one_nan(bits: u64) -> u64 {
    if f64::from_bits(bits).is_nan() {
        0x7ff8_0000_0000_0000
    } else {
        bits
    }
}

/// Float k of a content, by its bits.
pub fn float_in(content: &Content, k: usize) -> u64 {
    let at = words::FLOATS + 2 * k;
    u64::from(content[at]) | u64::from(content[at + 1]) << 32
}
