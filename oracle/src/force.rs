// SPDX-License-Identifier: MIT OR Apache-2.0
//! The four forces of the case format, by component, each operation rounded once.
use numeris::Vector;

pub type V3 = Vector<f64, 3>;

#[derive(Clone, Copy, Debug)]
pub enum Force {
    Lin,
    Cub,
    Lcg,
    Mix,
}

pub const NAMES: [(&str, Force); 4] = [("lin", Force::Lin), ("cub", Force::Cub), ("lcg", Force::Lcg), ("mix", Force::Mix)];

/// A force with its parameters, what it keeps between answers, and the number of the next answer over the whole run.
pub struct Source {
    force: Force,
    p: [f64; 4],
    state: u64,
    next: u64,
}

impl Source {
    pub fn new(force: Force, p: [f64; 4]) -> Source {
        Source { force, p, state: p[0].to_bits(), next: 0 }
    }

    pub fn answer(&mut self, t: f64, r: &V3, v: &V3) -> V3 {
        let n = self.next;
        self.next += 1;
        let p = self.p;
        let lin = |i: usize| (p[0] * r[i] + p[1] * v[i]) + p[2] * t;
        let a = match self.force {
            Force::Lin => std::array::from_fn(lin),
            Force::Cub => std::array::from_fn(|i| (p[0] * r[i]) * (r[i] * r[i]) + p[1]),
            Force::Lcg => std::array::from_fn(|_| f64::from_bits(self.step())),
            Force::Mix => std::array::from_fn(|i| match i {
                0 if n % 7 == 3 => f64::NAN,
                1 if n % 11 == 5 => f64::INFINITY,
                2 if n % 13 == 6 => f64::NEG_INFINITY,
                _ => lin(i),
            }),
        };
        V3::from_array(a)
    }

    fn step(&mut self) -> u64 {
        self.state = self.state.wrapping_mul(6364136223846793005).wrapping_add(1442695040888963407);
        self.state
    }
}
