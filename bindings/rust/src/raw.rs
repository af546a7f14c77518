// SPDX-License-Identifier: MIT OR Apache-2.0
//! What the library exports, as include/gauss_jackson.h has it. It uses nothing else of the crate: tests/scale reads it too.

/// A position, a velocity or an acceleration.
#[repr(C)]
#[derive(Debug, Clone, Copy, PartialEq, Default)]
pub struct Triple {
    pub x: f64,
    pub y: f64,
    pub z: f64,
}

impl From<[f64; 3]> for Triple {
    fn from([x, y, z]: [f64; 3]) -> Triple {
        Triple { x, y, z }
    }
}

impl From<Triple> for [f64; 3] {
    fn from(t: Triple) -> [f64; 3] {
        [t.x, t.y, t.z]
    }
}

/// What the caller chooses, in plain numbers: the library takes any byte for `samples`, and refuses one above 1.
#[repr(C)]
#[derive(Debug, Clone, Copy, PartialEq)]
pub struct Settings {
    pub h: f64,
    pub corrector_tol: f64,
    pub startup_tol: f64,
    pub max_corrector_iters: u64,
    pub max_startup_iters: u64,
    pub max_steps: u64,
    pub samples: u8,
}

/// What a call tells, in plain numbers.
#[repr(C)]
#[derive(Clone, Copy)]
pub struct Reply {
    pub t: f64,
    pub r: Triple,
    pub v: Triple,
    pub evals: u64,
    pub steps: u64,
    pub startup_iters: u64,
    pub stored: u64,
    pub kind: u32,
    pub refusal: u16,
    pub number: u16,
}

/// What a run of whole numbers takes.
#[repr(C)]
#[derive(Debug, Clone, Copy, PartialEq, Eq)]
pub struct Cost {
    pub steps: u64,
    pub samples: u64,
    pub numbers: u64,
    pub least: u64,
    pub most: u64,
}

/// A forecast: 0 and the cost, or a refusal's number and a cost of zeros.
#[repr(C)]
#[derive(Clone, Copy)]
pub struct CostReply {
    pub cost: Cost,
    pub refusal: u32,
}

/// What a whole-second start tells: a reply, and the cost.
#[repr(C)]
#[derive(Clone, Copy)]
pub struct WholeReply {
    pub reply: Reply,
    pub cost: Cost,
}

/// The run, by its size alone: nothing here looks inside.
#[repr(C)]
#[derive(Clone)]
pub struct Run(pub [u64; 132]);

/// Numbers that an interpolation writes a time: x, y and z of position, velocity and acceleration.
pub const BETWEEN_NUMBERS: usize = 9;

extern "C" {
    pub fn gj_default_settings() -> Settings;
    pub fn gj_start(run: *mut Run, settings: Settings, t0: f64, tf: f64, r0: Triple, v0: Triple) -> Reply;
    pub fn gj_forecast(settings: Settings, t0: f64, tf: f64) -> CostReply;
    pub fn gj_start_whole(run: *mut Run, settings: Settings, t0: f64, tf: f64, r0: Triple, v0: Triple) -> WholeReply;
    pub fn gj_answer(run: *mut Run, number: u16, a: Triple, from: u64, out: *mut f64, count: usize) -> Reply;
    pub fn gj_open_question(run: *const Run) -> Reply;
    pub fn gj_store(run: *const Run, out: *mut u8, out_bytes: usize) -> u32;
    pub fn gj_load(run: *mut Run, bytes: *const u8, bytes_count: usize) -> Reply;
}

#[cfg(feature = "dense")]
extern "C" {
    pub fn gj_interpolate(t: f64, samples: *const f64, n: usize, out: *mut f64, m: usize) -> u32;
    pub fn gj_interpolate_batch(times: *const f64, k: usize, samples: *const f64, n: usize, out: *mut f64, m: usize) -> u32;
}

#[cfg(test)]
mod tests {
    use super::*;
    use std::mem::{align_of, size_of, MaybeUninit};
    use std::ptr::addr_of;

    /// Where a field stands, from the start of its record.
    macro_rules! offset {
        ($record:ty, $field:ident) => {{
            let whole = MaybeUninit::<$record>::uninit();
            let start = whole.as_ptr();
            // Only an address is worked out; nothing is read.
            let field = unsafe { addr_of!((*start).$field) };
            field as usize - start as usize
        }};
    }

    #[test]
    fn sizes_are_the_headers() {
        assert_eq!((size_of::<Triple>(), align_of::<Triple>()), (24, 8));
        assert_eq!((size_of::<Settings>(), align_of::<Settings>()), (56, 8));
        assert_eq!((size_of::<Reply>(), align_of::<Reply>()), (96, 8));
        assert_eq!((size_of::<Cost>(), align_of::<Cost>()), (40, 8));
        assert_eq!((size_of::<CostReply>(), align_of::<CostReply>()), (48, 8));
        assert_eq!((size_of::<WholeReply>(), align_of::<WholeReply>()), (136, 8));
        assert_eq!((size_of::<Run>(), align_of::<Run>()), (1056, 8));
    }

    #[test]
    fn settings_stand_as_in_the_header() {
        let floats = [offset!(Settings, h), offset!(Settings, corrector_tol), offset!(Settings, startup_tol)];
        assert_eq!(floats, [0, 8, 16]);
        let limits = [
            offset!(Settings, max_corrector_iters),
            offset!(Settings, max_startup_iters),
            offset!(Settings, max_steps),
        ];
        assert_eq!(limits, [24, 32, 40]);
        assert_eq!(offset!(Settings, samples), 48);
    }

    #[test]
    fn replies_stand_as_in_the_header() {
        assert_eq!([offset!(Reply, t), offset!(Reply, r), offset!(Reply, v)], [0, 8, 32]);
        assert_eq!([offset!(Reply, evals), offset!(Reply, steps), offset!(Reply, startup_iters)], [56, 64, 72]);
        assert_eq!(offset!(Reply, stored), 80);
        assert_eq!([offset!(Reply, kind), offset!(Reply, refusal), offset!(Reply, number)], [88, 92, 94]);
        assert_eq!([offset!(Triple, x), offset!(Triple, y), offset!(Triple, z)], [0, 8, 16]);
    }

    #[test]
    fn costs_stand_as_in_the_header() {
        assert_eq!([offset!(Cost, steps), offset!(Cost, samples), offset!(Cost, numbers)], [0, 8, 16]);
        assert_eq!([offset!(Cost, least), offset!(Cost, most)], [24, 32]);
        assert_eq!([offset!(CostReply, cost), offset!(CostReply, refusal)], [0, 40]);
        assert_eq!([offset!(WholeReply, reply), offset!(WholeReply, cost)], [0, 96]);
    }
}
