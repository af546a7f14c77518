// SPDX-License-Identifier: MIT OR Apache-2.0
//! A safe face of a proved orbit stepper, the Gauss-Jackson method of eighth order. **You bring the force:** there is none inside. A run asks
//! for accelerations, one question at a time; [`Run::answer`] answers one, [`Run::drive`] all of them. Where memory is short,
//! [`Run::answer_from`] needs room for five samples only, used again and again.
//!
//! ```
//! use gauss_jackson::{interpolate, Run, Sample, Settings, Triple};
//!
//! /// The Earth as a point, in km and s.
//! fn force(_t: f64, r: Triple, _v: Triple) -> Triple {
//!     let d = (r.x * r.x + r.y * r.y + r.z * r.z).sqrt();
//!     let pull = -398_600.4418 / (d * d * d);
//!     Triple { x: pull * r.x, y: pull * r.y, z: pull * r.z }
//! }
//!
//! fn main() -> Result<(), gauss_jackson::Refusal> {
//!     let (r0, v0) = (Triple::from([6778.137, 0.0, 0.0]), Triple::from([0.0, 4.763, 6.010]));
//!     let settings = Settings { samples: true, ..Settings::default() }; // steps of 60; samples are off unless asked for
//!
//!     let (mut run, _, cost) = Run::start_whole(settings, 0.0, 86_400.0, r0, v0)?; // `?` tells a refusal
//!     println!("this takes {} steps and at most {} answers", cost.steps, cost.most);
//!     let mut samples = vec![0.0; cost.numbers]; // 10 numbers for each step, and 10 more
//!     let end = run.drive(force, &mut samples)?; // here the run has finished
//!
//!     println!("after {} steps: {:?} km", end.steps, end.r);
//!     println!("an hour after the start: {:?} km", Sample::view(&samples)[60].r);
//!     println!("half a minute later: {:?} km", interpolate(3630.0, &samples)?.r);
//!     Ok(())
//! }
//! ```
//!
//! # Units
//!
//! Any that agree: times, the step, positions and velocities are in the units of your force. The default step of 60 is a minute where the
//! unit of time is the second. The examples use km and s.
//!
//! # The cost beforehand
//!
//! Where start, end and step are whole numbers, what a run takes is known before it is begun: [`forecast`] tells it alone, for a button that
//! is not pressed yet, and [`Run::start_whole`] tells it and starts. A [`Cost`] has the steps, the room for the samples, and how many answers
//! it takes at least and at most. What that start accepts always finishes, given the room. [`Run::start`] takes any numbers, and tells no cost.
//!
//! # What the force is asked
//!
//! The startup works out points on both sides of the start, so **the force is asked at times outside the span**: from t0 - 4h on (in a run
//! backward: from t0 + 4h on, h taken without its sign), and not in the order of time. Tables of an ephemeris or of the air's density that
//! begin at t0 do not reach. After the startup the times go on step by step, each asked once or more; where they are not whole numbers,
//! the last may pass tf by rounding.
//!
//! # Putting a run away
//!
//! Between any two questions [`Run::store`] puts a run into [`STORED_SIZE`] bytes, for a file. [`Run::load`] takes it up after a restart, or
//! on another tablet, and goes on as if nothing had been, to the same bits.
//!
//! # What the caller owes
//!
//! Buffers are slices, so no pointer is null and no count is wrong; every value is taken, and what the library cannot use it refuses by a
//! [`Refusal`] with a text. What is left to the caller is the processor's floating-point environment, as Rust itself expects it: rounding
//! to nearest, subnormal numbers on, exceptions masked. (C code that was built for fast floats may have changed it for its thread.)
//!
//! Values that are allowed can still be of no use: a step too large for the orbit, times of a batch out of order ([`interpolate_batch`]).
//!
//! What the library does is proved; this crate, its declarations above all, is not: tests compare them.
//!
//! # Where it runs
//!
//! On x86-64 Linux alone. The crate links the library whose file the variable `GJ_LIBRARY` names, by a full path or from the project's root;
//! without it, the one that the project has built. A library of another ABI number fails to link: the linker then misses `gj_abi_` with
//! this crate's number.

#[cfg(not(any(test, doc, all(target_arch = "x86_64", target_os = "linux"))))]
compile_error!("the proved library is for x86-64 Linux alone: build with --target x86_64-unknown-linux-gnu (`cargo test --lib` runs anywhere)");

mod abi;
mod between;
mod drive;
#[cfg(feature = "dense")]
mod order;
mod raw;
mod refusal;
mod run;
mod sample;
mod settings;
mod stored;
mod whole;

pub use between::State;
#[cfg(feature = "dense")]
pub use between::{interpolate, interpolate_batch};
pub use drive::Finished;
#[cfg(feature = "dense")]
pub use order::{first_out_of_order, interpolate_in_any_order};
pub use raw::{Triple, BETWEEN_NUMBERS};
pub use refusal::Refusal;
pub use run::{Answered, Reply, Run};
pub use sample::{numbers_for, Sample, SAMPLE_NUMBERS};
pub use settings::Settings;
pub use stored::STORED_SIZE;
pub use whole::{forecast, Cost};
