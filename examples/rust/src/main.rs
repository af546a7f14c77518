// SPDX-License-Identifier: MIT OR Apache-2.0
//! orbit [--csv | --bits]: on x86-64, by `cargo run`. Elsewhere start.c takes its place.

fn main() {
    std::process::exit(orbit::orbit_main())
}
