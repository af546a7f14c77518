// SPDX-License-Identifier: MIT OR Apache-2.0
//! away [put ANSWERS FILE | take FILE]: on x86-64, by `cargo run --bin away`. Elsewhere start.c takes its place.

fn main() {
    std::process::exit(orbit::away_main())
}
