// SPDX-License-Identifier: MIT OR Apache-2.0
//! A ground station and what it plans its radio by: how far off the satellite is, how fast that grows, and how fast this changes. The same as
//! examples/c/station.h.
use crate::{distance, EARTH};
use gauss_jackson::{State, Triple};

/// Of the Earth, in radians a second; Greenwich lies on the x axis at the start.
const TURN: f64 = 7.2921158553e-5;
/// Cosine and sine of 45 degrees north; the station lies on Greenwich's meridian.
const LATITUDE: (f64, f64) = (0.7071067811865476, 0.7071067811865476);

/// In km, km/s and km/s².
pub(crate) struct Ranging {
    pub range: f64,
    pub rate: f64,
    pub change: f64,
}

fn product(a: Triple, b: Triple) -> f64 {
    (a.x * b.x + a.y * b.y) + a.z * b.z
}

fn from_to(a: Triple, b: Triple) -> Triple {
    Triple { x: b.x - a.x, y: b.y - a.y, z: b.z - a.z }
}

/// The station goes round with the Earth, so that its acceleration points to the axis.
fn station_at(t: f64) -> State {
    let off_axis = EARTH * LATITUDE.0;
    let (x, y) = (off_axis * (TURN * t).cos(), off_axis * (TURN * t).sin());
    let turn2 = TURN * TURN;
    State {
        r: Triple { x, y, z: EARTH * LATITUDE.1 },
        v: Triple { x: -TURN * y, y: TURN * x, z: 0.0 },
        a: Triple { x: -turn2 * x, y: -turn2 * y, z: 0.0 },
    }
}

/// With d the way to the satellite: |d|; its derivative d·d'/|d|; and the derivative of that, (d'·d' + d·d'' - rate²)/|d|.
pub(crate) fn range_to(satellite: &State, t: f64) -> Ranging {
    let station = station_at(t);
    let d = from_to(station.r, satellite.r);
    let (d1, d2) = (from_to(station.v, satellite.v), from_to(station.a, satellite.a));
    let range = distance(d);
    let rate = product(d, d1) / range;
    Ranging { range, rate, change: ((product(d1, d1) + product(d, d2)) - rate * rate) / range }
}
