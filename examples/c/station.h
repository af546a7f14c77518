/* SPDX-License-Identifier: MIT OR Apache-2.0 */
/* A ground station and what it plans its radio by: how far off the satellite is, how fast that grows, and how fast this changes. What is sent
 * on f MHz arrives shifted by -f·rate/c, and the shift moves as the rate does. Units are km and seconds. */
#ifndef STATION_H
#define STATION_H

#include "flight.h"

static const double COS_LATITUDE = 0.7071067811865476, SIN_LATITUDE = 0.7071067811865476; /* 45 degrees north, by Greenwich */

/* In the order in which an interpolation writes them. */
typedef struct motion {
    gj_triple r, v, a;
} motion;
_Static_assert(sizeof(motion) == GJ_BETWEEN_NUMBERS * sizeof(double), "a motion is what an interpolation writes a time");

typedef struct ranging {
    double range, rate, change; /* km, km/s, km/s^2 */
} ranging;

static inline double product(gj_triple a, gj_triple b) { return (a.x * b.x + a.y * b.y) + a.z * b.z; }

static inline gj_triple from_to(gj_triple a, gj_triple b) {
    gj_triple d = {b.x - a.x, b.y - a.y, b.z - a.z};
    return d;
}

/* The station goes round with the Earth, so that its acceleration points to the axis. */
static inline motion station_at(double t) {
    double off_axis = EARTH * COS_LATITUDE, x = off_axis * cos(TURN * t), y = off_axis * sin(TURN * t), turn2 = TURN * TURN;
    motion m = {{x, y, EARTH * SIN_LATITUDE}, {-TURN * y, TURN * x, 0.0}, {-turn2 * x, -turn2 * y, 0.0}};
    return m;
}

/* With d the way to the satellite: |d|; its derivative d·d'/|d|; and the derivative of that, (d'·d' + d·d'' - rate²)/|d|. */
static inline ranging range_to(motion satellite, double t) {
    motion station = station_at(t);
    gj_triple d = from_to(station.r, satellite.r), d1 = from_to(station.v, satellite.v), d2 = from_to(station.a, satellite.a);
    double range = distance(d), rate = product(d, d1) / range;
    ranging told = {range, rate, ((product(d1, d1) + product(d, d2)) - rate * rate) / range};
    return told;
}

#endif
