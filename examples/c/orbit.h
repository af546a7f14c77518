/* SPDX-License-Identifier: MIT OR Apache-2.0 */
/* The day of orbit.c and away.c: 400 km up, around the Earth as a point. */
#ifndef ORBIT_H
#define ORBIT_H

#include "flight.h"

static const double DAY = 86400.0, RADIUS = 6778.137;

/* The Earth as a point: each operation rounded once, in this order, so that another program can give the same bits. */
static inline gj_triple force(gj_triple r) {
    double d = distance(r), cube = (d * d) * d;
    gj_triple a = {(-MU * r.x) / cube, (-MU * r.y) / cube, (-MU * r.z) / cube};
    return a;
}

/* A day in one-minute steps, with samples or without. Its times are whole, so what it takes is told with its first question. */
static inline gj_whole_reply start_day(gj_run *run, uint8_t samples) {
    double speed = sqrt(MU / RADIUS);
    gj_triple r0 = {RADIUS, 0.0, 0.0}, v0 = {0.0, speed * COS_INCLINATION, speed * SIN_INCLINATION};
    gj_settings settings = gj_default_settings();
    settings.samples = samples;
    return gj_start_whole(run, settings, 0.0, DAY, r0, v0);
}

#endif
