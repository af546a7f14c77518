/* SPDX-License-Identifier: MIT OR Apache-2.0 */
/* What is flown: around an Earth with its flattening (J2), in km and s, default settings but for the step; and what is measured of a flight
 * out and back. */
#ifndef FLIGHT_H
#define FLIGHT_H

#include "gauss_jackson.h"

typedef struct place {
    double t;
    gj_triple r, v;
} place;

typedef struct measured {
    uint32_t refusal;  /* 0 where both ways finished; then the rest holds */
    double returned;   /* m: how far from its start the flight comes back */
    double energy;     /* relative change from start to far end */
    uint64_t answers;  /* on the way out */
    gj_triple far_end;
} measured;

double distance(gj_triple a, gj_triple b);

gj_triple force(gj_triple r);

/* To `until` by steps of `h`, with samples where there is a room for so many numbers. */
gj_reply fly(place from, double until, double h, double *samples, size_t room);

/* Out over `span` by steps of `h`, then back from where that ended. */
measured out_and_back(place start, double span, double h);

#endif
