/* SPDX-License-Identifier: MIT OR Apache-2.0 */
/* How far off the quintic between two samples is, read off at every sixth of the way from each sample to the next. */
#ifndef BETWEEN_H
#define BETWEEN_H

#include "flight.h"

typedef struct off {
    uint32_t refusal;     /* 0 where all finished; then the rest holds, each at its worst */
    double position;      /* m: from a true one, by the curve alone */
    double acceleration;  /* m/s^2: from the force at the position that is told with it */
    double relative;      /* the same, by the size of that force */
} off;

/* Over `span` in steps of `h`. */
off off_between(place start, double span, double h);

#endif
