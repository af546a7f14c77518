/* SPDX-License-Identifier: MIT OR Apache-2.0 */
/* Triples for the plain loop, by value and inline. */
#ifndef PLAIN_H
#define PLAIN_H

#include "gauss_jackson.h"

#include <math.h>

static inline gj_triple plus(gj_triple a, gj_triple b) { return (gj_triple){a.x + b.x, a.y + b.y, a.z + b.z}; }
static inline gj_triple minus(gj_triple a, gj_triple b) { return (gj_triple){a.x - b.x, a.y - b.y, a.z - b.z}; }
static inline gj_triple times(gj_triple a, double k) { return (gj_triple){a.x * k, a.y * k, a.z * k}; }
static inline gj_triple over(gj_triple a, double k) { return (gj_triple){a.x / k, a.y / k, a.z / k}; }

/* a, unless b is greater. */
static inline double larger(double a, double b) { return b > a ? b : a; }

/* The root of the mean square, by the processor's own root. */
static inline double size(gj_triple a) { return sqrt((a.x * a.x + a.y * a.y + a.z * a.z) / 3.0); }

/* The sum of a[k]·row[k], from zero, k upward. */
static inline gj_triple weighted(const gj_triple *a, const double *row, int n) {
    gj_triple sum = {0.0, 0.0, 0.0};
    for (int k = 0; k < n; k++) sum = plus(sum, times(a[k], row[k]));
    return sum;
}

#endif
