/* SPDX-License-Identifier: MIT OR Apache-2.0 */
/* A plain loop with document 01's tests and order of rounding, and no questions: the force stands in the loop. What an engineer
 * would write by hand where a run need not stop, so a measure of what asking and answering costs. */
#include "bench.h"
#include "plain.h"

#include <string.h>

static inline gj_triple force(gj_triple r) { return (gj_triple){-r.x, -r.y, -r.z}; }

/* Sample n; false where it does not fit. */
static bool store(const task *k, uint64_t n, double t, gj_triple r, gj_triple v, gj_triple a) {
    if (!k->settings.samples) return true;
    if (10 * (n + 1) > k->count) return false;
    double ten[10] = {t, r.x, r.y, r.z, v.x, v.y, v.z, a.x, a.y, a.z};
    memcpy(k->out + 10 * n, ten, sizeof ten);
    return true;
}

#include "plain_stepper.h"

double plain_root(double x) { return sqrt(x); }

void plain_run(const task *k, gj_reply *end) { fly(k, end); }
