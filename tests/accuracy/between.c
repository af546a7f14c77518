/* SPDX-License-Identifier: MIT OR Apache-2.0 */
#include "between.h"

#include <string.h>

/* Room for ten days in steps of 5 s. */
enum { PARTS = 6, MOST_NUMBERS = GJ_SAMPLE_NUMBERS * (172800 + 1), PAIR = 2 * GJ_SAMPLE_NUMBERS };

/* In the order in which an interpolation writes them. */
typedef struct motion {
    gj_triple r, v, a;
} motion;
_Static_assert(sizeof(motion) == GJ_BETWEEN_NUMBERS * sizeof(double), "a motion is what an interpolation writes a time");

static double samples[MOST_NUMBERS];

static motion told_at(double t, const double *pair, off *o) {
    motion m;
    double out[GJ_BETWEEN_NUMBERS];
    uint32_t refusal = gj_interpolate(t, pair, PAIR, out, GJ_BETWEEN_NUMBERS);
    if (refusal != 0) o->refusal = refusal;
    memcpy(&m, out, sizeof m);
    return m;
}

/* A NaN is worse than any number, and stays. */
static void keep_worst(double *worst, double x) {
    if (!(x <= *worst)) *worst = x;
}

/* The acceleration, beside the force at the place told with it. */
static void look_at_acceleration(const double *pair, off *o) {
    double from = pair[0], to = pair[GJ_SAMPLE_NUMBERS];
    for (int part = 1; part < PARTS; part++) {
        motion m = told_at(from + (to - from) * part / PARTS, pair, o);
        gj_triple true_a = force(m.r), nothing = {0.0, 0.0, 0.0};
        double apart = distance(m.a, true_a);
        keep_worst(&o->acceleration, 1000.0 * apart);
        keep_worst(&o->relative, apart / distance(true_a, nothing));
    }
}

/* The position, beside that of a flight whose step is a PARTS-th. The pair is made of two samples of that same flight, so that what is seen
 * is the curve's own error, and none of the steps'. */
static void look_at_position(const double *fine, off *o) {
    double pair[PAIR];
    memcpy(pair, fine, sizeof pair / 2);
    memcpy(pair + GJ_SAMPLE_NUMBERS, fine + GJ_SAMPLE_NUMBERS * PARTS, sizeof pair / 2);
    for (int part = 1; part < PARTS; part++) {
        const double *true_one = fine + GJ_SAMPLE_NUMBERS * part;
        gj_triple r = {true_one[1], true_one[2], true_one[3]};
        keep_worst(&o->position, 1000.0 * distance(told_at(true_one[0], pair, o).r, r));
    }
}

/* Flies, and looks at each interval; `stride` is how many samples on the next one begins. */
static void look(place start, double span, double h, int stride, void (*at)(const double *, off *), off *o) {
    gj_reply end = fly(start, start.t + span, h, samples, MOST_NUMBERS);
    if (end.kind != GJ_DONE) {
        o->refusal = end.refusal;
        return;
    }
    for (uint64_t n = 0; n + (uint64_t)stride <= end.steps; n += (uint64_t)stride) at(samples + GJ_SAMPLE_NUMBERS * n, o);
}

off off_between(place start, double span, double h) {
    off o = {0, 0.0, 0.0, 0.0};
    look(start, span, h, 1, look_at_acceleration, &o);
    if (o.refusal == 0) look(start, span, h / PARTS, PARTS, look_at_position, &o);
    return o;
}
