/* SPDX-License-Identifier: MIT OR Apache-2.0 */
/* Between samples, through the header: what is written a time and where, how much room it takes, and what is left untouched. */
#include "abi.h"

#if GJ_DENSE

#include <math.h>
#include <string.h>

/* Numbers a time; what headers of GJ_ABI 1 had for it, position and velocity alone; and room for three times and some more. */
enum { EACH = GJ_BETWEEN_NUMBERS, OLDER = EACH - 3, ROOM = 4 * EACH };

static const double UNTOUCHED = 12345.0;

/* 01's starred quintic in each component: from rest to 1, with 5 and 20. */
static const double TABLE[] = {0, 0, 0, 0, 0, 0, 0, 0, 0, 0, 1, 1, 1, 1, 5, 5, 5, 20, 20, 20};
enum { ALL = sizeof TABLE / sizeof *TABLE };

static double out[ROOM];

static void paint(void) {
    for (int i = 0; i < ROOM; i++) out[i] = UNTOUCHED;
}

static int is_untouched(int from) {
    while (from < ROOM && out[from] == UNTOUCHED) from++;
    return from == ROOM;
}

/* Whether time number n was told these three, in each component. */
static int are(int n, double r, double v, double a) {
    const double *told = out + EACH * n;
    for (int i = 0; i < 3; i++)
        if (told[i] != r || told[3 + i] != v || told[6 + i] != a) return 0;
    return 1;
}

static int are_nan(int n) {
    int count = 0;
    for (int i = 0; i < EACH; i++) count += isnan(out[EACH * n + i]) != 0;
    return count == EACH;
}

static uint32_t one(double t, size_t n, size_t m) {
    paint();
    return gj_interpolate(t, TABLE, n, out, m);
}

static uint32_t batch(const double *times, size_t k, size_t m) {
    paint();
    return gj_interpolate_batch(times, k, TABLE, ALL, out, m);
}

static void the_quintic(void) {
    check(one(0.5, ALL, EACH) == 0 && are(0, 0.03125, 0.3125, 2.5), "the quintic: 0.03125, 0.3125 and 2.5");
    check(is_untouched(EACH), "nothing past the numbers of a time");
    check(one(0.5, ALL, ROOM) == 0 && are(0, 0.03125, 0.3125, 2.5) && is_untouched(EACH), "nor where there is more room");
    check(one(0.0, ALL, EACH) == 0 && are(0, 0.0, 0.0, 0.0), "the quintic at its beginning");
    check(one(1.0, ALL, EACH) == 0 && are(0, 1.0, 5.0, 20.0), "the quintic at its end");
    check(one(NAN, ALL, EACH) == 0 && are_nan(0) && is_untouched(EACH), "at NaN: nine NaN");
}

static void refusals(void) {
    check(one(0.5, ALL - 1, EACH) == GJ_SHAPE && is_untouched(0), "19 numbers: refusal 9");
    check(one(0.5, ALL, EACH - 1) == GJ_SHAPE && is_untouched(0), "one number short: refusal 9");
    check(one(0.5, ALL, OLDER) == GJ_SHAPE && is_untouched(0), "room for position and velocity alone: refusal 9");
    check(gj_interpolate(0.5, TABLE, ALL, 0, 0) == GJ_SHAPE, "no room at all: refusal 9");
    check(one(0.5, 10, EACH - 1) == GJ_SHAPE && is_untouched(0), "one number short and one sample: 9, before 3");
    check(one(0.5, 10, EACH) == GJ_NO_DENSE_OUTPUT && is_untouched(0), "one sample: refusal 3");
    check(one(1.5, ALL, EACH - 1) == GJ_SHAPE && is_untouched(0), "one number short and past the end: 9, before 4");
    check(one(1.5, ALL, EACH) == GJ_INTERP_OUT_OF_BOUNDS && is_untouched(0), "past the end: refusal 4");
}

static void batches(void) {
    static const double times[] = {0.0, 0.5, 1.0}, one_outside[] = {0.0, 0.5, 1.5}, one_nan[] = {0.5, NAN, 1.0};
    check(batch(times, 3, 3 * EACH) == 0, "a batch of three");
    check(are(0, 0.0, 0.0, 0.0) && are(1, 0.03125, 0.3125, 2.5) && are(2, 1.0, 5.0, 20.0), "each time's numbers in their place");
    check(is_untouched(3 * EACH), "nothing past the numbers of a batch");
    check(batch(times, 3, 3 * EACH + 1) == 0 && is_untouched(3 * EACH), "nor where there is one number more");
    check(batch(times, 3, 3 * EACH - 1) == GJ_SHAPE && is_untouched(0), "a batch one number short: refusal 9, all or none");
    check(batch(times, 3, 3 * OLDER) == GJ_SHAPE && is_untouched(0), "a batch with room for position and velocity alone: refusal 9");
    check(batch(one_outside, 3, 3 * EACH) == GJ_INTERP_OUT_OF_BOUNDS && is_untouched(0), "a batch with a time outside: all or none");
    check(batch(one_nan, 3, 3 * EACH) == 0 && are_nan(1), "a batch with NaN: nine NaN there");
    check(are(0, 0.03125, 0.3125, 2.5) && are(2, 1.0, 5.0, 20.0), "and the others as ever");
    check(gj_interpolate_batch(0, 0, TABLE, ALL, 0, 0) == 0, "a batch of none");
}

/* Read off a later curve, without a refusal: not what the same time gives alone. */
static void out_of_order(void) {
    gj_run run;
    gj_triple r0 = {1, 2, 3}, v0 = {0, 1, 0};
    double samples[90], alone[EACH], both[2 * EACH], times[] = {6.5, 2.5};
    gj_settings s = plain();
    s.samples = 1;
    play(&run, gj_start(&run, s, 0.0, 8.0, r0, v0), samples, 90, 1000);
    check(gj_interpolate(2.5, samples, 90, alone, EACH) == 0, "a time within the samples");
    check(gj_interpolate_batch(times, 2, samples, 90, both, 2 * EACH) == 0, "a batch out of order is not refused");
    check(both[EACH] != alone[0], "a batch out of order gives another number");
    check(gj_interpolate(2.5, samples + 20, 20, both, EACH) == 0 && memcmp(alone, both, sizeof alone) == 0,
          "two samples around the time are enough");
}

void between(void) {
    the_quintic();
    refusals();
    batches();
    out_of_order();
}

#else

void between(void) {}

#endif
