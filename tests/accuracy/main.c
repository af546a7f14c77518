/* SPDX-License-Identifier: MIT OR Apache-2.0 */
/* How good the library is at several steps.
 *
 *   accuracy full     prints two tables in Markdown: ten days of three orbits, and a year of the low one; between samples of the low one
 *   accuracy short    flies a day of each and holds it to bounds; says how many held
 */
#include "between.h"
#include "orbits.h"

#include <stdio.h>
#include <string.h>

static const double DAY = 86400.0;

/* A length of so many m, in a unit that suits it. */
static void print_length(double m) {
    const char *unit = m < 0.1 ? "mm" : m < 1000.0 ? "m" : "km";
    double length = m < 0.1 ? 1000.0 * m : m < 1000.0 ? m : m / 1000.0;
    if (m < 1e-5)
        printf(" below 0.01 mm |");
    else
        printf(" %.*f %s |", length < 1.0 ? 2 : length < 10.0 ? 1 : 0, length, unit);
}

static void print_row(const orbit *o, double days, double h, gj_triple fine) {
    measured m = out_and_back(o->start, days * DAY, h);
    printf("| %s | %.0f d | %.0f s | %.0f |", o->name, days, h, o->period / h);
    if (m.refusal != 0) {
        printf(" refusal %u | | | |\n", (unsigned)m.refusal);
        return;
    }
    print_length(m.returned);
    print_length(1000.0 * distance(m.far_end, fine));
    printf(" %.1e | %llu |\n", m.energy, (unsigned long long)m.answers);
}

static void print_orbit(const orbit *o) {
    gj_triple fine = out_and_back(o->start, 10.0 * DAY, o->fine).far_end;
    for (int i = 0; i < MOST_STEPS && o->steps[i] > 0.0; i++) print_row(o, 10.0, o->steps[i], fine);
}

/* A year in steps of 40 s is close to the most steps that a run takes. */
static void print_year(void) { print_row(&LOW, 365.0, 60.0, out_and_back(LOW.start, 365.0 * DAY, 40.0).far_end); }

static void print_table(void) {
    puts("<!-- made by: tests/accuracy/run full -->");
    puts("| orbit | span | step | steps a turn | comes back within | far end beside a fine step | energy changes by | answers |");
    puts("|---|---:|---:|---:|---:|---:|---:|---:|");
    print_orbit(&LOW);
    print_year();
    print_orbit(&STATIONARY);
    print_orbit(&LONG);
    puts("\nA point mass with J2, from the lowest point of each orbit, default settings. Below a millimetre the figures are noise of rounding.");
    printf("Fine steps: %.0f s for the low orbit (40 s over the year), %.0f s for the geostationary one, %.0f s for e 0.74.\n",
           LOW.fine, STATIONARY.fine, LONG.fine);
}

static off print_between(const orbit *o, double h) {
    off between = off_between(o->start, 10.0 * DAY, h);
    printf("| %s | 10 d | %.0f s |", o->name, h);
    if (between.refusal != 0)
        printf(" refusal %u | | |\n", (unsigned)between.refusal);
    else
        printf(" %.1e m | %.1e m/s² | %.1e |\n", between.position, between.acceleration, between.relative);
    return between;
}

static void print_table_between(void) {
    puts("\n| between samples of | span | step | position is off by | acceleration is off by | of itself |");
    puts("|---|---:|---:|---:|---:|---:|");
    print_between(&LOW, 30.0);
    off short_step = print_between(&LOW, 60.0), long_step = print_between(&LOW, 120.0);
    print_between(&LOW, 240.0);
    puts("\nAt most, at every sixth of every interval. Position: by the curve alone, beside samples in steps of a sixth that stand there.");
    printf("Acceleration: from the force at the position told with it. 120 s for 60 s makes them %.0f and %.0f times as large.\n",
           long_step.position / short_step.position, long_step.acceleration / short_step.acceleration);
}

typedef struct bound {
    const orbit *orbit;
    double h, returned, beside, energy; /* s, m, m, relative: at most about ten times what was measured */
} bound;

static const bound BOUNDS[] = {
    {&LOW, 30.0, 3e-5, 1e-5, 1e-14},
    {&LOW, 60.0, 1e-3, 4e-4, 5e-12},
    {&LOW, 120.0, 1.0, 0.5, 1e-9},
    {&STATIONARY, 300.0, 1e-5, 1e-6, 3e-14},
    {&STATIONARY, 1800.0, 5e-2, 7e-3, 1e-10},
    {&LONG, 20.0, 1e-3, 3e-4, 1e-12},
    {&LONG, 60.0, 100.0, 20.0, 1e-7},
};

typedef struct bound_between {
    const orbit *orbit;
    double h, position, acceleration, relative; /* s, m, m/s^2 */
} bound_between;

static const bound_between BOUNDS_BETWEEN[] = {
    {&LOW, 30.0, 3e-6, 7e-8, 8e-9},
    {&LOW, 60.0, 2e-4, 1e-6, 1e-7},
    {&LOW, 120.0, 1e-2, 2e-5, 2e-6},
    {&LONG, 30.0, 9e-5, 3e-6, 3e-7},
};

/* Whether a day of it is within the bound; a NaN is not. */
static int holds(const bound *b) {
    measured m = out_and_back(b->orbit->start, DAY, b->h);
    double beside = 1000.0 * distance(m.far_end, out_and_back(b->orbit->start, DAY, b->orbit->fine).far_end);
    int good = m.refusal == 0 && m.returned <= b->returned && beside <= b->beside && m.energy <= b->energy;
    if (!good)
        printf("FAILED: %s, a day by %.0f s: refusal %u, back within %.1e m (%.0e), far end %.1e m (%.0e), energy %.1e (%.0e)\n",
               b->orbit->name, b->h, (unsigned)m.refusal, m.returned, b->returned, beside, b->beside, m.energy, b->energy);
    return good;
}

static int holds_between(const bound_between *b) {
    off o = off_between(b->orbit->start, DAY, b->h);
    int good = o.refusal == 0 && o.position <= b->position && o.acceleration <= b->acceleration && o.relative <= b->relative;
    if (!good)
        printf("FAILED: between samples of %s by %.0f s: refusal %u, position %.1e m (%.0e), acceleration %.1e m/s² (%.0e), %.1e (%.0e)\n",
               b->orbit->name, b->h, (unsigned)o.refusal, o.position, b->position, o.acceleration, b->acceleration, o.relative, b->relative);
    return good;
}

static int check_bounds(void) {
    int count = sizeof BOUNDS / sizeof *BOUNDS, between = sizeof BOUNDS_BETWEEN / sizeof *BOUNDS_BETWEEN, good = 0, good_between = 0;
    for (int i = 0; i < count; i++) good += holds(&BOUNDS[i]);
    for (int i = 0; i < between; i++) good_between += holds_between(&BOUNDS_BETWEEN[i]);
    printf("accuracy: %d of %d flights within their bounds, and %d of %d between their samples\n", good, count, good_between, between);
    return good != count || good_between != between;
}

int main(int argc, char **argv) {
    if (argc == 2 && strcmp(argv[1], "short") == 0) return check_bounds();
    if (argc == 2 && strcmp(argv[1], "full") == 0) {
        print_table();
        print_table_between();
        return 0;
    }
    fprintf(stderr, "usage: accuracy short|full\n");
    return 2;
}
