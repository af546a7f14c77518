/* SPDX-License-Identifier: MIT OR Apache-2.0 */
#include "rest.h"

#include <math.h>
#include <stdio.h>

static double mean_square(probe_triple a) { return (a.x * a.x + a.y * a.y + a.z * a.z) / 3.0; }

static double size(probe_triple a) { return sqrt(mean_square(a)); }

static probe_triple minus(probe_triple a, probe_triple b) { return (probe_triple){a.x - b.x, a.y - b.y, a.z - b.z}; }

static double quotient(probe_triple before, probe_triple after) { return size(minus(after, before)) / (size(after) + 1.0e-30); }

static bool is_at_rest(double tol, probe_state before, probe_state after) {
    return quotient(before.r, after.r) < tol && quotient(before.v, after.v) < tol;
}

static bool is_same(double a, double b) { return bits_of(a) == bits_of(b) || (a != a && b != b); }

/* From 10^-decades to 10^decades, with either sign. */
static double spread(source *s, double decades) {
    double x = pow(10.0, (2.0 * next_share(s) - 1.0) * decades);
    return next_bits(s) & 1u ? -x : x;
}

/* Near 1, or with squares that overflow or underflow, or now and then anything. */
static probe_triple any_triple(source *s, uint64_t n) {
    double k = n % 4 == 0 ? spread(s, 160.0) : 1.0;
    probe_triple a = {k * spread(s, 3.0), k * spread(s, 3.0), k * spread(s, 3.0)};
    if (n % 16 == 1) a.y = of_bits(next_bits(s));
    if (n % 64 == 2) a.z = special((unsigned)(next_bits(s) % SPECIALS));
    return a;
}

bool same_size(source *s, uint64_t n) {
    probe_triple a = any_triple(s, n);
    if (is_same(probe_size(a), size(a))) return true;
    printf("DIFFERS: the size of %a %a %a: %a, by the processor's root %a\n", a.x, a.y, a.z, probe_size(a), size(a));
    return false;
}

/* A value after a correction that changes it by about its share k. */
static probe_triple changed(source *s, probe_triple a, double k) {
    return (probe_triple){a.x + k * a.x * spread(s, 0.3), a.y + k * a.y * spread(s, 0.3), a.z + k * a.z * spread(s, 0.3)};
}

/* At the quotient of the two or within two doubles of it; where twice its square, or half of it, is the tolerance's; or anything. */
static double tolerance(source *s, double q, counts *c) {
    double edge = next_bits(s) & 1u ? sqrt(2.0) : sqrt(0.5);
    uint64_t by = next_bits(s) % 5 - 2;
    if (!(q > 0.0) || q > 1e300) return special((unsigned)(next_bits(s) % SPECIALS));
    switch (next_bits(s) % 8) {
    case 0: case 1: case 2: return of_bits(bits_of(q) + by);
    case 3: case 4: c->at_edges++; return of_bits(bits_of(q * edge) + by);
    case 5: return q * fabs(spread(s, 1.0));
    case 6: return 1e-13;
    default: return special((unsigned)(next_bits(s) % SPECIALS));
    }
}

bool same_rest(source *s, counts *c) {
    uint64_t n = next_bits(s);
    probe_state before = {any_triple(s, n), any_triple(s, n >> 8)}, after;
    double k = pow(10.0, -16.0 * next_share(s));
    after.r = changed(s, before.r, k), after.v = next_bits(s) % 4 ? before.v : changed(s, before.v, k);
    double tol = tolerance(s, quotient(before.r, after.r), c);
    bool got = probe_is_at_rest(tol, before, after) == 1;
    c->at_rest += got;
    if (got == is_at_rest(tol, before, after)) return true;
    printf("DIFFERS: at rest by the library: %d; tolerance %a, position %a %a %a to %a %a %a\n", got, tol, before.r.x, before.r.y, before.r.z,
           after.r.x, after.r.y, after.r.z);
    return false;
}
