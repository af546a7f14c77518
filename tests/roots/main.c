/* SPDX-License-Identifier: MIT OR Apache-2.0 */
/* root N SEED: N roots of the proved library held to the processor's own, bit for bit, all NaN alike; then N / 10 sizes, and N / 10 tests of whether
 * corrections have come to rest, whose tolerances lie at a quotient, beside it, and where the test by squares begins and ends. Prints a digest of the
 * roots. Compiled with ROOT_ALONE it has no library, and prints the digest of the processor's roots. */
#include "numbers.h"

#include <math.h>
#include <stdbool.h>
#include <stdio.h>
#include <stdlib.h>

#ifdef ROOT_ALONE
static double root_of(double x) { return sqrt(x); }
#else
#include "rest.h"
static double root_of(double x) { return probe_root(x); }
#endif

/* Every NaN is one. */
static uint64_t pattern(double x) { return x != x ? 0x7ff8000000000000u : bits_of(x); }

static bool same_root(double x, uint64_t *digest) {
    double got = root_of(x), wanted = sqrt(x);
    *digest = (*digest ^ pattern(got)) * 1099511628211u;
    if (pattern(got) == pattern(wanted)) return true;
    printf("DIFFERS: the root of %016llx: %016llx, the processor has %016llx\n", (unsigned long long)bits_of(x), (unsigned long long)pattern(got),
           (unsigned long long)pattern(wanted));
    return false;
}

static bool same_roots(uint64_t count, source *s, uint64_t *digest) {
    for (unsigned n = 0; n < SPECIALS; n++)
        if (!same_root(special(n), digest)) return false;
    for (uint64_t n = 0; n < count; n++)
        if (!same_root(next_number(s, n), digest)) return false;
    return true;
}

int main(int argc, char **argv) {
    if (argc != 3) return 2;
    uint64_t count = strtoull(argv[1], NULL, 10), digest = 14695981039346656037u;
    source s = {strtoull(argv[2], NULL, 10)};
    if (!same_roots(count, &s, &digest)) return 1;
    printf("digest %016llx\n", (unsigned long long)digest);
#ifndef ROOT_ALONE
    counts c = {0};
    for (uint64_t n = 0; n < count / 10; n++)
        if (!same_size(&s, n) || !same_rest(&s, &c)) return 1;
    printf("%llu roots, %llu sizes and %llu tests of rest equal; of these %llu at rest, %llu on either side of an edge of the test by squares\n",
           (unsigned long long)count + SPECIALS, (unsigned long long)(count / 10), (unsigned long long)(count / 10), (unsigned long long)c.at_rest,
           (unsigned long long)c.at_edges);
#endif
    return 0;
}
