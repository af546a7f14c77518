/* SPDX-License-Identifier: MIT OR Apache-2.0 */
/* Sizes, and whether corrections have come to rest, worked out a second time with the processor's root. */
#ifndef REST_H
#define REST_H

#include "numbers.h"
#include "probe.h"

#include <stdbool.h>

/* How many tests came to rest, and how many had a tolerance at an edge of the test by squares. */
typedef struct counts {
    uint64_t at_rest, at_edges;
} counts;

bool same_size(source *s, uint64_t n);
bool same_rest(source *s, counts *c);

#endif
