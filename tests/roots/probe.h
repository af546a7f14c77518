/* SPDX-License-Identifier: MIT OR Apache-2.0 */
/* What crates/probe exports: leaves of the library, one by one. Not part of the library. */
#ifndef PROBE_H
#define PROBE_H

#include <stdint.h>

typedef struct probe_triple {
    double x, y, z;
} probe_triple;

typedef struct probe_state {
    probe_triple r, v;
} probe_state;

double probe_root(double x);
double probe_size(probe_triple a);
uint8_t probe_is_at_rest(double tol, probe_state before, probe_state after);

#endif
