/* SPDX-License-Identifier: MIT OR Apache-2.0 */
/* What the examples share: the Earth, the words of the command line, what a flight takes, rows for other programs. Units are km and seconds. */
#ifndef FLIGHT_H
#define FLIGHT_H

#include "gauss_jackson.h"

#include <math.h>
#include <stdio.h>
#include <string.h>

static const double MU = 398600.4418, EARTH = 6378.137; /* the Earth's pull, and its radius at the equator */
static const double TURN = 7.2921158553e-5; /* of the Earth, in radians a second; Greenwich lies on the x axis at the start */
static const double COS_INCLINATION = 0.6211477802783103, SIN_INCLINATION = 0.7836934573258398; /* of 51.6 degrees */

static inline double distance(gj_triple r) { return sqrt((r.x * r.x + r.y * r.y) + r.z * r.z); }

/* Says why on standard error; the program's status. */
static inline int tell_refusal(uint32_t refusal) {
    fprintf(stderr, "refusal %u: %s\n", (unsigned)refusal, gj_refusal_text(refusal));
    return 1;
}

/* Whether the one word is there; -1 for any other words. */
static inline int has_word(int argc, char **argv, const char *word) {
    if (argc < 2) return 0;
    return argc == 2 && strcmp(argv[1], word) == 0 ? 1 : -1;
}

/* What a flight takes, said before it begins; at once, even if standard output goes into a pipe. */
static inline void print_cost(gj_cost cost) {
    printf("This takes %llu steps, room for %llu samples (%llu numbers) and %llu to %llu answers.\n\n", (unsigned long long)cost.steps,
           (unsigned long long)cost.samples, (unsigned long long)cost.numbers, (unsigned long long)cost.least, (unsigned long long)cost.most);
    fflush(stdout);
}

/* Seventeen digits: a program that reads them has the same bits. */
static inline void print_csv(const double *numbers, int count) {
    for (int i = 0; i < count; i++) printf("%s%.17g", i == 0 ? "" : ",", numbers[i]);
    puts("");
}

#endif
