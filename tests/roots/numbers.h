/* SPDX-License-Identifier: MIT OR Apache-2.0 */
/* Numbers to take roots of: random ones, and those that a root is most likely to get wrong. */
#ifndef NUMBERS_H
#define NUMBERS_H

#include <stdint.h>

typedef struct source {
    uint64_t state;
} source;

uint64_t next_bits(source *s);
/* From 0 up and below 1. */
double next_share(source *s);

double of_bits(uint64_t bits);
uint64_t bits_of(double x);

/* The n-th number: every fourth any pattern at all, the others hard. */
double next_number(source *s, uint64_t n);

/* 0 to SPECIALS - 1: zeros, ends of ranges, infinities, NaN. */
enum { SPECIALS = 24 };
double special(unsigned n);

#endif
