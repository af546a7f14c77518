/* SPDX-License-Identifier: MIT OR Apache-2.0 */
#include "numbers.h"

#include <math.h>
#include <string.h>

/* SplitMix64. */
uint64_t next_bits(source *s) {
    uint64_t z = s->state += 0x9e3779b97f4a7c15u;
    z = (z ^ (z >> 30)) * 0xbf58476d1ce4e5b9u;
    z = (z ^ (z >> 27)) * 0x94d049bb133111ebu;
    return z ^ (z >> 31);
}

double next_share(source *s) { return (double)(next_bits(s) >> 11) * 0x1p-53; }

double of_bits(uint64_t bits) {
    double x;
    memcpy(&x, &bits, sizeof x);
    return x;
}

uint64_t bits_of(double x) {
    uint64_t bits;
    memcpy(&bits, &x, sizeof bits);
    return bits;
}

/* A number above zero, moved by so many doubles. */
static double moved(double x, int by) { return of_bits(bits_of(x) + (uint64_t)(int64_t)by); }

/* The double nearest to the square of a number with 54 digits, the last of them 1, or one close by: its root lies beside a half-way point between
 * two doubles. */
static double beside_half_way(source *s) {
    uint64_t m = (next_bits(s) >> 10) | 1u | (1ull << 53);
    return moved((double)((unsigned __int128)m * m), (int)(next_bits(s) % 5) - 2);
}

/* A square that is a double, or the double next to one. */
static double beside_square(source *s) {
    double n = (double)(next_bits(s) >> (38 + next_bits(s) % 26));
    return n < 1.0 ? 1.0 : moved(n * n, (int)(next_bits(s) % 3) - 1);
}

/* With few digits in front, and ones or zeros after them. */
static double edged(source *s) {
    uint64_t digits = next_bits(s) & ~(~0ull >> (12 + next_bits(s) % 53));
    uint64_t ones = next_bits(s) & 1u ? ~0ull : 0;
    return of_bits(((next_bits(s) % 2046 + 1) << 52) | ((digits >> 12) ^ (ones >> 12)));
}

/* Times a power of four, which leaves a root's digits as they are; down to subnormal numbers and up to the largest. */
static double scaled(source *s, double x) {
    int up = 1023 - ilogb(x), down = ilogb(x) + 1074;
    return ldexp(x, 2 * ((int)(next_bits(s) % (unsigned)((up + down) / 2)) - down / 2));
}

double next_number(source *s, uint64_t n) {
    switch (n % 4) {
    case 0: return of_bits(next_bits(s));
    case 1: return scaled(s, beside_half_way(s));
    case 2: return scaled(s, beside_square(s));
    default: return edged(s);
    }
}

double special(unsigned n) {
    static const uint64_t bits[SPECIALS] = {
        0x0000000000000000, 0x8000000000000000, 0x0000000000000001, 0x8000000000000001, 0x0000000000000002, 0x000fffffffffffff,
        0x0010000000000000, 0x0010000000000001, 0x001fffffffffffff, 0x0020000000000000, 0x3fefffffffffffff, 0x3ff0000000000000,
        0x3ff0000000000001, 0x4000000000000000, 0x4010000000000000, 0x7fefffffffffffff, 0x7fe0000000000000, 0x7ff0000000000000,
        0xfff0000000000000, 0x7ff8000000000000, 0xfff8000000000001, 0x7ff0000000000001, 0xbff0000000000000, 0xffefffffffffffff};
    return of_bits(bits[n]);
}
