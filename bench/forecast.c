/* SPDX-License-Identifier: MIT OR Apache-2.0 */
/* The program forecast in plain C: the measure for the proved one. Nine lines of sixteen hex digits in, a line per sample out, a refusal's number last.
 * The stepper is the plain loop's, with the point mass in it. Too low a question just ends the program, as one would write it where nothing has to
 * go on afterwards. Lines are put together by hand, digit by digit, and handed to stdio's buffer; with -DBY_PRINTF by printf's %016llx, which is
 * less to write and takes more instructions. */
#include "bench.h"
#include "plain.h"

#include <stdio.h>
#include <stdlib.h>
#include <string.h>

enum { BLANK_DATE = 12, TOO_LOW = 15, MISSHAPEN = 19 };

static const double mu = 398600.4418;

/* The header's types are taken without its library, to which every file with the header refers. */
uint32_t GJ_ABI_NAME(GJ_ABI)(void) { return GJ_ABI; }

static void end_with(unsigned refusal) {
    printf("%u\n", refusal);
    exit(0);
}

static inline gj_triple force(gj_triple r) {
    double d = sqrt((r.x * r.x + r.y * r.y) + r.z * r.z);
    if (!(d >= 1.0)) end_with(TOO_LOW);
    double cube = (d * d) * d;
    return (gj_triple){(-mu * r.x) / cube, (-mu * r.y) / cube, (-mu * r.z) / cube};
}

/* Every NaN by one pattern. */
static uint64_t bits_of(double x) {
    uint64_t bits = 0x7ff8000000000000;
    if (x == x) memcpy(&bits, &x, sizeof bits);
    return bits;
}

#ifdef BY_PRINTF
static void print(uint64_t n, const double *x) {
    printf("%llu", (unsigned long long)n);
    for (int i = 0; i < 10; i++) printf(" %016llx", (unsigned long long)bits_of(x[i]));
    putchar('\n');
}
#else
static char *put_decimal(char *to, uint64_t n) {
    char digits[20];
    int count = 0;
    do digits[count++] = (char)('0' + n % 10);
    while ((n /= 10) != 0);
    while (count > 0) *to++ = digits[--count];
    return to;
}

static char *put_hex(char *to, uint64_t bits) {
    for (int i = 15; i >= 0; i--, bits >>= 4) to[i] = "0123456789abcdef"[bits & 15];
    return to + 16;
}

static void print(uint64_t n, const double *x) {
    char line[20 + 10 * 17 + 1], *end = put_decimal(line, n);
    for (int i = 0; i < 10; i++) *end++ = ' ', end = put_hex(end, bits_of(x[i]));
    *end++ = '\n';
    fwrite(line, 1, (size_t)(end - line), stdout);
}
#endif

/* A sample is printed as it is stored: there is room for every one. */
static bool store(const task *k, uint64_t n, double t, gj_triple r, gj_triple v, gj_triple a) {
    (void)k;
    double ten[10] = {t, r.x, r.y, r.z, v.x, v.y, v.z, a.x, a.y, a.z};
    print(n, ten);
    return true;
}

#include "plain_stepper.h"

static int value_of(char digit) {
    if (digit >= '0' && digit <= '9') return digit - '0';
    if (digit >= 'a' && digit <= 'f') return digit - 'a' + 10;
    if (digit >= 'A' && digit <= 'F') return digit - 'A' + 10;
    return -1;
}

static bool read_float(const char *text, double *x) {
    uint64_t bits = 0;
    for (int i = 0; i < 16; i++) {
        int value = value_of(text[i]);
        if (value < 0) return false;
        bits = bits << 4 | (uint64_t)value;
    }
    memcpy(x, &bits, sizeof *x);
    return true;
}

/* Nine lines, the last with or without its newline, and nothing after them. */
static bool read_floats(double *x) {
    char text[9 * 17 + 1];
    size_t length = fread(text, 1, sizeof text, stdin);
    if (length != 9 * 17 && length != 9 * 17 - 1) return false;
    text[9 * 17 - 1] = length == 9 * 17 ? text[9 * 17 - 1] : '\n';
    for (int i = 0; i < 9; i++)
        if (!read_float(text + 17 * i, &x[i]) || text[17 * i + 16] != '\n') return false;
    return true;
}

/* Every setting but the step by default, with samples. */
static gj_settings settings_with(double h) {
    return (gj_settings){.h = h, .corrector_tol = 1e-13, .startup_tol = 1e-13, .max_corrector_iters = 2, .max_startup_iters = 12,
                         .max_steps = 1000000, .samples = 1};
}

int main(void) {
    double x[9];
    if (!read_floats(x)) end_with(MISSHAPEN);
    if (!isfinite(x[0]) || !isfinite(x[1]) || !isfinite(x[2])) end_with(BLANK_DATE);
    task k = {.settings = settings_with(x[2]), .t0 = x[0], .tf = x[1], .r0 = {x[3], x[4], x[5]}, .v0 = {x[6], x[7], x[8]}};
    gj_reply end;
    fly(&k, &end);
    if (end.refusal != 0) end_with(end.refusal);
    return 0;
}
