/* SPDX-License-Identifier: MIT OR Apache-2.0 */
/* Between samples, in plain C: document 01's two rules of search, and the quintic in the module's order, with W-203's acceleration. */
#include "bench.h"
#include "plain.h"

#include <string.h>

static gj_triple triple_at(const double *three) { return (gj_triple){three[0], three[1], three[2]}; }

static void quintic(const double *from, const double *to, double t, double *out) {
    double h = to[0] - from[0], s = (t - from[0]) / h, hh = h * h;
    gj_triple r = triple_at(from + 1), v = triple_at(from + 4), a = triple_at(from + 7);
    gj_triple d1 = minus(minus(minus(triple_at(to + 1), r), times(v, h)), times(a, hh * 0.5));
    gj_triple d2 = minus(times(minus(triple_at(to + 4), v), h), times(a, hh));
    gj_triple d3 = times(minus(triple_at(to + 7), a), hh);
    gj_triple c3 = plus(minus(times(d1, 10.0), times(d2, 4.0)), times(d3, 0.5));
    gj_triple c4 = minus(plus(times(d1, -15.0), times(d2, 7.0)), d3);
    gj_triple c5 = plus(minus(times(d1, 6.0), times(d2, 3.0)), times(d3, 0.5));
    double s2 = s * s, s3 = s2 * s, s4 = s3 * s, s5 = s4 * s;
    r = plus(plus(r, times(v, h * s)), times(a, hh * 0.5 * s2));
    r = plus(plus(plus(r, times(c3, s3)), times(c4, s4)), times(c5, s5));
    v = plus(plus(v, times(a, h * s)), times(c3, 3.0 * s2 / h));
    v = plus(plus(v, times(c4, 4.0 * s3 / h)), times(c5, 5.0 * s4 / h));
    gj_triple bent = plus(plus(times(c3, 6.0 * s), times(c4, 12.0 * s2)), times(c5, 20.0 * s3));
    gj_triple told[] = {r, v, plus(a, over(bent, hh))};
    memcpy(out, told, sizeof told);
}

static bool outside(double t, const double *first, const double *last) {
    return *last > *first ? t < *first || t > *last : t < *last || t > *first;
}

/* 9, 3 or 4, or 0; every time is judged before any is read off. */
static uint32_t refusal_of(const double *times, size_t k, const double *samples, size_t n, size_t m) {
    if (n % 10 != 0 || m / GJ_BETWEEN_NUMBERS < k) return GJ_SHAPE;
    if (n < 20) return GJ_NO_DENSE_OUTPUT;
    for (size_t i = 0; i < k; i++)
        if (outside(times[i], samples, samples + n - 10)) return GJ_INTERP_OUT_OF_BOUNDS;
    return 0;
}

uint32_t plain_interpolate(double t, const double *samples, size_t n, double *out, size_t m) {
    uint32_t refusal = refusal_of(&t, 1, samples, n, m);
    if (refusal != 0) return refusal;
    bool forward = samples[n - 10] > samples[0];
    size_t i = 0;
    while (i < n && (forward ? samples[i] <= t : samples[i] >= t)) i += 10;
    i = i == 0 ? 0 : i - 10;
    if (i > n - 20) i = n - 20;
    quintic(samples + i, samples + i + 10, t, out);
    return 0;
}

uint32_t plain_interpolate_batch(const double *times, size_t k, const double *samples, size_t n, double *out, size_t m) {
    uint32_t refusal = refusal_of(times, k, samples, n, m);
    if (refusal != 0) return refusal;
    bool forward = samples[n - 10] > samples[0];
    size_t i = 0;
    for (size_t j = 0; j < k; j++) {
        while (i < n - 20 && (forward ? samples[i + 10] < times[j] : samples[i + 10] > times[j])) i += 10;
        quintic(samples + i, samples + i + 10, times[j], out + GJ_BETWEEN_NUMBERS * j);
    }
    return 0;
}

uint32_t plain_read(const reading *in, bool batch) {
    if (batch) return plain_interpolate_batch(in->times, in->k, in->samples, in->n, in->rows, GJ_BETWEEN_NUMBERS * in->k);
    uint32_t refusal = 0;
    for (size_t j = 0; j < in->k && refusal == 0; j++)
        refusal = plain_interpolate(in->times[j], in->samples, in->n, in->rows + GJ_BETWEEN_NUMBERS * j, GJ_BETWEEN_NUMBERS);
    return refusal;
}
