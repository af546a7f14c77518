/* SPDX-License-Identifier: MIT OR Apache-2.0 */
/* The plain stepper: document 01's startup, steps and tail with its tests and order of rounding, and no questions. Who includes it has said before
 * what the force is and where a sample goes, both static, so that they stand in the loop:
 *     gj_triple force(gj_triple r);
 *     bool store(const task *k, uint64_t n, double t, gj_triple r, gj_triple v, gj_triple a);    false where sample n does not fit */
#ifndef PLAIN_STEPPER_H
#define PLAIN_STEPPER_H

#include "bench.h"
#include "plain.h"
#include "tables.h" /* A[10][9] and B[10][9], made of crates/tables when the benchmark is built */

#include <math.h>
#include <string.h>

typedef struct plain {
    double h, dir, t;
    gj_triple r[9], v[9], a[9]; /* the nine points of the startup; later a is the window */
    gj_triple s, big_s;
    gj_reply end;
} plain;

static double point_time(const plain *p, const task *k, int i) { return k->t0 + (i - 4.0) * p->h; }

static gj_triple asked(plain *p, gj_triple r) {
    p->end.evals++;
    return force(r);
}

static void rk4(plain *p, gj_triple r, gj_triple v, double h, gj_triple *r_new, gj_triple *v_new) {
    double half = h * 0.5, sixth = h * (1.0 / 6.0);
    gj_triple l1 = asked(p, r);
    gj_triple k2 = plus(v, times(l1, half)), l2 = asked(p, plus(r, times(v, half)));
    gj_triple k3 = plus(v, times(l2, half)), l3 = asked(p, plus(r, times(k2, half)));
    gj_triple k4 = plus(v, times(l3, h)), l4 = asked(p, plus(r, times(k3, h)));
    *r_new = plus(r, times(plus(plus(plus(v, times(k2, 2.0)), times(k3, 2.0)), k4), sixth));
    *v_new = plus(v, times(plus(plus(plus(l1, times(l2, 2.0)), times(l3, 2.0)), l4), sixth));
}

static void first_points(plain *p) {
    p->a[4] = asked(p, p->r[4]);
    for (int i = 5; i < 9; i++) rk4(p, p->r[i - 1], p->v[i - 1], p->h, &p->r[i], &p->v[i]);
    for (int i = 3; i >= 0; i--) rk4(p, p->r[i + 1], p->v[i + 1], -p->h, &p->r[i], &p->v[i]);
    for (int i = 0; i < 9; i++)
        if (i != 4) p->a[i] = asked(p, p->r[i]);
}

static void sums_at_epoch(plain *p) {
    p->s = minus(over(p->v[4], p->h), weighted(p->a, B[4], 9));
    p->big_s = minus(over(p->r[4], p->h * p->h), weighted(p->a, A[4], 9));
}

static void set_point(plain *p, int i, gj_triple s, gj_triple big_s) {
    p->v[i] = times(plus(s, weighted(p->a, B[i], 9)), p->h);
    p->r[i] = times(plus(big_s, weighted(p->a, A[i], 9)), p->h * p->h);
}

/* One pass; whether the change is below the tolerance. */
static bool startup_pass(plain *p, double tol) {
    gj_triple old[9], s, big_s;
    memcpy(old, p->a, sizeof old);
    sums_at_epoch(p);
    s = p->s, big_s = p->big_s;
    for (int i = 5; i < 9; i++) {
        big_s = plus(big_s, s), s = plus(s, p->a[i]);
        set_point(p, i, s, big_s);
    }
    s = p->s, big_s = p->big_s;
    for (int i = 3; i >= 0; i--) {
        big_s = plus(minus(big_s, s), p->a[i + 1]), s = minus(s, p->a[i + 1]);
        set_point(p, i, s, big_s);
    }
    for (int i = 0; i < 9; i++)
        if (i != 4) p->a[i] = asked(p, p->r[i]);
    double delta = 0.0, mag = 1.0e-30;
    for (int i = 0; i < 9; i++) {
        delta = larger(delta, size(minus(p->a[i], old[i])));
        mag = larger(mag, size(p->a[i]));
    }
    return delta / mag < tol;
}

static void start_up(plain *p, const task *k) {
    first_points(p);
    for (uint64_t i = 0; i < k->settings.max_startup_iters; i++) {
        p->end.startup_iters++;
        if (startup_pass(p, k->settings.startup_tol)) break;
    }
    sums_at_epoch(p);
    for (int i = 5; i < 9; i++) p->big_s = plus(p->big_s, p->s), p->s = plus(p->s, p->a[i]);
    p->t = k->t0 + 4.0 * p->h;
    p->end.steps = 4, p->end.r = p->r[8], p->end.v = p->v[8];
}

static bool still(double tol, gj_triple before, gj_triple after) {
    return size(minus(after, before)) / (size(after) + 1.0e-30) < tol;
}

static void step(plain *p, const gj_settings *s) {
    double h = p->h, hh = h * h;
    gj_triple *a = p->a, big_s = plus(p->big_s, p->s);
    gj_triple r = times(plus(big_s, weighted(a, A[9], 9)), hh), v = times(plus(p->s, weighted(a, B[9], 9)), h);
    gj_triple fa = weighted(a + 1, A[8], 8), fb = weighted(a + 1, B[8], 8), a_new = asked(p, r);
    for (uint64_t i = 0; i < s->max_corrector_iters; i++) {
        gj_triple r_old = r, v_old = v;
        r = times(plus(plus(big_s, fa), times(a_new, A[8][8])), hh);
        v = times(plus(plus(plus(p->s, a_new), fb), times(a_new, B[8][8])), h);
        if (still(s->corrector_tol, r_old, r) && still(s->corrector_tol, v_old, v)) break;
        a_new = asked(p, r);
    }
    memmove(a, a + 1, 8 * sizeof *a);
    a[8] = a_new, p->s = plus(p->s, a_new), p->big_s = big_s;
    p->end.r = r, p->end.v = v, p->t += h, p->end.steps++;
}

static void tail(plain *p, const task *k) {
    rk4(p, p->end.r, p->end.v, k->tf - p->t, &p->end.r, &p->end.v);
    p->end.steps++, p->t = k->tf;
    if (!k->settings.samples) return;
    gj_triple a = asked(p, p->end.r);
    if (!store(k, p->end.steps, k->tf, p->end.r, p->end.v, a)) p->end.refusal = GJ_SAMPLE_ROOM;
}

static void go_on(plain *p, const task *k) {
    for (int i = 4; i < 9; i++)
        if (!store(k, i - 4, point_time(p, k, i), p->r[i], p->v[i], p->a[i])) p->end.refusal = GJ_SAMPLE_ROOM;
    while (p->end.refusal == 0 && (k->tf - p->t) * p->dir > 0.0) {
        if (p->end.steps >= k->settings.max_steps) {
            p->end.refusal = GJ_MAX_STEPS_EXCEEDED;
        } else if (fabs(k->tf - p->t) - fabs(p->h) < -1.0e-12 * fabs(p->h)) {
            tail(p, k);
            return;
        } else {
            step(p, &k->settings);
            if (!store(k, p->end.steps, p->t, p->end.r, p->end.v, p->a[8])) p->end.refusal = GJ_SAMPLE_ROOM;
        }
    }
}

static void fly(const task *k, gj_reply *end) {
    plain p = {0};
    p.dir = k->tf >= k->t0 ? 1.0 : -1.0;
    p.h = fabs(k->settings.h) * p.dir;
    p.r[4] = k->r0, p.v[4] = k->v0;
    if (p.h == 0.0 || fabs((k->tf - k->t0) / p.h) < 8.0)
        p.end.refusal = GJ_STEP_NOT_FINITE;
    else
        start_up(&p, k), go_on(&p, k);
    p.end.t = p.t, p.end.kind = p.end.refusal == 0 ? GJ_DONE : GJ_REFUSED;
    *end = p.end;
}

#endif
