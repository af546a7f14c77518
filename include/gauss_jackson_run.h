/* SPDX-License-Identifier: MIT OR Apache-2.0 */
/* The run, as it lies in memory. Part of gauss_jackson.h; an app has no need to look inside.
 *
 * It is plain data, without pointers: it may be copied, kept and answered again. A copy is a line of answers of its own. For a file take
 * gj_store: these bytes are of one GJ_ABI, and damage in them might go unnoticed.
 * It may not be changed by hand. What does not follow the counting is refused as made up (7), and so is a NaN or an infinity in the plan's
 * t0, tf, h or settings.h; the rest is taken as it is.
 */
#ifndef GAUSS_JACKSON_RUN_H
#define GAUSS_JACKSON_RUN_H

/* The open question's number, and the answers accepted before it. */
typedef struct gj_count {
    uint16_t number;
    uint64_t evals;
} gj_count;
GJ_SIZE(gj_count, 16);
GJ_AT(gj_count, number, 0);
GJ_AT(gj_count, evals, 8);

/* Where the run waits: 0 ended, 1 epoch, 2 and 3 RK4 on and back, 4 first accelerations, 5 a startup pass, 6 a step, 7 the
 * tail, 8 the tail's sample. `index` is a point, or the corrections made; `stage` is a question of RK4. */
typedef struct gj_mark {
    uint8_t at;
    uint8_t index;
    uint8_t stage;
    gj_count count;
} gj_mark;
GJ_SIZE(gj_mark, 24);
GJ_AT(gj_mark, at, 0);
GJ_AT(gj_mark, index, 1);
GJ_AT(gj_mark, stage, 2);
GJ_AT(gj_mark, count, 8);

/* What never changes in a run; `h` has the direction's sign. */
typedef struct gj_plan {
    gj_settings settings;
    double t0, tf, h;
} gj_plan;
GJ_SIZE(gj_plan, 80);
GJ_AT(gj_plan, t0, 56);
GJ_AT(gj_plan, tf, 64);
GJ_AT(gj_plan, h, 72);

/* Position and velocity of the startup's nine points. */
typedef struct gj_places {
    gj_triple r[9];
    gj_triple v[9];
} gj_places;
GJ_SIZE(gj_places, 432);
GJ_AT(gj_places, v, 216);

typedef struct gj_state {
    gj_triple r, v;
} gj_state;
GJ_SIZE(gj_state, 48);
GJ_AT(gj_state, v, 24);

/* The newest point: time, steps made, state, and the running sums s and S. */
typedef struct gj_track {
    double t;
    uint64_t steps;
    gj_state state;
    gj_triple s, big_s;
} gj_track;
GJ_SIZE(gj_track, 112);
GJ_AT(gj_track, steps, 8);
GJ_AT(gj_track, state, 16);
GJ_AT(gj_track, s, 64);
GJ_AT(gj_track, big_s, 88);

/* The open step: its end so far, and the sums that its passes share. */
typedef struct gj_trial {
    gj_state state;
    gj_triple fa, fb;
} gj_trial;
GJ_SIZE(gj_trial, 96);
GJ_AT(gj_trial, fa, 48);
GJ_AT(gj_trial, fb, 72);

typedef struct gj_body {
    gj_plan plan;
    gj_places places;
    gj_triple a[9];
    gj_triple slopes[3];
    double delta, mag;
    uint64_t startup_iters;
    gj_track track;
    gj_trial trial;
} gj_body;
GJ_SIZE(gj_body, 1032);
GJ_AT(gj_body, places, 80);
GJ_AT(gj_body, a, 512);
GJ_AT(gj_body, slopes, 728);
GJ_AT(gj_body, delta, 800);
GJ_AT(gj_body, mag, 808);
GJ_AT(gj_body, startup_iters, 816);
GJ_AT(gj_body, track, 824);
GJ_AT(gj_body, trial, 936);

typedef struct gj_run {
    gj_mark mark;
    gj_body body;
} gj_run;
GJ_SIZE(gj_run, 1056);
GJ_AT(gj_run, body, 24);

#endif
