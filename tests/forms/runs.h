/* SPDX-License-Identifier: MIT OR Apache-2.0 */
/* The runs whose forms are kept: which run, and after how many answers. Their starts, ends and steps are finite, as W-202 asks. */
#ifndef RUNS_H
#define RUNS_H

#include "gauss_jackson.h"

struct kept_run {
    const char *name, *what;
    double t0, tf;
    gj_settings settings;
    gj_triple r, v;
    double pull; /* the force is pull·r */
    int broken;  /* 1: after question 32 x is NaN and y infinite now and then */
    unsigned long answers;
};

#define PLACE {1, -2, 0.5}, {0.25, 0.125, -3}
#define ORBIT {6778.137, 0, 0}, {0, 5.5, 5.25}

/* The settings: h, tolerance of corrector and startup, passes of corrector and startup, max_steps, samples. */
static const struct kept_run kept_runs[] = {
    {"epoch", "The first question of a run from 0 to 8", 0, 8, {1, 0, 0, 1, 1, 1000000, 0}, PLACE, -0.01, 0, 0},
    {"epoch-small", "The first question of a run with -0.0, subnormals, no passes and no steps allowed", -0.0, 9,
     {-1, 1e-9, -1, 0, 0, 0, 1}, {5e-324, -0.0, 0.5}, {0.25, -2.5e-310, -3}, -0.01, 0, 0},
    {"forward-first", "RK4 forward from the epoch, its first question, with samples", 0, 8,
     {1, 0, 0, 1, 1, 1000000, 1}, PLACE, -0.01, 0, 1},
    {"forward", "RK4 forward from point 6, its third question", 0, 8, {1, 0, 0, 1, 1, 1000000, 0}, PLACE, -0.01, 0, 11},
    {"backward", "RK4 backward from point 2, its fourth question, with samples, in a run from 100 to 20", 100, 20,
     {10, 0, 0, 1, 1, 1000000, 1}, PLACE, -0.01, 0, 28},
    {"survey", "The first accelerations, at point 6", 0, 8, {1, 0, 0, 1, 1, 1000000, 0}, PLACE, -0.01, 0, 38},
    {"survey-nan", "The first accelerations, at point 8; that at point 6 came as NaN and infinity", 0, 8,
     {1, 0, 0, 1, 1, 1000000, 1}, PLACE, -0.01, 1, 40},
    {"survey-early", "The first accelerations, at point 1, in a run from 0.8 to 0", 0.8, 0,
     {0.1, 0, 0, 1, 1, 1000000, 0}, PLACE, -0.01, 0, 34},
    {"pass", "The second pass of the startup, at point 2, with samples", 0, 8, {1, 0, 0, 2, 3, 100, 1}, PLACE, -0.01, 0, 51},
    {"pass-late", "The first pass of the startup, at point 8, in a run from 100 to 20", 100, 20,
     {10, 0, 0, 1, 1, 1000000, 0}, PLACE, -0.01, 0, 48},
    {"pass-nan", "The second pass of the startup, under a force that gave NaN and infinities", 0, 8,
     {1, 0, 0, 1, 4, 1000000, 0}, PLACE, -0.01, 1, 54},
    {"step", "The first step after the startup, not yet corrected, with samples", 0, 8, {1, 0, 0, 1, 1, 1000000, 1}, PLACE, -0.01, 0, 49},
    {"step-nan", "A step, corrected once, under a force that gave NaN and infinities", 0, 8,
     {1, 0, 0, 1, 1, 1000000, 1}, PLACE, -0.01, 1, 54},
    {"step-orbit", "A low orbit by the default settings, on its second round", 0, 86400,
     {60, 1e-13, 1e-13, 2, 12, 1000000, 0}, ORBIT, -1.28e-6, 0, 277},
    {"step-late", "A step after question 65,535, so that the number has begun again at 0", 0, 30000,
     {1, 0, 0, 2, 1, 1000000, 0}, PLACE, -0.01, 0, 70002},
    {"tail", "The tail's first question, in a run from 0 to 17 by steps of 2", 0, 17, {2, 0, 0, 1, 1, 1000000, 0}, PLACE, -0.01, 0, 57},
    {"tail-last", "The tail's fourth question, in a run from 17 to 0 with samples and nine steps allowed", 17, 0,
     {2, 0, 0, 1, 1, 9, 1}, PLACE, -0.01, 0, 60},
    {"tail-sample", "The question for the tail's sample", 0, 17, {2, 0, 0, 1, 1, 1000000, 1}, PLACE, -0.01, 0, 61},
};

#endif
