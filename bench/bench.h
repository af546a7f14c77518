/* SPDX-License-Identifier: MIT OR Apache-2.0 */
/* The three columns, each with the same force, a = -r, and the same ends of a run to compare. */
#ifndef BENCH_H
#define BENCH_H

#include "gauss_jackson.h"

#include <stdbool.h>

/* A run's input. `out` is the room for samples, where settings.samples says so; it is not cleared. */
typedef struct task {
    gj_settings settings;
    double t0, tf;
    gj_triple r0, v0;
    double *out;
    size_t count;
} task;

/* The module over the stand-in, as its own text has it; its samples are its own and are copied out at the end. */
void module_run(const task *task, gj_reply *end);
/* A plain loop in C with the same tests and no questions. */
void plain_run(const task *task, gj_reply *end);
/* The proved library, asked and answered. */
void library_run(const task *task, gj_reply *end);

/* Times between samples: one by one, or all in one batch. The numbers of time j go to `rows` from width * j on; the module tells no
 * accelerations, and leaves their places alone. */
typedef struct reading {
    const double *times;
    size_t k;
    const double *samples;
    size_t n;
    double *rows;
    size_t width; /* GJ_BETWEEN_NUMBERS, for the module's side too */
} reading;

uint32_t module_read(const reading *reading, bool batch);
uint32_t plain_read(const reading *reading, bool batch);
uint32_t library_read(const reading *reading, bool batch);

/* The root of a float: the processor's, and the proved library's, which crates/probe hands out by itself. The module leaves it to the processor too. */
double plain_root(double x);
double probe_root(double x);

/* A run put away in a stored form, and taken up from one: as gj_store and gj_load of the library. The module has no such thing. */
uint32_t plain_store(const gj_run *run, uint8_t *out, size_t bytes);
gj_reply plain_load(gj_run *run, const uint8_t *in, size_t bytes);

#endif
