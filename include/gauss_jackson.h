/* SPDX-License-Identifier: MIT OR Apache-2.0 */
/* The proved Gauss-Jackson run, for C and C++. It carries an orbit from t0 to tf; the caller brings the force: there is none inside.
 * A run asks for accelerations, one question at a time, and the caller answers:
 *
 *     gj_settings settings = gj_default_settings();
 *     settings.samples = 1;                        -- without this no sample is ever written
 *     gj_run run;
 *     gj_reply reply = gj_start(&run, settings, t0, tf, r0, v0);
 *     while (reply.kind == GJ_ASK)
 *         reply = gj_answer(&run, reply.number, force(reply.t, reply.r, reply.v), 0, samples, 10 * (steps + 1));
 *     if (reply.kind == GJ_DONE) ... reply.t, reply.r, reply.v; reply.steps + 1 samples stand ...
 *     else ... reply.refusal, in words gj_refusal_text(reply.refusal) ...
 *
 * A room of fifty numbers, used again and again, is enough too: gj_answer has how.
 *
 * Where t0, tf and the step are whole numbers, gj_forecast tells beforehand what a run takes: steps, room, answers. gj_start_whole starts
 * one and tells the same; what it accepts always finishes.
 *
 * Between any two questions a run can be put away in 2,048 bytes and taken up later, on another tablet too: gj_store, gj_load.
 *
 * Names: the project is Idfulzekt, what it offers is called gauss_jackson (this header, libgauss_jackson.a, the Rust crate), gj_ stands
 * before each of its names in C, and `app` is only the crate of the source that exports them.
 *
 * Units: any that go together. The default step of 60 means a minute if times are seconds; then km, km/s and km/s^2, or m, m/s and m/s^2.
 *
 * The library, measured by tests/symbols/run and tests/stack/run: x86-64 Linux, System V calls, position-independent; needs memcpy and
 * memset and nothing else; has no data of its own, so threads may call it at the same time on runs of their own; exports gj_* alone.
 * Nothing is allocated. A call takes at most 32 KiB of stack: at last count an answer 24,744 bytes in the startup and 18,040 afterwards, a
 * start 6,984, a whole-second start 8,104, an open question 3,864, a storing 5,288, a loading 10,280, a forecast or an interpolation under
 * 500. (Where the program's loader looks for memcpy only when it is first called, that call takes some 3,000 more.)
 *
 * What the caller owes, since no proof reaches it:
 *   - every pointer points to memory of the size said here, aligned to 8 bytes (bytes of a stored form may stand anywhere), which nobody
 *     else uses during the call;
 *   - a count is the true count of numbers, or bytes, behind its pointer; where it is 0 the pointer is not looked at, and may be null;
 *   - two arguments of one call never overlap, save where both are only read;
 *   - the floating-point environment that a C program starts with: round to nearest, subnormals on, exceptions masked. (A program that is
 *     linked with -ffast-math may start with subnormals off.)
 * Beyond valid pointers and counts, and that environment, every value is allowed: NaN, infinities, ended and made-up runs, any byte in
 * the settings, any bytes as a stored form. Each has its answer. No machine checks this file against the library's source; tests/abi/run
 * compares the two.
 *
 * What surprises:
 *   - The force is asked at times outside the span, and not in order: the startup asks from t0-4h to t0+4h (backward too: up to t0+4h, h
 *     being the step's size), on, back and across again. Drag tables and ephemerides must reach four steps to the other side of t0.
 *   - A step that is too long is not noticed: the run ends as told, and the orbit is wrong. README has a table.
 */
#ifndef GAUSS_JACKSON_H
#define GAUSS_JACKSON_H

#if !defined(GJ_ANY_PLATFORM) && \
    !(defined(__x86_64__) && defined(__LP64__) && defined(__linux__) && __BYTE_ORDER__ == __ORDER_LITTLE_ENDIAN__)
#error "gauss_jackson: the library is for 64-bit x86-64 Linux alone. GJ_ANY_PLATFORM lets this header through, for reading or for tests."
#endif

#include <stddef.h>
#include <stdint.h>

/* The version, and the number of what is laid down between header and library: it goes up when a size, a place or a call changes. Each is
 * set here alone. Calls that are added change nothing for programs built before, so the number stays; a program that uses one does not
 * link with an older library: "undefined reference to gj_store", or from 0.7.0 on to gj_forecast. A refusal that is added is a number for
 * which an older header has no name: 12, from 0.4.0 on; 13 and 14, from 0.7.0 on, which only the calls of that version give.
 *
 * GJ_ABI is 3 from 0.8.0 on: an answer names the sample that its room begins at, and each reply tells how many samples the call stored, in
 * a field that stands before `kind`. A program built with an older header would hand its buffer over as that number, and find a reply
 * written past its end. So it does not link: "undefined reference to gj_abi_2". With 0 for the new argument it does what it did.
 * It was 2 from 0.5.0 on, where an interpolation began to tell the acceleration too: nine numbers a time, GJ_BETWEEN_NUMBERS, not six. */
#define GJ_VERSION "0.8.0"
#define GJ_ABI 3

#ifdef __cplusplus
#define GJ_HOLDS(fact, said) static_assert(fact, said)
extern "C" {
#else
#define GJ_HOLDS(fact, said) _Static_assert(fact, said)
#endif
#define GJ_SIZE(type, size) GJ_HOLDS(sizeof(type) == (size), #type " takes " #size " bytes")
#define GJ_AT(type, field, offset) GJ_HOLDS(offsetof(type, field) == (offset), #type "." #field " stands at " #offset)

/* Kinds of reply. */
enum {
    GJ_ASK = 0,     /* a question: number, t, r, v */
    GJ_DONE = 1,    /* the finished state: t, r, v, evals, steps, startup_iters */
    GJ_REFUSED = 2  /* a refusal: its number */
};

#include "gauss_jackson_refusals.h" /* 1 to 19, by name and in words: gj_refusal_text */

/* Limits of the settings. */
enum {
    GJ_MAX_PASSES = 100,     /* for max_corrector_iters and for max_startup_iters */
    GJ_MAX_STEPS = 1000000   /* for max_steps */
};

enum {
    GJ_SAMPLE_NUMBERS = 10,   /* t, r.x r.y r.z, v.x v.y v.z, a.x a.y a.z */
    GJ_BETWEEN_NUMBERS = 9,   /* what an interpolation writes a time: r.x r.y r.z, v.x v.y v.z, a.x a.y a.z */
    GJ_STORED_SIZE = 2048     /* bytes of a run that is put away */
};

/* A position, a velocity or an acceleration. */
typedef struct gj_triple {
    double x, y, z;
} gj_triple;
GJ_SIZE(gj_triple, 24);
GJ_AT(gj_triple, y, 8);
GJ_AT(gj_triple, z, 16);

/* What the caller chooses. The step's sign does not count: the run goes from t0 towards tf. A tolerance of zero or less makes every pass. The
 * size of a triple is the root of the mean of its squares; from some 1e154 on squares overflow, and a size is infinite. */
typedef struct gj_settings {
    double h;                      /* the step: 60 by default */
    double corrector_tol;          /* 1e-13: a step's corrections stop where size(change)/(size(new) + 1e-30) is below it, for r and v */
    double startup_tol;            /* 1e-13: the startup stops where the largest size of a change, over that of an acceleration, is below it */
    uint64_t max_corrector_iters;  /* 2, at most 100 */
    uint64_t max_startup_iters;    /* 12, at most 100 */
    uint64_t max_steps;            /* 1,000,000, at most 1,000,000 */
    uint8_t samples;               /* 0: no samples, and the sample buffer is not looked at; 1: samples; above 1 is refusal 5 */
} gj_settings;
GJ_SIZE(gj_settings, 56);
GJ_AT(gj_settings, h, 0);
GJ_AT(gj_settings, corrector_tol, 8);
GJ_AT(gj_settings, startup_tol, 16);
GJ_AT(gj_settings, max_corrector_iters, 24);
GJ_AT(gj_settings, max_startup_iters, 32);
GJ_AT(gj_settings, max_steps, 40);
GJ_AT(gj_settings, samples, 48);

/* What a call tells. What its kind has no use for is zero; `stored` is told with every kind. */
typedef struct gj_reply {
    double t;
    gj_triple r;
    gj_triple v;
    uint64_t evals;          /* answers accepted, in the finished state */
    uint64_t steps;          /* steps made */
    uint64_t startup_iters;  /* startup passes made */
    uint64_t stored;         /* samples that this call stored: 0, 1 or 5, and 0 of a call that is no answer. Their sum is the next one's number */
    uint32_t kind;           /* GJ_ASK, GJ_DONE or GJ_REFUSED */
    uint16_t refusal;        /* 1 to 14, by the names above */
    uint16_t number;         /* the question's number: answer under it; after 65,535 comes 0 */
} gj_reply;
GJ_SIZE(gj_reply, 96);
GJ_AT(gj_reply, t, 0);
GJ_AT(gj_reply, r, 8);
GJ_AT(gj_reply, v, 32);
GJ_AT(gj_reply, evals, 56);
GJ_AT(gj_reply, steps, 64);
GJ_AT(gj_reply, startup_iters, 72);
GJ_AT(gj_reply, stored, 80);
GJ_AT(gj_reply, kind, 88);
GJ_AT(gj_reply, refusal, 92);
GJ_AT(gj_reply, number, 94);

#include "gauss_jackson_run.h" /* gj_run: 1,056 bytes of plain data */

/* The module's values: one-minute steps, no samples. */
gj_settings gj_default_settings(void);

/* A start: question 0, or refusal 5, 12 or 1, in this order. `run` is the caller's and need not be set before; it is written whole. */
gj_reply gj_start(gj_run *run, gj_settings settings, double t0, double tf, gj_triple r0, gj_triple v0);

#include "gauss_jackson_whole.h" /* gj_forecast and gj_start_whole: what a run of whole numbers takes, told beforehand */

/* The answer to question `number`: the acceleration `a` at the question's time, position and velocity. The run moves on
 * where it stands. Refusals 7, 8, 6, 2, judged in this order. An answer exactly 65,536 questions late has the open question's number and
 * is not noticed.
 *
 * `out` is the room for samples, `count` its numbers, and `from` the number of the sample that it begins at. It is the caller's, lent for
 * the call. With samples, sample n goes to the ten numbers from 10(n - from) on, counted from `out`, and nothing else of it is written.
 * Samples 0 to 4 come with the last answer of the startup, then one a step. Numbers written by earlier calls are never read, and the run
 * keeps nothing of the room: each call may lend another, and begin it elsewhere.
 *   - One room for all samples: lend it with from = 0 at every call. A run of K steps fills K+1 samples, so 10(K+1) numbers are enough.
 *     For whole-number times K is the span over the step, rounded up: gj_forecast tells it.
 *   - A small room, used again: fifty numbers that begin at the number of samples stored so far. Whatever is due fits at every call, and
 *     what a call stored stands at its beginning, reply.stored samples of it. Look at them before the kind: the last ones come with the
 *     finished state, or with refusal 2.
 *
 *         double room[5 * GJ_SAMPLE_NUMBERS];
 *         uint64_t so_far = 0;
 *         while (reply.kind == GJ_ASK) {
 *             reply = gj_answer(&run, reply.number, force(reply.t, reply.r, reply.v), so_far, room, 5 * GJ_SAMPLE_NUMBERS);
 *             ... samples so_far to so_far + reply.stored - 1 stand in room ...
 *             so_far += reply.stored;
 *         }
 *
 *   - A sample before `from` has no place: where one is due, or not all that are due fit, it is refusal 6. */
gj_reply gj_answer(gj_run *run, uint16_t number, gj_triple a, uint64_t from, double *out, size_t count);

/* The question that the run waits for, once more, or refusal 7. The run is only read. */
gj_reply gj_open_question(const gj_run *run);

/* The run, put away: GJ_STORED_SIZE bytes to `out`, for a file. Gives 0; or refusal 7, then 10, and `out` is untouched. The run is only
 * read, and may go on.
 *
 *     uint8_t form[GJ_STORED_SIZE];
 *     if (gj_store(&run, form, sizeof form) == 0) ... write the form to a file ...
 *     ...
 *     gj_run run = {0};                                      -- an ended run, where the app holds none yet
 *     gj_reply reply = gj_load(&run, form, bytes_read);      -- GJ_ASK: the open question; go on as after a start
 *
 * Samples are not in the form, nor where a room begins: the app keeps its sample buffer itself and lends it again, or another one of the
 * same room; with a small one it keeps the number of samples stored so far beside the form. The bytes are
 * little-endian and the same on every tablet; docs/STORED.md has each of them, and later versions take them too. Every NaN is stored as
 * 0x7ff8000000000000, whatever its bits were; all other floats by their bits.
 *
 * A crash while the file is written is the app's affair. Written safely, the old form or the new one stands, whole: write to a new file
 * beside the old one, flush it to the disk (fsync), then rename it over the old one. examples/c/away.c does so. A power cut right after
 * may bring the old one back, unless the folder is flushed too. */
uint32_t gj_store(const gj_run *run, uint8_t *out, size_t out_bytes);

/* The run that was put away, taken up: GJ_ASK with its open question, and *run is that run. The same questions follow as if it had never
 * been put away, and the same bits. Or refusal 10, then 11: *run is then as it was, so that a damaged file costs no run that the app
 * holds; where it holds none, begin with an ended one, gj_run run = {0}. `bytes` are only read.
 *   - An older form drops the answers accepted since: they no longer count, and are asked again.
 *   - A block's check is a sum, no signature: it finds accidents, not forgers. Any one changed word is found, two that changed places not.
 *   - Blocks mixed from several storings may load unnoticed. They are then a run of their own, of which nothing is promised but the rules of
 *     each single answer.
 *   - Stored again at once, a loaded form gives the same bytes, NaN aside: other patterns of NaN than the one above come back as that. */
gj_reply gj_load(gj_run *run, const uint8_t *bytes, size_t bytes_count);

/* Position, velocity and acceleration at time t between the samples: GJ_BETWEEN_NUMBERS to `out`, and nothing past them. `samples` has `n`
 * numbers, ten a sample, as gj_answer wrote them; `out` has room for `m`. Gives 0, or refusal 9, 3 or 4, and then nothing is written. A NaN
 * time gives nine NaN. All three are read off one quintic, which holds the acceleration less well than the position: in a low orbit by steps
 * of 60 s it is off by up to 1e-7 m/s^2 (1.2e-8 of itself), the position by 2e-5 m. README has a table.
 * It looks at the samples one after the other from the first, at six instructions each, so on a long table a late time is dear (three
 * million at the end of a year of minutes): pass the part of the table around the time, two samples are enough, or take the batch. */
uint32_t gj_interpolate(double t, const double *samples, size_t n, double *out, size_t m);

/* The same for `k` times, in the order in which the run went: GJ_BETWEEN_NUMBERS a time, the first of them for the first time. Nothing is
 * written unless every time lies within the samples. The search goes once through the table and never back: a time out of order gets a
 * meaningless number, read off a later curve, and no refusal. Sort the times first. */
uint32_t gj_interpolate_batch(const double *times, size_t k, const double *samples, size_t n, double *out, size_t m);

#include "gauss_jackson_help.h" /* that this header and the library linked are of one GJ_ABI */

#undef GJ_AT
#undef GJ_SIZE
#undef GJ_HOLDS

#ifdef __cplusplus
}
#endif

#endif
