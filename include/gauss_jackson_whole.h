/* SPDX-License-Identifier: MIT OR Apache-2.0 */
/* Part of gauss_jackson.h: the whole-second profile.
 *
 * Where t0, tf and the step are whole numbers (-0.0 is one), t0 and tf at most GJ_FARTHEST in size, the step from 1 to GJ_LONGEST_STEP in
 * size, a run's cost is known beforehand. What is accepted always finishes: at tf exactly, in cost.steps steps, after cost.least to
 * cost.most answers, whatever the force says, if every answer is under the question's number and brings room for the samples due: a room
 * of cost.numbers numbers from sample 0 on, or a small one that begins at the next sample (gj_answer).
 *
 *     gj_cost_reply told = gj_forecast(settings, t0, tf);                        -- for the text beside the button
 *     ...
 *     gj_whole_reply begun = gj_start_whole(&run, settings, t0, tf, r0, v0);     -- begun.reply: go on as after gj_start
 *     reply = gj_answer(&run, begun.reply.number, a, 0, samples, begun.cost.numbers);
 */
#ifndef GAUSS_JACKSON_WHOLE_H
#define GAUSS_JACKSON_WHOLE_H

/* Bounds of the whole-second profile, themselves within. */
#define GJ_FARTHEST 1125899906842624.0  /* 2^50: for t0 and tf, in size */
#define GJ_LONGEST_STEP 1000000000.0    /* 10^9: for the step, in size; the shortest is 1 */

/* What a run of whole numbers takes, known before it is begun. */
typedef struct gj_cost {
    uint64_t steps;    /* steps that it makes */
    uint64_t samples;  /* samples in all, which a room from sample 0 on must hold: steps + 1; 0 where none are wanted */
    uint64_t numbers;  /* the same room in numbers, GJ_SAMPLE_NUMBERS a sample: the `count` of gj_answer, with from = 0 */
    uint64_t least;    /* answers that it accepts, at least */
    uint64_t most;     /* and at most; met exactly where both tolerances are zero or less */
} gj_cost;
GJ_SIZE(gj_cost, 40);
GJ_AT(gj_cost, steps, 0);
GJ_AT(gj_cost, samples, 8);
GJ_AT(gj_cost, numbers, 16);
GJ_AT(gj_cost, least, 24);
GJ_AT(gj_cost, most, 32);

/* A forecast. */
typedef struct gj_cost_reply {
    gj_cost cost;      /* all zero with a refusal */
    uint32_t refusal;  /* 0, or 5, 12, 13, 1 or 14 */
} gj_cost_reply;
GJ_SIZE(gj_cost_reply, 48);
GJ_AT(gj_cost_reply, cost, 0);
GJ_AT(gj_cost_reply, refusal, 40);

/* What a whole-second start tells: question 0 and the cost, or a refusal. */
typedef struct gj_whole_reply {
    gj_reply reply;
    gj_cost cost;  /* all zero with a refusal */
} gj_whole_reply;
GJ_SIZE(gj_whole_reply, 136);
GJ_AT(gj_whole_reply, reply, 0);
GJ_AT(gj_whole_reply, cost, 96);

/* The cost alone, without a run. Refusals 5, 12, 13, 1, 14, in this order: those that gj_start_whole would give to the same values. */
gj_cost_reply gj_forecast(gj_settings settings, double t0, double tf);

/* A start in this profile: question 0 and the cost, or refusal 5, 12, 13, 1 or 14, in this order. Accepted, *run is the run that gj_start
 * makes of the same values, with the same questions; refused, an ended one. A plain start takes every start that this one takes. */
gj_whole_reply gj_start_whole(gj_run *run, gj_settings settings, double t0, double tf, gj_triple r0, gj_triple v0);

#endif
