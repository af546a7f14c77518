/* SPDX-License-Identifier: MIT OR Apache-2.0 */
/* What the parts of the test share: a check that is counted, and one that names what failed. */
#ifndef ABI_H
#define ABI_H

#include "gauss_jackson.h"

#include <stdio.h>
#include <string.h>

extern int checks, failures;

static inline void check(int holds, const char *what) {
    checks++;
    if (holds) return;
    failures++;
    printf("FAILED: %s\n", what);
}

/* 0 to 8 in steps of 1, one pass each, tolerances 0, no samples: 57 answers. */
static inline gj_settings plain(void) {
    gj_settings s = {1.0, 0.0, 0.0, 1, 1, 1000000, 0};
    return s;
}

/* Answers every question by a = -r, up to `most` answers. */
static inline gj_reply play(gj_run *run, gj_reply reply, double *out, size_t count, int most) {
    for (; most > 0 && reply.kind == GJ_ASK; most--) {
        gj_triple a = {-reply.r.x, -reply.r.y, -reply.r.z};
        reply = gj_answer(run, reply.number, a, 0, out, count);
    }
    return reply;
}

/* Field by field, by their bits: padding is nobody's. There is none after that of the settings. */
static inline int same_run(const gj_run *one, const gj_run *other) {
    const gj_mark *m = &one->mark, *n = &other->mark;
    const char *body = (const char *)&one->body, *other_body = (const char *)&other->body;
    size_t fields = offsetof(gj_settings, samples) + 1, rest = offsetof(gj_plan, t0);
    return m->at == n->at && m->index == n->index && m->stage == n->stage && m->count.number == n->count.number &&
           m->count.evals == n->count.evals && memcmp(body, other_body, fields) == 0 &&
           memcmp(body + rest, other_body + rest, sizeof(gj_body) - rest) == 0;
}

/* Runs of two starts are written over memory filled with these; where a byte of either has changed, a start has written. */
enum { LOW_FILL = 0x11, HIGH_FILL = 0xEE };

static inline size_t extent_of(const unsigned char *low, const unsigned char *high, size_t count) {
    size_t last = 0;
    for (size_t i = 0; i < count; i++)
        if (low[i] != LOW_FILL || high[i] != HIGH_FILL) last = i + 1;
    return last;
}

/* Whether a refusal has this number; 16 to 18 are nobody's yet. */
static inline int is_named(unsigned number) { return (1 <= number && number <= GJ_TOO_LOW) || number == GJ_INPUT_LINE; }

static inline int refused(gj_reply reply, int refusal) { return reply.kind == GJ_REFUSED && reply.refusal == refusal; }

/* Refused, and the reply says nothing else. */
static inline int refused_alone(gj_reply reply, int refusal) {
    gj_reply alone;
    memset(&alone, 0, sizeof alone);
    alone.kind = GJ_REFUSED, alone.refusal = (uint16_t)refusal;
    return memcmp(&reply, &alone, sizeof alone) == 0;
}

void layout_of_settings(void);
void layout_of_replies(void);
void layout_of_costs(void);
void layout_of_runs(void);
void results(void);
void rooms(void);
void promises(void);
void between(void);
void stored_refusals(void);
void stored_runs(void);
void whole_starts(void);
void whole_runs(void);
int wrapper_failures(void);
int wrapper_says(uint16_t number, const char *text);
size_t wrapper_between_numbers(void);
size_t wrapper_sample_numbers(void);
size_t wrapper_stored_size(void);

#endif
