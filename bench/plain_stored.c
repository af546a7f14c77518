/* SPDX-License-Identifier: MIT OR Apache-2.0 */
/* A run put away and taken up in plain C: W-201's form and its refusals, part by part of the run. What an engineer would write by hand,
 * so a measure of what the proved way costs. */
#include "bench.h"
#include "plain_open.h"

#include <string.h>

/* ---- four blocks of bytes, and their content */
enum { BLOCKS = 4, WORDS = 126, CONTENT = BLOCKS * WORDS, BLOCK_BYTES = 4 * (1 + WORDS + 1) };

static void put_word(uint8_t *to, uint32_t w) {
    to[0] = (uint8_t)w, to[1] = (uint8_t)(w >> 8), to[2] = (uint8_t)(w >> 16), to[3] = (uint8_t)(w >> 24);
}

static uint32_t word_at(const uint8_t *from) {
    return from[0] | (uint32_t)from[1] << 8 | (uint32_t)from[2] << 16 | (uint32_t)from[3] << 24;
}

static void put_block(uint8_t *to, uint32_t b, const uint32_t *words) {
    uint32_t sum = 1 + b;
    put_word(to, b);
    for (int j = 0; j < WORDS; j++) {
        put_word(to + 4 + 4 * j, words[j]);
        sum += words[j];
    }
    put_word(to + 4 + 4 * WORDS, sum);
}

/* Whether the block has its number and its check. */
static bool get_block(const uint8_t *from, uint32_t b, uint32_t *words) {
    uint32_t sum = 1 + b;
    for (int j = 0; j < WORDS; j++) {
        words[j] = word_at(from + 4 + 4 * j);
        sum += words[j];
    }
    return word_at(from) == b && word_at(from + 4 + 4 * WORDS) == sum;
}

/* ---- the content: a head, 123 floats, counts; for the rest zeros */
enum { FORM, POINT, INDEX, STAGE, NUMBER, SAMPLES, FLOATS, COUNTS = FLOATS + 2 * 123 };
enum { MAX_CORRECTOR = COUNTS, MAX_STARTUP, MAX_STEPS, PASSES, MADE, EVALS };
/* Where the floats of each part begin. */
enum { R = 0, V = 27, A = 54, SLOPES = 81, STATE = 90, SUMS = 96, TRIAL = 102, WIDEST = 114, CLOCK = 116, SETTINGS = 117, PLAN = 120 };

/* `count` floats from float k on, which stand together in the body too. */
typedef struct part {
    int k, count;
    size_t at;
} part;

static const part SETTING = {SETTINGS, 3, offsetof(gj_body, plan.settings.h)}, SPAN = {PLAN, 3, offsetof(gj_body, plan.t0)},
                  WIDE = {WIDEST, 2, offsetof(gj_body, delta)}, TIME = {CLOCK, 1, offsetof(gj_body, track.t)},
                  NEWEST = {STATE, 6, offsetof(gj_body, track.state)}, RUNNING = {SUMS, 6, offsetof(gj_body, track.s)},
                  END = {TRIAL, 6, offsetof(gj_body, trial.state)}, OPEN_STEP = {TRIAL, 12, offsetof(gj_body, trial)};

/* Triples from .. to last of a row of them. */
static part triples(int k, size_t at, int from, int last) {
    return (part){k + 3 * from, 3 * (last - from + 1), at + from * sizeof(gj_triple)};
}

static part accelerations(int from, int last) { return triples(A, offsetof(gj_body, a), from, last); }
static part slopes(int n) { return triples(SLOPES, offsetof(gj_body, slopes), 0, n - 1); }

static part *places(part *p, int from, int last) {
    *p++ = triples(R, offsetof(gj_body, places.r), from, last);
    *p++ = triples(V, offsetof(gj_body, places.v), from, last);
    return p;
}

/* The floats that a waiting point uses, in at most MANY parts; how many parts. */
enum { MANY = 6 };
static int parts_of(const gj_mark *mark, part *parts) {
    part *p = parts;
    int i = mark->index, first = i < 4 ? i : 4;
    *p++ = SETTING, *p++ = SPAN;
    switch (mark->at) {
    case EPOCH: p = places(p, 4, 4); break;
    case FORWARD: p = places(p, 4, i), *p++ = accelerations(4, 4), *p++ = slopes(mark->stage); break;
    case BACKWARD: p = places(p, i, 8), *p++ = accelerations(4, 4), *p++ = slopes(mark->stage); break;
    case SURVEY:
        p = places(p, first, 8), *p++ = accelerations(0, i - 1);
        if (i < 4) *p++ = accelerations(4, 4);
        break;
    case PASS: p = places(p, first, 8), *p++ = accelerations(0, 8), *p++ = WIDE; break;
    case STEP: *p++ = accelerations(1, 8), *p++ = TIME, *p++ = RUNNING, *p++ = OPEN_STEP; break;
    case TAIL: *p++ = slopes(mark->stage), *p++ = TIME, *p++ = NEWEST; break;
    case TAIL_SAMPLE: *p++ = END; break;
    }
    return (int)(p - parts);
}

static bool has_index(unsigned at) { return FORWARD <= at && at <= STEP; }
static bool has_stage(unsigned at) { return at == FORWARD || at == BACKWARD || at == TAIL; }

/* ---- away */
static void put_floats(uint32_t *content, const part *p, const gj_body *b) {
    for (int i = 0; i < p->count; i++) {
        double x;
        uint64_t bits = 0x7ff8000000000000; /* every NaN */
        memcpy(&x, (const char *)b + p->at + i * sizeof x, sizeof x);
        if (x == x) memcpy(&bits, &x, sizeof bits);
        content[FLOATS + 2 * (p->k + i)] = (uint32_t)bits;
        content[FLOATS + 2 * (p->k + i) + 1] = (uint32_t)(bits >> 32);
    }
}

static void put_content(uint32_t *content, const gj_mark *mark, const gj_body *b) {
    const gj_settings *s = &b->plan.settings;
    part parts[MANY];
    int n = parts_of(mark, parts);
    content[FORM] = 1, content[POINT] = mark->at, content[NUMBER] = mark->count.number, content[SAMPLES] = s->samples;
    if (has_index(mark->at)) content[INDEX] = mark->index;
    if (has_stage(mark->at)) content[STAGE] = mark->stage;
    for (int i = 0; i < n; i++) put_floats(content, &parts[i], b);
    content[MAX_CORRECTOR] = (uint32_t)s->max_corrector_iters, content[MAX_STARTUP] = (uint32_t)s->max_startup_iters;
    content[MAX_STEPS] = (uint32_t)s->max_steps, content[PASSES] = (uint32_t)b->startup_iters;
    content[MADE] = (uint32_t)b->track.steps, content[EVALS] = (uint32_t)mark->count.evals;
}

uint32_t plain_store(const gj_run *run, uint8_t *out, size_t bytes) {
    if (!plain_is_sound(run)) return GJ_NO_QUESTION;
    if (bytes != GJ_STORED_SIZE) return GJ_STORED_SHAPE;
    uint32_t content[CONTENT] = {0};
    put_content(content, &run->mark, &run->body);
    for (uint32_t b = 0; b < BLOCKS; b++) put_block(out + BLOCK_BYTES * b, b, content + WORDS * b);
    return 0;
}

/* ---- and back. What is taken leaves zeros: what is left belongs to nothing, and must be zero. */
static uint32_t take(uint32_t *content, int j) {
    uint32_t w = content[j];
    content[j] = 0;
    return w;
}

static void take_floats(uint32_t *content, const part *p, gj_body *b) {
    for (int i = 0; i < p->count; i++) {
        uint64_t low = take(content, FLOATS + 2 * (p->k + i)), high = take(content, FLOATS + 2 * (p->k + i) + 1);
        uint64_t bits = low | high << 32;
        if ((bits & INT64_MAX) > 0x7ff0000000000000) bits = 0x7ff8000000000000; /* every NaN */
        memcpy((char *)b + p->at + i * sizeof bits, &bits, sizeof bits);
    }
}

/* False for another form, an unknown waiting point, and a number that its place in a run could not hold. */
static bool take_head(uint32_t *content, gj_mark *mark, gj_settings *s) {
    uint32_t form = take(content, FORM), at = take(content, POINT), number = take(content, NUMBER), samples = take(content, SAMPLES);
    uint32_t index = has_index(at) ? take(content, INDEX) : 0, stage = has_stage(at) ? take(content, STAGE) : 0;
    if (form != 1 || at < EPOCH || at > TAIL_SAMPLE || index > UINT8_MAX || stage > UINT8_MAX || number > UINT16_MAX || samples > 1) return false;
    mark->at = (uint8_t)at, mark->index = (uint8_t)index, mark->stage = (uint8_t)stage, mark->count.number = (uint16_t)number;
    s->samples = (uint8_t)samples;
    return true;
}

static void take_counts(uint32_t *content, gj_mark *mark, gj_body *b) {
    gj_settings *s = &b->plan.settings;
    s->max_corrector_iters = take(content, MAX_CORRECTOR), s->max_startup_iters = take(content, MAX_STARTUP);
    s->max_steps = take(content, MAX_STEPS), b->startup_iters = take(content, PASSES);
    b->track.steps = take(content, MADE), mark->count.evals = take(content, EVALS);
}

/* Whether the content is a run. No float can make it none, and by its index one knows which floats there are: so these come last. */
static bool take_content(uint32_t *content, gj_run *run) {
    part parts[MANY];
    uint32_t left = 0;
    if (!take_head(content, &run->mark, &run->body.plan.settings)) return false;
    take_counts(content, &run->mark, &run->body);
    if (!plain_is_sound(run)) return false;
    int n = parts_of(&run->mark, parts);
    for (int i = 0; i < n; i++) take_floats(content, &parts[i], &run->body);
    for (int j = 0; j < CONTENT; j++) left |= content[j];
    return left == 0;
}

static gj_reply refused(uint16_t refusal) { return (gj_reply){.kind = GJ_REFUSED, .refusal = refusal}; }

gj_reply plain_load(gj_run *run, const uint8_t *in, size_t bytes) {
    uint32_t content[CONTENT];
    gj_run taken = {0};
    if (bytes != GJ_STORED_SIZE) return refused(GJ_STORED_SHAPE);
    for (uint32_t b = 0; b < BLOCKS; b++)
        if (!get_block(in + BLOCK_BYTES * b, b, content + WORDS * b)) return refused(GJ_STORED_SHAPE);
    if (!take_content(content, &taken)) return refused(GJ_STORED_CONTENT);
    *run = taken;
    return plain_question(run);
}
