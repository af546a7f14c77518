/* SPDX-License-Identifier: MIT OR Apache-2.0 */
/* Plays the kept runs and prints a form of each, with what it loads to; a line `form NAME` begins each. */
#include "runs.h"

#include <math.h>
#include <stdio.h>
#include <string.h>

static uint64_t bits_of(double x) {
    uint64_t bits;
    memcpy(&bits, &x, sizeof bits);
    return isnan(x) ? 0x7ff8000000000000 : bits;
}

static gj_triple force(const struct kept_run *run, const gj_reply *q) {
    gj_triple a = {run->pull * q->r.x, run->pull * q->r.y, run->pull * q->r.z};
    if (run->broken && q->number > 32 && q->number % 7 == 3) a.x = NAN;
    if (run->broken && q->number > 32 && q->number % 11 == 5) a.y = INFINITY;
    return a;
}

static void print_float(double x) { printf(" %016llx", (unsigned long long)bits_of(x)); }

static void print_triple(const char *word, gj_triple t) {
    printf("%s", word);
    print_float(t.x);
    print_float(t.y);
    print_float(t.z);
    printf("\n");
}

static void print_counts(const char *word, uint64_t a, uint64_t b, uint64_t c) {
    printf("%s %llu %llu %llu\n", word, (unsigned long long)a, (unsigned long long)b, (unsigned long long)c);
}

static void print_numbers(const gj_run *run, const gj_reply *q) {
    const gj_settings *s = &run->body.plan.settings;
    printf("point %u %u %u\n", run->mark.at, run->mark.index, run->mark.stage);
    printf("number %u\n", q->number);
    printf("samples %u\n", s->samples);
    print_counts("limits", s->max_corrector_iters, s->max_startup_iters, s->max_steps);
    print_counts("made", run->body.startup_iters, run->body.track.steps, run->mark.count.evals);
    printf("t");
    print_float(q->t);
    printf("\n");
    print_triple("r", q->r);
    print_triple("v", q->v);
}

static void print_bytes(const uint8_t *form) {
    for (int i = 0; i < GJ_STORED_SIZE; i++) {
        if (i % 32 == 0) printf("bytes ");
        printf("%02x", form[i]);
        if (i % 32 == 31) printf("\n");
    }
}

static uint32_t word_at(const uint8_t *at) { return at[0] | (uint32_t)at[1] << 8 | (uint32_t)at[2] << 16 | (uint32_t)at[3] << 24; }

static void put_word(uint8_t *at, uint32_t word) {
    for (int i = 0; i < 4; i++) at[i] = (uint8_t)(word >> (8 * i));
}

/* The same form as a writer with other NaN leaves it: sign and payload of each NaN changed, the checks right. Gives how many there were. */
static int other_nans(uint8_t *form) {
    int count = 0;
    for (int b = 0; b < 4; b++) {
        uint8_t *block = form + 512 * b;
        for (int w = 1; w < 126; w++)
            if (word_at(block + 4 * w) == 0 && word_at(block + 4 * w + 4) == 0x7ff80000) {
                put_word(block + 4 * w, 0x1234 + (uint32_t)count);
                put_word(block + 4 * w + 4, count % 2 ? 0xfff80000 : 0x7ff00000);
                count++;
            }
        uint32_t check = 1;
        for (int w = 0; w < 127; w++) check += word_at(block + 4 * w);
        put_word(block + 508, check);
    }
    return count;
}

/* Gives 0 where the run does not wait after so many answers. */
static int print_form(const struct kept_run *kept, int other_nan) {
    static double room[400];
    uint8_t form[GJ_STORED_SIZE];
    gj_run run;
    gj_reply q = gj_start(&run, kept->settings, kept->t0, kept->tf, kept->r, kept->v);
    for (unsigned long n = 0; n < kept->answers && q.kind == GJ_ASK; n++) q = gj_answer(&run, q.number, force(kept, &q), 0, room, 400);
    if (gj_store(&run, form, sizeof form) != 0 || gj_load(&run, form, sizeof form).kind != GJ_ASK) return 0;
    if (other_nan && other_nans(form) == 0) return 0;
    printf("form %s%s\n# %s%s.\n", kept->name, other_nan ? "-other" : "", kept->what, other_nan ? "; its NaN have other signs and payloads" : "");
    print_numbers(&run, &q);
    if (other_nan) printf("again %s\n", kept->name);
    print_bytes(form);
    return 1;
}

int main(void) {
    for (size_t i = 0; i < sizeof kept_runs / sizeof kept_runs[0]; i++) {
        int made = print_form(&kept_runs[i], 0) && (!kept_runs[i].broken || print_form(&kept_runs[i], 1));
        if (made) continue;
        fprintf(stderr, "no form of %s\n", kept_runs[i].name);
        return 1;
    }
    return 0;
}
