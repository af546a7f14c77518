/* SPDX-License-Identifier: MIT OR Apache-2.0 */
/* Loads each kept form and compares what it loads to with what is written beside it; stores it again and compares the bytes. The table comes
 * from the files, by tests/forms/run. */
#include "gauss_jackson.h"

#include <stdio.h>
#include <string.h>

struct kept_form {
    const char *name, *again; /* stored again it is `again`'s bytes: its own, but for NaN patterns */
    unsigned point[3], number, samples;
    uint64_t limits[3], made[3], question[7];
    uint8_t bytes[GJ_STORED_SIZE];
};

static const struct kept_form kept_forms[] = {
#include "kept_forms.inc"
};
enum { COUNT = sizeof kept_forms / sizeof kept_forms[0], NOTHING = 0x5a };

static int failures;

static void check(int holds, const struct kept_form *form, const char *what) {
    if (holds) return;
    failures++;
    printf("FAILED: %s: %s\n", form->name, what);
}

/* Bits for bits, all NaN alike. */
static int same(double got, uint64_t want) {
    uint64_t bits, size = want & 0x7fffffffffffffff;
    memcpy(&bits, &got, sizeof bits);
    return bits == want || (got != got && size > 0x7ff0000000000000);
}

static int same_triple(gj_triple got, const uint64_t *want) { return same(got.x, want[0]) && same(got.y, want[1]) && same(got.z, want[2]); }

static void check_question(const struct kept_form *form, gj_reply q, const char *what) {
    int asks = q.kind == GJ_ASK && q.refusal == 0 && q.number == form->number;
    check(asks && same(q.t, form->question[0]) && same_triple(q.r, form->question + 1) && same_triple(q.v, form->question + 4), form, what);
}

static void check_run(const struct kept_form *form, const gj_run *run) {
    const gj_settings *s = &run->body.plan.settings;
    const gj_mark *m = &run->mark;
    check(m->at == form->point[0] && m->index == form->point[1] && m->stage == form->point[2], form, "the waiting point");
    check(m->count.number == form->number && s->samples == form->samples, form, "the number or the flag");
    const uint64_t limits[3] = {s->max_corrector_iters, s->max_startup_iters, s->max_steps};
    const uint64_t made[3] = {run->body.startup_iters, run->body.track.steps, m->count.evals};
    check(memcmp(limits, form->limits, sizeof limits) == 0, form, "the limits");
    check(memcmp(made, form->made, sizeof made) == 0, form, "the counts");
}

static const struct kept_form *find(const char *name) {
    for (int i = 0; i < COUNT; i++)
        if (strcmp(kept_forms[i].name, name) == 0) return &kept_forms[i];
    return 0;
}

static void check_stored_again(const struct kept_form *form, const gj_run *run) {
    const struct kept_form *again = find(form->again);
    uint8_t out[GJ_STORED_SIZE];
    memset(out, NOTHING, sizeof out);
    check(gj_store(run, out, sizeof out) == 0, form, "it is not stored again");
    check(again && memcmp(out, again->bytes, sizeof out) == 0, form, "stored again it has other bytes");
}

/* One bit less, and the form is refused; the run that was held stays. */
static void check_damaged(const struct kept_form *form, int at) {
    uint8_t damaged[GJ_STORED_SIZE];
    gj_run held, before;
    memcpy(damaged, form->bytes, sizeof damaged);
    damaged[at] ^= 0x10;
    memset(&held, NOTHING, sizeof held);
    before = held;
    gj_reply told = gj_load(&held, damaged, sizeof damaged);
    check(told.kind == GJ_REFUSED && told.refusal == 10, form, "damaged, it is not refused by 10");
    check(memcmp(&held.body, &before.body, sizeof held.body) == 0 && held.mark.at == NOTHING, form, "damaged, it takes the run that was held");
}

int main(void) {
    for (int i = 0; i < COUNT; i++) {
        const struct kept_form *form = &kept_forms[i];
        gj_run run;
        memset(&run, NOTHING, sizeof run);
        check_question(form, gj_load(&run, form->bytes, sizeof form->bytes), "the question that it loads to");
        check_question(form, gj_open_question(&run), "the question that is open afterwards");
        check_run(form, &run);
        check_stored_again(form, &run);
        check_damaged(form, (97 * i + 13) % GJ_STORED_SIZE);
    }
    printf("%d kept forms loaded, compared and stored again, %d checks failed\n", COUNT, failures);
    return failures != 0;
}
