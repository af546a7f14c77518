/* SPDX-License-Identifier: MIT OR Apache-2.0 */
/* Where the library keeps each field of a run. Whether a field means what the header says is seen by what stands there at a known
 * waiting point, and, for the sums of an open step, by what a change of it does to the next question. */
#include "abi.h"

#include <string.h>

static int same(gj_triple a, double x, double y, double z) { return a.x == x && a.y == y && a.z == z; }

static void check_mark(const gj_run *run, int at, int index, int stage, unsigned evals, const char *what) {
    const gj_mark *m = &run->mark;
    check(m->at == at && m->index == index && m->stage == stage, what);
    check(m->count.number == evals % 65536 && m->count.evals == evals, what);
}

/* A start writes the whole run and nothing past it: over two patterns it leaves the same bytes, padding aside. */
static void extent_of_a_run(void) {
    unsigned char low[2000], high[2000];
    gj_triple r0 = {1, 2, 3};
    memset(low, LOW_FILL, sizeof low);
    memset(high, HIGH_FILL, sizeof high);
    gj_start((gj_run *)low, plain(), 0.0, 8.0, r0, r0);
    gj_start((gj_run *)high, plain(), 0.0, 8.0, r0, r0);
    check(extent_of(low, high, sizeof low) == sizeof(gj_run), "a start writes as far as gj_run goes");
}

/* The waiting points of a startup, and what each has kept. Steps of 2, no force: places are on a line. */
static void along_the_startup(gj_run *run) {
    gj_settings s = plain();
    gj_triple r0 = {16, 32, 64}, v0 = {0.5, 0.25, 0.125}, zero = {0, 0, 0}, odd = {1, 5, 7};
    s.h = -2.0;
    gj_reply reply = gj_start(run, s, 10.0, 29.0, r0, v0);
    check_mark(run, 1, 0, 0, 0, "the epoch is open");
    check(run->body.plan.t0 == 10.0 && run->body.plan.tf == 29.0 && run->body.plan.h == 2.0, "t0, tf, h");
    check(run->body.plan.settings.h == -2.0, "the setting's own h");
    check(same(run->body.places.r[4], 16, 32, 64) && same(run->body.places.v[4], 0.5, 0.25, 0.125), "the epoch's place");
    reply = gj_answer(run, reply.number, odd, 0, 0, 0);
    check_mark(run, 2, 4, 0, 1, "RK4 on, first question");
    check(same(run->body.a[4], 1, 5, 7), "the epoch's acceleration");
    for (int i = 0; i < 3; i++) {
        odd.x += 10;
        reply = gj_answer(run, reply.number, odd, 0, 0, 0);
        check_mark(run, 2, 4, i + 1, 2 + i, "RK4 on, further questions");
        check(same(run->body.slopes[i], odd.x, 5, 7), "RK4's accelerations");
    }
    for (int i = 4; i < 17; i++) reply = gj_answer(run, reply.number, zero, 0, 0, 0);
    check_mark(run, 3, 4, 0, 17, "RK4 back");
    for (int i = 17; i < 33; i++) reply = gj_answer(run, reply.number, zero, 0, 0, 0);
    check_mark(run, 4, 0, 0, 33, "first accelerations");
    odd = (gj_triple){-1, 3, 9};
    for (int i = 33; i < 41; i++) reply = gj_answer(run, reply.number, odd, 0, 0, 0);
    check_mark(run, 5, 0, 0, 41, "a startup pass");
    check(same(run->body.a[0], -1, 3, 9) && same(run->body.a[8], -1, 3, 9), "the accelerations of points 0 and 8");
    check(run->body.delta == 0.0 && run->body.mag == 5.0, "a pass begins with the epoch's own size");
    gj_answer(run, reply.number, (gj_triple){1, 5, 11}, 0, 0, 0);
    check(run->body.delta == 2.0 && run->body.mag == 7.0, "the largest change and size so far");
}

/* After a startup without force: s = v/h, S = r/h², both walked on four points. */
static gj_reply to_the_first_step(gj_run *run) {
    gj_settings s = plain();
    gj_triple r0 = {16, 32, 64}, v0 = {0.5, 0.25, 0.125}, zero = {0, 0, 0};
    s.h = 2.0;
    gj_reply reply = gj_start(run, s, 10.0, 29.0, r0, v0);
    for (int i = 0; i < 49; i++) reply = gj_answer(run, reply.number, zero, 0, 0, 0);
    return reply;
}

static void at_the_first_step(gj_run *run) {
    to_the_first_step(run);
    const gj_body *b = &run->body;
    check_mark(run, 6, 0, 0, 49, "a step");
    check(b->startup_iters == 1 && b->track.steps == 4 && b->track.t == 18.0, "passes, steps, time");
    check(same(b->track.state.r, 20, 34, 65) && same(b->track.state.v, 0.5, 0.25, 0.125), "the newest state");
    check(same(b->track.s, 0.25, 0.125, 0.0625) && same(b->track.big_s, 5, 8.5, 16.25), "the running sums");
    check(same(b->trial.state.r, 21, 34.5, 65.25) && same(b->trial.state.v, 0.5, 0.25, 0.125), "the prediction");
}

/* A change of FA by 1 moves the corrected position by h², one of FB the velocity by h. */
static void sums_of_a_step(void) {
    gj_run run, changed;
    gj_triple zero = {0, 0, 0};
    gj_reply open = to_the_first_step(&run);
    changed = run;
    changed.body.trial.fa.y += 1.0;
    changed.body.trial.fb.z += 1.0;
    gj_reply before = gj_answer(&run, open.number, zero, 0, 0, 0);
    gj_reply after = gj_answer(&changed, open.number, zero, 0, 0, 0);
    check(same(after.r, before.r.x, before.r.y + 4.0, before.r.z), "FA reaches the position");
    check(same(after.v, before.v.x, before.v.y, before.v.z + 2.0), "FB reaches the velocity");
    check(run.mark.at == 6 && run.mark.index == 1, "a step after one correction");
}

/* The last step is short: the tail, and with samples its own question. */
static void at_the_tail(void) {
    gj_run run;
    double out[110];
    gj_settings s = plain();
    gj_triple r0 = {1, 2, 3};
    s.h = 2.0, s.samples = 1;
    play(&run, gj_start(&run, s, 0.0, 17.0, r0, r0), out, 110, 59);
    check_mark(&run, 7, 0, 2, 59, "the tail's third question");
    play(&run, gj_open_question(&run), out, 110, 2);
    check_mark(&run, 8, 0, 0, 61, "the tail's sample");
    check(play(&run, gj_open_question(&run), out, 110, 1).kind == GJ_DONE, "the end");
    check_mark(&run, 0, 0, 0, 0, "an ended run");
}

void layout_of_runs(void) {
    gj_run run;
    extent_of_a_run();
    along_the_startup(&run);
    at_the_first_step(&run);
    sums_of_a_step();
    at_the_tail();
}
