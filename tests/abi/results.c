/* SPDX-License-Identifier: MIT OR Apache-2.0 */
/* What the calls give through the header: counts and refusals that document 01 names, buffers with and without room. */
#include "abi.h"

#include <string.h>

static gj_reply from_to(gj_run *run, gj_settings s, double t0, double tf) {
    gj_triple r0 = {1, 2, 3}, v0 = {0, 1, 0};
    return gj_start(run, s, t0, tf, r0, v0);
}

static void check_count(gj_settings s, double tf, unsigned evals, unsigned steps, const char *what) {
    gj_run run;
    double out[200];
    gj_reply end = play(&run, from_to(&run, s, 0.0, tf), out, 200, 100000);
    check(end.kind == GJ_DONE && end.evals == evals && end.steps == steps && end.t == tf, what);
}

/* Which setting is which: each alone changes the count of answers in its own way. */
static void counts(void) {
    gj_settings s = plain();
    check_count(s, 8.0, 57, 8, "0 to 8: 57 answers");
    check_count(s, 9.0, 59, 9, "0 to 9: 59 answers");
    s.max_startup_iters = 3;
    check_count(s, 8.0, 73, 8, "two more startup passes: 16 more answers");
    s.startup_tol = 1e300;
    check_count(s, 8.0, 57, 8, "a wide startup tolerance: one pass");
    s = plain(), s.max_corrector_iters = 3;
    check_count(s, 8.0, 65, 8, "two more corrections: 2 more answers a step");
    s.corrector_tol = 1e300;
    check_count(s, 8.0, 53, 8, "a wide corrector tolerance: one answer a step");
    s = plain(), s.h = -2.0;
    check_count(s, 17.0, 61, 9, "0 to 17 by 2: 61 answers");
    s.samples = 1;
    check_count(s, 17.0, 62, 9, "with samples: 62 answers");
}

static void refusals_of_a_start(void) {
    gj_run run;
    gj_settings s = plain();
    check(refused(from_to(&run, s, 0.0, 7.0), GJ_STEP_NOT_FINITE), "7 steps: refusal 1");
    s.h = 0.0;
    check(refused(from_to(&run, s, 0.0, 8.0), GJ_STEP_NOT_FINITE), "no step: refusal 1");
    check(refused(gj_open_question(&run), GJ_NO_QUESTION), "a refused start leaves no question");
    s = plain(), s.max_corrector_iters = 101;
    check(refused(from_to(&run, s, 0.0, 8.0), GJ_SETTING), "101 corrections: refusal 5");
    s = plain(), s.max_startup_iters = 101;
    check(refused(from_to(&run, s, 0.0, 8.0), GJ_SETTING), "101 startup passes: refusal 5");
    s = plain(), s.max_steps = 1000001, s.h = 0.0;
    check(refused(from_to(&run, s, 0.0, 8.0), GJ_SETTING), "1,000,001 steps: refusal 5, before 1");
    s = plain(), s.max_corrector_iters = GJ_MAX_PASSES, s.max_startup_iters = GJ_MAX_PASSES, s.max_steps = GJ_MAX_STEPS;
    check(from_to(&run, s, 0.0, 8.0).kind == GJ_ASK, "settings at their limits are taken");
}

static void refusals_of_an_answer(void) {
    gj_run run, before;
    gj_triple a = {0, 0, 0};
    gj_settings s = plain();
    from_to(&run, s, 0.0, 8.0);
    before = run;
    check(refused(gj_answer(&run, 1, a, 0, 0, 0), GJ_NOT_THAT_QUESTION), "another number: refusal 8");
    check(memcmp(&run, &before, sizeof run) == 0, "refusal 8 leaves the run");
    run.body.startup_iters = 1;
    before = run;
    check(refused(gj_answer(&run, 0, a, 0, 0, 0), GJ_NO_QUESTION), "a made-up run: refusal 7");
    check(memcmp(&run, &before, sizeof run) == 0, "refusal 7 leaves the run");
    s.max_steps = 7;
    check(refused(play(&run, from_to(&run, s, 0.0, 8.0), 0, 0, 1000), GJ_MAX_STEPS_EXCEEDED), "max_steps 7: refusal 2");
    check(refused(gj_answer(&run, 0, a, 0, 0, 0), GJ_NO_QUESTION), "an ended run: refusal 7");
}

/* Nine samples fill ninety numbers; with one number less the last one is refused, with none the first five. */
static void sample_room(void) {
    gj_run run;
    double out[100];
    gj_settings s = plain();
    s.samples = 1;
    out[90] = 12345.0;
    check(play(&run, from_to(&run, s, 0.0, 8.0), out, 90, 1000).kind == GJ_DONE, "room for nine samples");
    check(out[0] == 0.0 && out[40] == 4.0 && out[80] == 8.0 && out[90] == 12345.0, "samples stand in tens, nothing past them");
    check(refused(play(&run, from_to(&run, s, 0.0, 8.0), out, 89, 1000), GJ_SAMPLE_ROOM), "one number short: refusal 6");
    check(refused(play(&run, from_to(&run, s, 0.0, 8.0), 0, 0, 1000), GJ_SAMPLE_ROOM), "no buffer at all: refusal 6");
    s.samples = 0;
    check(play(&run, from_to(&run, s, 0.0, 8.0), 0, 0, 1000).kind == GJ_DONE, "no buffer, no samples");
}

void results(void) {
    counts();
    refusals_of_a_start();
    refusals_of_an_answer();
    sample_room();
}
