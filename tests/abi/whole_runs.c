/* SPDX-License-Identifier: MIT OR Apache-2.0 */
/* What the header says of a run of the whole-second profile: it is the plain start's own, and it finishes within its cost, whatever the force
 * says, where every answer brings the room. */
#include "abi.h"

#include <math.h>

enum { MOST_NUMBERS = 1000 };

static const gj_triple R0 = {1, 2, 3}, V0 = {0, 1, 0};
static const double UNTOUCHED = 12345.5;

/* Every byte of a run is written, but for padding, and none past it. */
static void extent_of_a_start(void) {
    unsigned char low[2000], high[2000];
    memset(low, LOW_FILL, sizeof low);
    memset(high, HIGH_FILL, sizeof high);
    gj_start_whole((gj_run *)low, plain(), 0.0, 8.0, R0, V0);
    gj_start_whole((gj_run *)high, plain(), 0.0, 8.0, R0, V0);
    check(extent_of(low, high, sizeof low) == sizeof(gj_run), "a whole-second start writes as far as gj_run goes");
    check(same_run((gj_run *)low, (gj_run *)high), "what stood there before makes no difference");
}

/* With every refusal that a whole-second start gives, against a refused plain one: nothing of what was asked for is kept. */
static void ended_runs(void) {
    static const struct { double tf, h; uint64_t max_steps; int refusal; } starts[] = {
        {13.0, 1.0, 1000001, GJ_SETTING}, {NAN, 1.0, 8, GJ_BLANK_DATE}, {13.5, 1.0, 8, GJ_NOT_WHOLE}, {13.0, 0.0, 8, GJ_NOT_WHOLE},
        {12.0, 1.0, 8, GJ_STEP_NOT_FINITE}, {13.0, 1.0, 7, GJ_TOO_FEW_STEPS},
    };
    for (size_t i = 0; i < sizeof starts / sizeof *starts; i++) {
        gj_run ended, whole;
        gj_settings s = plain();
        memset(&ended, LOW_FILL, sizeof ended);
        memset(&whole, HIGH_FILL, sizeof whole);
        check(refused(gj_start(&ended, s, 0.0, 0.0, R0, V0), GJ_STEP_NOT_FINITE), "a refused plain start");
        s.h = starts[i].h, s.max_steps = starts[i].max_steps;
        check(refused(gj_start_whole(&whole, s, 5.0, starts[i].tf, R0, V0).reply, starts[i].refusal), "a refused whole-second start");
        check(same_run(&whole, &ended), "both leave the same run");
    }
}

/* Run, reply and samples are the plain start's, at every question and at the end. */
static void check_same(gj_settings s, double t0, double tf) {
    gj_run one, other;
    static double samples[MOST_NUMBERS], other_samples[MOST_NUMBERS];
    memset(&one, LOW_FILL, sizeof one);
    memset(&other, HIGH_FILL, sizeof other);
    gj_whole_reply begun = gj_start_whole(&one, s, t0, tf, R0, V0);
    gj_reply reply = begun.reply, plainly = gj_start(&other, s, t0, tf, R0, V0);
    check(reply.kind == GJ_ASK && begun.cost.numbers <= MOST_NUMBERS, "a whole-second start");
    while (reply.kind == GJ_ASK) {
        check(same_run(&one, &other) && memcmp(&reply, &plainly, sizeof reply) == 0, "the plain start's run and question");
        reply = play(&one, reply, samples, begun.cost.numbers, 1);
        plainly = play(&other, plainly, other_samples, begun.cost.numbers, 1);
    }
    check(reply.kind == GJ_DONE && memcmp(&reply, &plainly, sizeof reply) == 0, "the plain start's end");
    check(memcmp(samples, other_samples, begun.cost.numbers * sizeof *samples) == 0, "the plain start's samples");
}

/* What a force says: to the centre, nothing, no number, and far too much. */
static gj_triple force(int which, gj_reply q) {
    double said[] = {0.0, NAN, 1e300};
    gj_triple a = {-q.r.x, -q.r.y, -q.r.z};
    if (which > 0) a.x = a.y = a.z = said[which - 1];
    return a;
}

/* With the room that was told, and with more, which stays untouched. */
static gj_reply check_end(gj_settings s, double t0, double tf, int which) {
    gj_run run;
    static double out[MOST_NUMBERS];
    for (int i = 0; i < MOST_NUMBERS; i++) out[i] = UNTOUCHED;
    gj_whole_reply begun = gj_start_whole(&run, s, t0, tf, R0, V0);
    gj_cost cost = begun.cost;
    gj_reply reply = begun.reply;
    check(cost.numbers == GJ_SAMPLE_NUMBERS * cost.samples && cost.numbers + GJ_SAMPLE_NUMBERS <= MOST_NUMBERS, "room, counted twice");
    for (uint64_t n = 0; reply.kind == GJ_ASK; n++)
        reply = gj_answer(&run, reply.number, force(which, reply), 0, out, n % 2 ? MOST_NUMBERS : cost.numbers);
    check(reply.kind == GJ_DONE && reply.t == tf && reply.steps == cost.steps, "finished at tf, in the steps that were told");
    check(cost.least <= reply.evals && reply.evals <= cost.most, "finished within the answers that were told");
    uint64_t filled = 0;
    while (out[GJ_SAMPLE_NUMBERS * filled] != UNTOUCHED) filled++;
    check(filled == cost.samples, "as many samples as were told");
    return reply;
}

static void every_end(gj_settings s, double t0, double tf) {
    for (int which = 0; which < 4; which++) check_end(s, t0, tf, which);
    check_same(s, t0, tf);
}

/* Forward and backward, with a tail and without, with samples and without, by all passes and by tolerances. */
static void several(void) {
    gj_settings s = plain();
    every_end(s, 0.0, 8.0);
    every_end(s, -0.0, 9.0);
    s.h = -2.0, s.samples = 1, s.max_corrector_iters = 3, s.max_startup_iters = 2;
    every_end(s, 0.0, 17.0);
    every_end(s, 50.0, -3.0);
    s = gj_default_settings(), s.h = 3.0;
    every_end(s, -7.0, 101.0);
    s.samples = 1, s.max_startup_iters = 0;
    every_end(s, GJ_FARTHEST, GJ_FARTHEST - 100.0);
}

/* Tolerances of zero or less make every pass; wide ones make the first alone. */
static void bounds_met(void) {
    static const double none[] = {0.0, -1.0};
    for (int i = 0; i < 4; i++) {
        gj_settings s = gj_default_settings();
        s.h = 4.0, s.samples = i % 2, s.corrector_tol = s.startup_tol = none[i / 2];
        check(check_end(s, 0.0, 83.0, 0).evals == gj_forecast(s, 0.0, 83.0).cost.most, "without tolerances: the most answers");
        s.corrector_tol = s.startup_tol = 1e300;
        check(check_end(s, 0.0, 83.0, 0).evals == gj_forecast(s, 0.0, 83.0).cost.least, "with wide tolerances: the least answers");
    }
}

static void too_little_room(void) {
    gj_run run;
    double out[MOST_NUMBERS];
    gj_settings s = plain();
    s.samples = 1;
    gj_whole_reply begun = gj_start_whole(&run, s, 0.0, 12.0, R0, V0);
    check(refused(play(&run, begun.reply, out, begun.cost.numbers - 1, 1000), GJ_SAMPLE_ROOM), "a number less than was told: refusal 6");
}

void whole_runs(void) {
    extent_of_a_start();
    ended_runs();
    several();
    bounds_met();
    too_little_room();
}
