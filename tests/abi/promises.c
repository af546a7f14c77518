/* SPDX-License-Identifier: MIT OR Apache-2.0 */
/* What the header says in words: bytes that are no flag, samples left after a refusal, times that are asked, what is not noticed. */
#include "abi.h"

#include <math.h>
#include <string.h>

static const gj_triple R0 = {1, 2, 3}, V0 = {0, 1, 0};

/* Above 1, `samples` is a setting over its limit; in a run it makes the run made up, which is left as it was. */
static void bytes_that_are_no_flag(void) {
    static const uint8_t bytes[] = {2, 3, 255};
    for (int i = 0; i < 6; i++) {
        gj_run run, before;
        double out[90];
        gj_settings s = plain();
        s.samples = bytes[i % 3];
        check(refused(gj_start(&run, s, 0.0, 8.0, R0, V0), GJ_SETTING), "a start with a byte above 1 for samples: refusal 5");
        s.samples = i < 3;
        gj_reply open = play(&run, gj_start(&run, s, 0.0, 8.0, R0, V0), out, 90, 50);
        run.body.plan.settings.samples = bytes[i % 3];
        before = run;
        check(refused(gj_answer(&run, open.number, R0, 0, out, 90), GJ_NO_QUESTION), "a run with a byte above 1 for samples: refusal 7");
        check(refused(gj_open_question(&run), GJ_NO_QUESTION), "such a run has no open question");
        check(memcmp(&run, &before, sizeof run) == 0, "such a run is left as it was");
    }
}

static void texts(void) {
    for (unsigned one = 1; one <= 30; one++) {
        check((strcmp(gj_refusal_text(one), gj_refusal_text(0)) != 0) == is_named(one), "each refusal has a text, other numbers have one for all");
        for (unsigned other = 1; other < one && is_named(one); other++)
            check(strcmp(gj_refusal_text(one), gj_refusal_text(other)) != 0, "each refusal has a text of its own");
    }
    check(GJ_ABI_NAME(GJ_ABI)() == GJ_ABI, "the library tells the header's ABI number");
}

/* How many samples stand after 0 to 12 in steps of 1 was refused. */
static int left_after(int refusal, uint64_t max_steps, size_t count) {
    gj_run run;
    double out[140];
    gj_settings s = plain();
    s.samples = 1, s.max_steps = max_steps;
    for (int i = 0; i < 140; i++) out[i] = NAN;
    check(refused(play(&run, gj_start(&run, s, 0.0, 12.0, R0, V0), out, count, 1000), refusal), "the refusal that is waited for");
    int n = 0;
    while (n < 14 && out[10 * n] == (double)n) n++;
    for (int i = 10 * n; i < 140; i++) check(isnan(out[i]), "nothing past the samples that stand");
    return n;
}

static void samples_left(void) {
    check(left_after(GJ_MAX_STEPS_EXCEEDED, 9, 140) == 10, "max_steps 9: 10 samples stand");
    check(left_after(GJ_MAX_STEPS_EXCEEDED, 4, 140) == 5, "max_steps 4: 5 samples stand");
    check(left_after(GJ_MAX_STEPS_EXCEEDED, 0, 140) == 5, "max_steps 0: 5 samples stand");
    check(left_after(GJ_SAMPLE_ROOM, 1000, 79) == 7, "room for 7 samples: 7 stand");
    check(left_after(GJ_SAMPLE_ROOM, 1000, 50) == 5, "room for 5 samples: 5 stand");
    check(left_after(GJ_SAMPLE_ROOM, 1000, 49) == 0, "room for 4 samples: none stands");
}

/* The startup asks from four steps before t0 to four after, forward and backward; nothing is asked past tf. */
static void times_asked(void) {
    for (int way = -1; way <= 1; way += 2) {
        gj_run run;
        double low = INFINITY, high = -INFINITY, before = -INFINITY;
        int back = 0;
        gj_reply reply = gj_start(&run, plain(), 100.0, 100.0 + 12.5 * way, R0, V0);
        while (reply.kind == GJ_ASK) {
            double t = (reply.t - 100.0) * way;
            if (t < low) low = t;
            if (t > high) high = t;
            if (t < before) back++;
            before = t;
            reply = play(&run, reply, 0, 0, 1);
        }
        check(low == -4.0 && high == 12.5, "the force is asked from four steps before the start to the end");
        check(back > 2, "the force is not asked in order");
    }
}

/* Each of start, end and step as NaN and as both infinities; once more where the two others would give refusal 1. */
static void dates_that_are_none(void) {
    static const double blanks[] = {NAN, INFINITY, -INFINITY};
    for (int i = 0; i < 18; i++) {
        gj_run run;
        gj_settings s = plain();
        double dates[] = {0.0, i < 9 ? 8.0 : 0.0, i < 9 ? 1.0 : 0.0};
        dates[i % 3] = blanks[i / 3 % 3];
        s.h = dates[2];
        memset(&run, 0xA5, sizeof run);
        check(refused(gj_start(&run, s, dates[0], dates[1], R0, V0), GJ_BLANK_DATE), "a blank date: refusal 12, before 1");
        check(refused(gj_open_question(&run), GJ_NO_QUESTION), "a blank date leaves no run");
        s.max_steps = GJ_MAX_STEPS + 1;
        check(refused(gj_start(&run, s, dates[0], dates[1], R0, V0), GJ_SETTING), "such a date and a setting over its limit: 5, before 12");
    }
}

/* Finite dates whose difference is not: the run goes from end to end, in 32 steps either way. */
static void dates_far_apart(void) {
    for (int way = -1; way <= 1; way += 2) {
        gj_run run;
        gj_settings s = plain();
        s.h = 0x1p1019, s.corrector_tol = NAN, s.startup_tol = NAN;
        gj_reply end = play(&run, gj_start(&run, s, -0x1p1023 * way, 0x1p1023 * way, R0, V0), 0, 0, 1000);
        check(end.kind == GJ_DONE && end.steps == 32 && end.t == 0x1p1023 * way, "a span that overflows is no blank date");
    }
}

/* The number of a question comes back 65,536 questions later: an answer that late is taken. */
static void late_by_all_numbers(void) {
    gj_run run;
    gj_reply early = play(&run, gj_start(&run, plain(), 0.0, 40000.0, R0, V0), 0, 0, 100);
    gj_reply late = play(&run, early, 0, 0, 65536);
    check(late.kind == GJ_ASK && late.number == early.number && late.t != early.t, "the number comes back");
    check(gj_answer(&run, early.number, R0, 0, 0, 0).kind == GJ_ASK, "an answer 65,536 questions late is not noticed");
}

void promises(void) {
    bytes_that_are_no_flag();
    texts();
    samples_left();
    times_asked();
    dates_that_are_none();
    dates_far_apart();
    late_by_all_numbers();
}
