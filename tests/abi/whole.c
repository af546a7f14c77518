/* SPDX-License-Identifier: MIT OR Apache-2.0 */
/* What the header says of the whole-second profile before a run is under way: what is taken, at which cost, and what is refused, in which
 * order. A forecast and a start are asked each time, and must agree. */
#include "abi.h"

#include <math.h>

static const gj_triple R0 = {1, 2, 3}, V0 = {0, 1, 0};

static int is_cost(gj_cost told, gj_cost wanted) { return memcmp(&told, &wanted, sizeof told) == 0; }

/* No cost is told, and the run is left ended. */
static void check_refused(gj_settings s, double t0, double tf, int refusal, const char *what) {
    static const gj_cost none;
    gj_run run;
    memset(&run, 0xA5, sizeof run);
    gj_cost_reply forecast = gj_forecast(s, t0, tf);
    check((int)forecast.refusal == refusal && is_cost(forecast.cost, none), what);
    gj_whole_reply begun = gj_start_whole(&run, s, t0, tf, R0, V0);
    check(refused_alone(begun.reply, refusal) && is_cost(begun.cost, none), what);
    check(run.mark.at == 0 && refused_alone(gj_open_question(&run), GJ_NO_QUESTION), "a refused whole-second start leaves an ended run");
}

static void check_taken(gj_settings s, double t0, double tf, gj_cost cost, const char *what) {
    gj_run run;
    gj_cost_reply forecast = gj_forecast(s, t0, tf);
    check(forecast.refusal == 0 && is_cost(forecast.cost, cost), what);
    gj_whole_reply begun = gj_start_whole(&run, s, t0, tf, R0, V0);
    check(begun.reply.kind == GJ_ASK && begun.reply.number == 0 && is_cost(begun.cost, cost), what);
}

static gj_settings by(double h) {
    gj_settings s = plain();
    s.h = h;
    return s;
}

/* Eight steps of plain settings. */
static const gj_cost EIGHT = {8, 0, 0, 53, 57};

/* 01's rows, and limits of zero and of a hundred passes: each setting moves the bounds in its own way. */
static void costs(void) {
    gj_settings year = gj_default_settings(), s = by(-2.0);
    check_taken(year, 0.0, 31536000.0, (gj_cost){525600, 0, 0, 525645, 1576925}, "the cost of a year");
    year.samples = 1;
    check_taken(year, 31536000.0, 0.0, (gj_cost){525600, 525601, 5256010, 525645, 1576925}, "a year backward, with samples");
    check_taken(plain(), 0.0, 8.0, EIGHT, "the cost of 0 to 8");
    check_taken(plain(), 0.0, 9.0, (gj_cost){9, 0, 0, 54, 59}, "the cost of 0 to 9");
    check_taken(by(-10.0), 100.0, 20.0, EIGHT, "the cost of 100 to 20 by 10");
    check_taken(by(2.0), 0.0, 16.0, EIGHT, "the cost of 0 to 16 by 2");
    check_taken(s, 0.0, 17.0, (gj_cost){9, 0, 0, 57, 61}, "the cost of 0 to 17 by 2: a tail");
    s.samples = 1;
    check_taken(s, 0.0, 17.0, (gj_cost){9, 10, 100, 58, 62}, "the cost of a tail with samples");
    s = plain(), s.max_startup_iters = 0, s.max_corrector_iters = 0;
    check_taken(s, 0.0, 8.0, (gj_cost){8, 0, 0, 45, 45}, "the cost without passes");
    s.max_startup_iters = GJ_MAX_PASSES, s.max_corrector_iters = GJ_MAX_PASSES;
    check_taken(s, 0.0, 8.0, (gj_cost){8, 0, 0, 53, 41 + 8 * 100 + 4 * 101}, "the cost of all passes");
}

/* Five wrong values; each in turn is put right, and the next one is told. */
static void order_of_refusals(void) {
    gj_settings s = by(2.5);
    s.max_steps = GJ_MAX_STEPS + 1;
    check_refused(s, NAN, 7.0, GJ_SETTING, "5, before 12, 13, 1 and 14");
    s.max_steps = 2;
    check_refused(s, NAN, 7.0, GJ_BLANK_DATE, "12, before 13, 1 and 14");
    check_refused(s, 0.0, 7.0, GJ_NOT_WHOLE, "13, before 1 and 14");
    s.h = 1.0;
    check_refused(s, 0.0, 7.0, GJ_STEP_NOT_FINITE, "1, before 14");
    check_refused(s, 0.0, 8.0, GJ_TOO_FEW_STEPS, "14");
    s.max_steps = 8;
    check_taken(s, 0.0, 8.0, EIGHT, "as many steps as are needed");
}

static void other_refusals(void) {
    gj_settings s = plain();
    s.samples = 2;
    check_refused(s, 0.0, 8.0, GJ_SETTING, "a byte above 1 for samples: 5");
    s = plain(), s.max_corrector_iters = GJ_MAX_PASSES + 1;
    check_refused(s, 0.0, 8.0, GJ_SETTING, "101 corrections: 5");
    s = plain(), s.max_startup_iters = GJ_MAX_PASSES + 1;
    check_refused(s, 0.0, 8.0, GJ_SETTING, "101 startup passes: 5");
    check_refused(plain(), 5.0, 5.0, GJ_STEP_NOT_FINITE, "no span: 1");
    check_refused(by(2.0), 0.0, 15.0, GJ_STEP_NOT_FINITE, "seven steps and a half: 1");
    s = plain(), s.max_steps = 0;
    check_refused(s, 0.0, 8.0, GJ_TOO_FEW_STEPS, "max_steps 0: 14");
    s.max_steps = 8, s.h = 2.0;
    check_refused(s, 0.0, 17.0, GJ_TOO_FEW_STEPS, "the tail is a step too: 14");
}

/* Each of start, end and step in turn as what is no date, and as what is not whole. */
static void dates(void) {
    static const double blanks[] = {NAN, INFINITY, -INFINITY}, broken[] = {0.5, -1.5, 0x1p-1074};
    for (int i = 0; i < 9; i++) {
        double blank[] = {0.0, 80.0, 1.0}, parts[] = {0.0, 80.0, 1.0};
        blank[i % 3] = blanks[i / 3], parts[i % 3] = broken[i / 3];
        check_refused(by(blank[2]), blank[0], blank[1], GJ_BLANK_DATE, "a blank date: 12");
        check_refused(by(parts[2]), parts[0], parts[1], GJ_NOT_WHOLE, "a date that is not whole: 13");
    }
    check_refused(by(0.0), 0.0, 8.0, GJ_NOT_WHOLE, "a step of zero is below one: 13");
    check_refused(by(-0.0), 0.0, 8.0, GJ_NOT_WHOLE, "a step of -0.0: 13");
    check_taken(plain(), -0.0, 8.0, EIGHT, "a start of -0.0");
    check_taken(plain(), 8.0, -0.0, EIGHT, "an end of -0.0");
}

/* The bounds are within, either way; what lies next to them is not. */
static void bounds(void) {
    check(GJ_FARTHEST == 0x1p50 && GJ_LONGEST_STEP == 1e9, "2^50 and 10^9");
    for (int way = -1; way <= 1; way += 2) {
        double far = GJ_FARTHEST * way, near = far - 8.0 * way, longest = GJ_LONGEST_STEP * way;
        check_taken(plain(), far, near, EIGHT, "a start at the bound");
        check_taken(plain(), near, far, EIGHT, "an end at the bound");
        check_refused(plain(), far + way, near, GJ_NOT_WHOLE, "a start beyond the bound: 13");
        check_refused(plain(), near, far + way, GJ_NOT_WHOLE, "an end beyond the bound: 13");
        check_refused(plain(), near, far - 0.25 * way, GJ_NOT_WHOLE, "a quarter short of the bound: 13");
        check_taken(by(longest), 0.0, 8.0 * longest, EIGHT, "the longest step");
        check_refused(by(longest + way), 0.0, 16.0 * longest, GJ_NOT_WHOLE, "a longer step: 13");
        check_taken(by(longest), 0.0, 1e15 * way, (gj_cost){1000000, 0, 0, 1000045, 2000041}, "a million of the longest steps");
        check_refused(by(longest), 0.0, 1e15 * way + way, GJ_TOO_FEW_STEPS, "and one more: 14");
        check_refused(by(longest), -far, far, GJ_TOO_FEW_STEPS, "from bound to bound: 14");
    }
}

void whole_starts(void) {
    costs();
    order_of_refusals();
    other_refusals();
    dates();
    bounds();
}
