/* SPDX-License-Identifier: MIT OR Apache-2.0 */
/* A run that waits, in plain C: document 01's answer 7 with W-202's dates, and the question of each waiting point. */
#include "plain_open.h"
#include "plain.h"

static bool within_limits(const gj_settings *s) {
    return s->max_startup_iters <= GJ_MAX_PASSES && s->max_corrector_iters <= GJ_MAX_PASSES && s->max_steps <= GJ_MAX_STEPS &&
           s->samples <= 1;
}

static bool is_finite(double x) { return x - x == 0.0; }

static bool is_dated(const gj_plan *p) { return is_finite(p->t0) && is_finite(p->tf) && is_finite(p->settings.h) && is_finite(p->h); }

/* At point i of the survey or of a pass, `before` answers having come before its point 0. Point 4 is never asked. */
static bool at_point(unsigned i, uint64_t before, uint64_t evals) {
    return i <= 8 && i != 4 && evals == before + (i < 4 ? i : i - 1);
}

static bool in_pass(const gj_run *run) {
    const gj_body *b = &run->body;
    return b->startup_iters < b->plan.settings.max_startup_iters && b->track.steps == 0 &&
           at_point(run->mark.index, 41 + 8 * b->startup_iters, run->mark.count.evals);
}

/* After the startup, `open` answers in the open step. */
static bool in_steps(const gj_run *run, uint64_t open) {
    const gj_settings *s = &run->body.plan.settings;
    uint64_t passes = run->body.startup_iters, steps = run->body.track.steps, evals = run->mark.count.evals;
    if (passes > s->max_startup_iters || (passes == 0 && s->max_startup_iters != 0)) return false;
    if (steps < 4 || steps >= s->max_steps) return false;
    uint64_t before = 41 + 8 * passes + open;
    return before + (steps - 4) <= evals && evals <= before + (steps - 4) * (1 + s->max_corrector_iters);
}

bool plain_is_sound(const gj_run *run) {
    const gj_body *b = &run->body;
    unsigned i = run->mark.index, stage = run->mark.stage;
    uint64_t evals = run->mark.count.evals;
    bool idle = b->startup_iters == 0 && b->track.steps == 0;
    if (!within_limits(&b->plan.settings) || !is_dated(&b->plan) || run->mark.count.number != evals % 65536 || stage > 3) return false;
    switch (run->mark.at) {
    case EPOCH: return idle && evals == 0;
    case FORWARD: return idle && 4 <= i && i <= 7 && evals == 1 + 4 * (i - 4) + stage;
    case BACKWARD: return idle && 1 <= i && i <= 4 && evals == 17 + 4 * (4 - i) + stage;
    case SURVEY: return idle && at_point(i, 33, evals);
    case PASS: return in_pass(run);
    case STEP: return i <= b->plan.settings.max_corrector_iters && in_steps(run, i);
    case TAIL: return in_steps(run, stage);
    case TAIL_SAMPLE: return b->plan.settings.samples == 1 && in_steps(run, 4);
    default: return false;
    }
}

static gj_reply ask(double t, gj_triple r, gj_triple v) { return (gj_reply){.t = t, .r = r, .v = v, .kind = GJ_ASK}; }

static gj_reply ask_point(const gj_body *b, int i) { return ask(b->plan.t0 + (i - 4.0) * b->plan.h, b->places.r[i], b->places.v[i]); }

/* A question of an RK4 step over h, which begins where `from` asks. */
static gj_reply ask_rk4(gj_reply from, double h, const gj_triple *l, int stage) {
    double half = h * 0.5;
    switch (stage) {
    case 0: return from;
    case 1: return ask(from.t + half, plus(from.r, times(from.v, half)), plus(from.v, times(l[0], half)));
    case 2: return ask(from.t + half, plus(from.r, times(plus(from.v, times(l[0], half)), half)), plus(from.v, times(l[1], half)));
    default: return ask(from.t + h, plus(from.r, times(plus(from.v, times(l[1], half)), h)), plus(from.v, times(l[2], h)));
    }
}

static gj_reply question_at(const gj_mark *mark, const gj_body *b) {
    const gj_plan *plan = &b->plan;
    const gj_state *end = &b->trial.state;
    switch (mark->at) {
    case EPOCH: return ask(plan->t0, b->places.r[4], b->places.v[4]);
    case FORWARD: return ask_rk4(ask_point(b, mark->index), plan->h, b->slopes, mark->stage);
    case BACKWARD: return ask_rk4(ask_point(b, mark->index), -plan->h, b->slopes, mark->stage);
    case STEP: return ask(b->track.t + plan->h, end->r, end->v);
    case TAIL: return ask_rk4(ask(b->track.t, b->track.state.r, b->track.state.v), plan->tf - b->track.t, b->slopes, mark->stage);
    case TAIL_SAMPLE: return ask(plan->tf, end->r, end->v);
    default: return ask_point(b, mark->index); /* the survey and the passes */
    }
}

gj_reply plain_question(const gj_run *run) {
    gj_reply asked = question_at(&run->mark, &run->body);
    asked.number = run->mark.count.number;
    return asked;
}
