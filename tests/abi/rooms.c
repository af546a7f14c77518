/* SPDX-License-Identifier: MIT OR Apache-2.0 */
/* Rooms that begin at a sample: a small one, used again, beside one for all samples, bit for bit; samples that are due before the room; and how many
 * samples each reply tells. */
#include "abi.h"

enum { SMALL = 5 * GJ_SAMPLE_NUMBERS, MOST_NUMBERS = 1000 };

static const gj_triple R0 = {1, 2, 3}, V0 = {0, 1, 0};
static const double UNTOUCHED = 12345.5;

static void paint(double *room, int count) {
    for (int i = 0; i < count; i++) room[i] = UNTOUCHED;
}

/* Whether nothing was written from number `first` on. */
static int is_untouched(const double *room, uint64_t first, int count) {
    for (uint64_t i = first; i < (uint64_t)count; i++)
        if (room[i] != UNTOUCHED) return 0;
    return 1;
}

static gj_triple force(gj_reply q) {
    gj_triple a = {-q.r.x, -q.r.y, -q.r.z};
    return a;
}

/* None before the startup has ended, then its five, then one a step or none. */
static int is_count(uint64_t stored, uint64_t so_far) { return stored == 0 || stored == (so_far == 0 ? 5u : 1u); }

/* The same run by both rooms: replies, runs and samples are the same at every call, and the counts add up. Gives the last reply. */
static gj_reply check_walk(gj_settings s, double t0, double tf) {
    gj_run one, other;
    static double large[MOST_NUMBERS], small[SMALL];
    uint64_t so_far = 0, last = 0;
    paint(large, MOST_NUMBERS);
    gj_reply reply = gj_start(&one, s, t0, tf, R0, V0), beside = gj_start(&other, s, t0, tf, R0, V0);
    check(reply.kind == GJ_ASK && reply.stored == 0, "a start stores none");
    while (reply.kind == GJ_ASK) {
        paint(small, SMALL);
        reply = gj_answer(&one, reply.number, force(reply), 0, large, MOST_NUMBERS);
        beside = gj_answer(&other, beside.number, force(beside), so_far, small, SMALL);
        check(memcmp(&reply, &beside, sizeof reply) == 0 && same_run(&one, &other), "a small room gives the same reply and run");
        last = reply.stored;
        check(is_count(last, so_far), "none, five or one are stored");
        const double *same = large + GJ_SAMPLE_NUMBERS * so_far;
        check(memcmp(small, same, GJ_SAMPLE_NUMBERS * last * sizeof *small) == 0, "a small room holds the same samples");
        check(is_untouched(small, GJ_SAMPLE_NUMBERS * last, SMALL), "nothing past them in a small room");
        so_far += last;
        check(is_untouched(large, GJ_SAMPLE_NUMBERS * so_far, MOST_NUMBERS), "nothing past them in a large room");
    }
    uint64_t steps = reply.kind == GJ_DONE ? reply.steps : s.max_steps < 4 ? 4 : s.max_steps;
    check(so_far == (s.samples ? steps + 1 : 0), "all that were stored: one more than steps");
    check(last == (!s.samples ? 0u : steps > 4 ? 1u : 5u), "the last ones are told with the end, or with refusal 2");
    return reply;
}

/* Forward and backward, with a tail and without, by all passes and by tolerances; with samples and without; cut short by max_steps. */
static void walks(void) {
    for (uint8_t samples = 0; samples <= 1; samples++) {
        gj_settings s = plain();
        s.samples = samples;
        check(check_walk(s, 0.0, 8.0).kind == GJ_DONE, "eight steps");
        s.h = -2.0, s.max_corrector_iters = 3;
        check(check_walk(s, 0.0, 17.0).kind == GJ_DONE, "with a tail");
        check(check_walk(s, 50.5, -3.0).kind == GJ_DONE, "backward, with a tail");
        s = gj_default_settings(), s.h = 3.0, s.samples = samples;
        check(check_walk(s, -7.0, 101.0).kind == GJ_DONE, "by tolerances");
        static const uint64_t limits[] = {0, 3, 4, 5, 9, 11};
        for (int i = 0; i < 6; i++) {
            s = plain(), s.samples = samples, s.max_steps = limits[i];
            check(refused(check_walk(s, 0.0, 12.0), GJ_MAX_STEPS_EXCEEDED), "cut short by max_steps");
        }
    }
}

/* A run of 0 to 12 in steps of 1 before the answer that stores sample `due`, which is 0 or above 4; *run waits for that answer. */
static gj_reply before_sample(gj_run *run, uint64_t due) {
    double room[MOST_NUMBERS];
    gj_settings s = plain();
    s.samples = 1;
    gj_reply reply = gj_start(run, s, 0.0, 12.0, R0, V0);
    for (uint64_t so_far = 0; reply.kind == GJ_ASK;) {
        gj_run before = *run;
        gj_reply next = gj_answer(run, reply.number, force(reply), 0, room, MOST_NUMBERS);
        if (so_far == due && next.stored > 0) {
            *run = before;
            return reply;
        }
        so_far += next.stored;
        reply = next;
    }
    check(0, "a sample that is due");
    return reply;
}

/* One answer on a copy of the run, with a room that begins at `from`. */
static gj_reply answer_copy(gj_run *copy, const gj_run *run, gj_reply open, uint64_t from, double *room, size_t count) {
    *copy = *run;
    return gj_answer(copy, open.number, force(open), from, room, count);
}

/* Refusal 6: nothing written, nothing stored, the run has ended. Rooms that would do if 10(n - from) were counted around 2^64 are among them. */
static void before_the_room(uint64_t due) {
    gj_run run, copy;
    double room[SMALL];
    gj_reply open = before_sample(&run, due);
    const uint64_t later[] = {due + 1, due + 4, due + 1000000, UINT64_MAX / 10, UINT64_MAX / 10 + due + 1,
                              UINT64_MAX / 2 + 1, UINT64_MAX - 1, UINT64_MAX};
    for (size_t i = 0; i < sizeof later / sizeof *later; i++) {
        paint(room, SMALL);
        check(refused_alone(answer_copy(&copy, &run, open, later[i], room, SMALL), GJ_SAMPLE_ROOM), "a sample before the room: refusal 6");
        check(is_untouched(room, 0, SMALL), "a sample before the room: nothing is written");
        check(refused_alone(gj_open_question(&copy), GJ_NO_QUESTION), "a sample before the room: the run has ended");
        check(refused_alone(answer_copy(&copy, &run, open, later[i], 0, 0), GJ_SAMPLE_ROOM), "nor is there any without a room");
    }
}

/* From sample 0 up to the one that is due the room may begin, if it reaches: with one number less it is refusal 6. */
static void up_to_the_next(uint64_t due) {
    gj_run run, copy;
    static double room[MOST_NUMBERS];
    gj_reply open = before_sample(&run, due);
    uint64_t count = due == 0 ? 5 : 1;
    for (uint64_t from = 0; from <= due; from++) {
        uint64_t first = GJ_SAMPLE_NUMBERS * (due - from), past = first + GJ_SAMPLE_NUMBERS * count;
        paint(room, MOST_NUMBERS);
        check(refused_alone(answer_copy(&copy, &run, open, from, room, past - 1), GJ_SAMPLE_ROOM), "one number short: refusal 6");
        check(is_untouched(room, 0, MOST_NUMBERS), "one number short: nothing is written");
        gj_reply next = answer_copy(&copy, &run, open, from, room, past);
        check(next.kind != GJ_REFUSED && next.stored == count, "just enough room");
        check(room[first] == (double)due && is_untouched(room, past, MOST_NUMBERS), "the samples stand in their tens");
        check(is_untouched(room, 0, (int)first), "nothing before them");
    }
}

/* Where no sample is due, neither the room nor where it begins is looked at. */
static void none_due(void) {
    gj_run run, copy, other;
    double room[SMALL];
    gj_settings s = plain();
    s.samples = 1;
    gj_reply open = gj_start(&run, s, 0.0, 12.0, R0, V0);
    gj_reply next = answer_copy(&copy, &run, open, 0, 0, 0), same = answer_copy(&other, &run, open, UINT64_MAX, room, SMALL);
    check(next.kind == GJ_ASK && next.stored == 0, "an answer without a sample");
    check(memcmp(&next, &same, sizeof next) == 0 && same_run(&copy, &other), "where none is due, any room will do");
}

/* Calls that are no answers, and refused answers, store none. */
static void no_answers(void) {
    gj_run run;
    double room[SMALL];
    uint8_t form[GJ_STORED_SIZE];
    gj_reply open = before_sample(&run, 0);
    check(gj_open_question(&run).stored == 0, "an open question stores none");
    check(gj_store(&run, form, sizeof form) == 0 && gj_load(&run, form, sizeof form).stored == 0, "a loading stores none");
    check(refused_alone(gj_answer(&run, (uint16_t)(open.number + 1), R0, 0, room, SMALL), GJ_NOT_THAT_QUESTION), "nor does refusal 8");
    check(gj_answer(&run, open.number, force(open), 0, room, SMALL).stored == 5, "then the startup's five");
    gj_settings s = plain();
    s.samples = 1;
    check(gj_start_whole(&run, s, 0.0, 8.0, R0, V0).reply.stored == 0, "a whole-second start stores none");
}

void rooms(void) {
    static const uint64_t dues[] = {0, 5, 8, 12};
    walks();
    for (int i = 0; i < 4; i++) before_the_room(dues[i]), up_to_the_next(dues[i]);
    none_due();
    no_answers();
}
