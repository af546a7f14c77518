/* SPDX-License-Identifier: MIT OR Apache-2.0 */
/* Where the library itself puts and takes each field of the records that a caller fills or reads, against sizeof and offsetof.
 * Nothing of the header's layout is used to find a place: a known value goes in, and the bytes are searched for it. */
#include "abi.h"

#include <string.h>

enum { WIDE = 256, PATTERN = 0xA5 };

/* The one place where a value's bytes stand; -1 for none, -2 for several. */
static long place_of(const void *memory, size_t size, const void *value, size_t width) {
    long found = -1;
    for (size_t i = 0; i + width <= size; i += width) {
        if (memcmp((const char *)memory + i, value, width) != 0) continue;
        found = found == -1 ? (long)i : -2;
    }
    return found;
}

static long place_of_float(const void *memory, size_t size, double x) { return place_of(memory, size, &x, sizeof x); }

static long place_of_word(const void *memory, size_t size, uint64_t x) { return place_of(memory, size, &x, sizeof x); }

/* One past the last byte that was written over the pattern. */
static size_t extent(const unsigned char *memory, size_t size) {
    while (size > 0 && memory[size - 1] == PATTERN) size--;
    return size;
}

/* A large result goes where a hidden first argument points, which comes back as the result. These are the same functions, declared
 * so that the hidden argument can be seen. */
void *seen_default_settings(void *) __asm__("gj_default_settings");
void *seen_start(void *, gj_run *, gj_settings, double, double, gj_triple, gj_triple) __asm__("gj_start");
void *seen_answer(void *, gj_run *, uint16_t, gj_triple, uint64_t, double *, size_t) __asm__("gj_answer");
void *seen_load(void *, gj_run *, const uint8_t *, size_t) __asm__("gj_load");
void *seen_forecast(void *, gj_settings, double, double) __asm__("gj_forecast");
void *seen_start_whole(void *, gj_run *, gj_settings, double, double, gj_triple, gj_triple) __asm__("gj_start_whole");

static const gj_settings ODD = {61.25, 0x1p-40, 0x1p-41, 3, 11, 777777, 1};

/* As results, by the defaults; as arguments, by what a start keeps of them. */
void layout_of_settings(void) {
    unsigned char told[WIDE];
    memset(told, PATTERN, sizeof told);
    check(seen_default_settings(told) == (void *)told, "the defaults' hidden pointer comes back");
    check(extent(told, WIDE) <= sizeof(gj_settings), "the defaults stay within gj_settings");
    check(extent(told, WIDE) > offsetof(gj_settings, samples), "the defaults reach to samples");
    check(place_of_float(told, 56, 60.0) == offsetof(gj_settings, h), "default h");
    check(place_of_word(told, 56, 2) == offsetof(gj_settings, max_corrector_iters), "default max_corrector_iters");
    check(place_of_word(told, 56, 12) == offsetof(gj_settings, max_startup_iters), "default max_startup_iters");
    check(place_of_word(told, 56, 1000000) == offsetof(gj_settings, max_steps), "default max_steps");
    check(told[offsetof(gj_settings, samples)] == 0, "default samples");

    gj_run run;
    gj_triple zero = {0, 0, 0};
    gj_start(&run, ODD, 5.0, 5000.5, zero, zero);
    const char *plan = (const char *)&run + offsetof(gj_run, body) + offsetof(gj_body, plan);
    check(place_of_float(plan, 56, 61.25) == offsetof(gj_settings, h), "h in the run");
    check(place_of_float(plan, 56, 0x1p-40) == offsetof(gj_settings, corrector_tol), "corrector_tol in the run");
    check(place_of_float(plan, 56, 0x1p-41) == offsetof(gj_settings, startup_tol), "startup_tol in the run");
    check(place_of_word(plan, 56, 3) == offsetof(gj_settings, max_corrector_iters), "max_corrector_iters in the run");
    check(place_of_word(plan, 56, 11) == offsetof(gj_settings, max_startup_iters), "max_startup_iters in the run");
    check(place_of_word(plan, 56, 777777) == offsetof(gj_settings, max_steps), "max_steps in the run");
    check(plan[offsetof(gj_settings, samples)] == 1, "samples in the run");
}

static void question_layout(gj_run *run) {
    unsigned char told[WIDE];
    gj_triple r0 = {1.5, 2.5, 3.5}, v0 = {4.5, 5.5, 6.5};
    memset(told, PATTERN, sizeof told);
    check(seen_start(told, run, plain(), 7.5, 16.5, r0, v0) == (void *)told, "a start's hidden pointer comes back");
    check(extent(told, WIDE) == sizeof(gj_reply), "a reply fills gj_reply and no more");
    check(place_of_float(told, 96, 7.5) == offsetof(gj_reply, t), "a question's t");
    double six[] = {1.5, 2.5, 3.5, 4.5, 5.5, 6.5};
    for (int i = 0; i < 3; i++) {
        check(place_of_float(told, 96, six[i]) == (long)offsetof(gj_reply, r) + 8 * i, "a question's position");
        check(place_of_float(told, 96, six[3 + i]) == (long)offsetof(gj_reply, v) + 8 * i, "a question's velocity");
    }
}

/* Question 258 is told by bytes 2 and 1, refusal 8 under another number by a lone 8. */
static void number_layout(gj_run *run) {
    unsigned char told[WIDE];
    double out[1];
    gj_triple zero = {0, 0, 0};
    gj_settings s = plain();
    s.max_startup_iters = 40;
    gj_reply reply = play(run, gj_start(run, s, 0.0, 8.0, zero, zero), out, 0, 257);
    memset(told, PATTERN, sizeof told);
    check(seen_answer(told, run, reply.number, zero, 0, out, 0) == (void *)told, "an answer's hidden pointer comes back");
    uint16_t number = 258, refusal = 8;
    check(place_of(told, 96, &number, 2) == offsetof(gj_reply, number), "a question's number");
    seen_answer(told, run, 5, zero, 0, out, 0);
    check(place_of(told, 96, &refusal, 2) == offsetof(gj_reply, refusal), "a refusal's number");
    uint32_t kind = GJ_REFUSED;
    check(place_of(told, 96, &kind, 4) == offsetof(gj_reply, kind), "a refusal's kind");
}

/* The startup's last answer, the 49th, stores five samples, which a lone 5 tells. */
static void stored_layout(gj_run *run) {
    unsigned char told[WIDE];
    double out[50];
    gj_triple r0 = {1.5, 2.5, 3.5};
    gj_settings s = plain();
    s.samples = 1;
    gj_reply reply = play(run, gj_start(run, s, 0.0, 8.0, r0, r0), out, 50, 48);
    memset(told, PATTERN, sizeof told);
    seen_answer(told, run, reply.number, r0, 0, out, 50);
    check(extent(told, WIDE) == sizeof(gj_reply), "an answer's reply fills gj_reply and no more");
    check(place_of_word(told, 96, 5) == offsetof(gj_reply, stored), "how many samples were stored");
}

/* 0 to 17 in steps of 2, with 3 startup passes: 9 steps, 77 answers. */
static void state_layout(gj_run *run) {
    double out[1];
    gj_triple r0 = {1.0, 2.0, 3.0};
    gj_settings s = plain();
    s.h = 2.0, s.max_startup_iters = 3;
    gj_reply end = play(run, gj_start(run, s, 0.0, 17.0, r0, r0), out, 0, 1000);
    check(place_of_word(&end, 96, 41 + 8 * 3 + 4 * 2 + 4) == offsetof(gj_reply, evals), "the finished state's evals");
    check(place_of_word(&end, 96, 9) == offsetof(gj_reply, steps), "the finished state's steps");
    check(place_of_word(&end, 96, 3) == offsetof(gj_reply, startup_iters), "the finished state's startup_iters");
    uint32_t kind = GJ_DONE;
    check(place_of(&end, 96, &kind, 4) == offsetof(gj_reply, kind), "the finished state's kind");
}

/* A loading tells its question as a start does, in the same place. */
static void loaded_layout(gj_run *run) {
    unsigned char told[WIDE];
    uint8_t form[GJ_STORED_SIZE];
    gj_triple r0 = {1.5, 2.5, 3.5}, v0 = {4.5, 5.5, 6.5};
    gj_reply asked = gj_start(run, plain(), 7.5, 16.5, r0, v0);
    check(gj_store(run, form, sizeof form) == 0, "a storing");
    memset(told, PATTERN, sizeof told);
    check(seen_load(told, run, form, sizeof form) == (void *)told, "a loading's hidden pointer comes back");
    check(extent(told, WIDE) == sizeof asked && memcmp(told, &asked, sizeof asked) == 0, "a loading's reply is that of the start");
}

void layout_of_replies(void) {
    gj_run run;
    question_layout(&run);
    loaded_layout(&run);
    number_layout(&run);
    stored_layout(&run);
    state_layout(&run);
}

/* 0 to 17 in steps of 2 with samples and 3 startup passes: 9 steps, room for 10 samples, 58 to 78 answers. */
static const gj_settings COSTED = {2.0, 0.0, 0.0, 1, 3, 1000000, 1};

/* `at` is where the cost is to begin. */
static void check_cost(const void *told, size_t size, size_t at) {
    check(place_of_word(told, size, 9) == (long)(at + offsetof(gj_cost, steps)), "a cost's steps");
    check(place_of_word(told, size, 10) == (long)(at + offsetof(gj_cost, samples)), "a cost's samples");
    check(place_of_word(told, size, 100) == (long)(at + offsetof(gj_cost, numbers)), "a cost's numbers");
    check(place_of_word(told, size, 41 + 8 * 1 + 4 + 5) == (long)(at + offsetof(gj_cost, least)), "a cost's least");
    check(place_of_word(told, size, 41 + 8 * 3 + 4 * 2 + 5) == (long)(at + offsetof(gj_cost, most)), "a cost's most");
}

static void forecast_layout(void) {
    unsigned char told[WIDE];
    uint32_t refusal = GJ_NOT_WHOLE;
    memset(told, PATTERN, sizeof told);
    check(seen_forecast(told, COSTED, 0.0, 17.0) == (void *)told, "a forecast's hidden pointer comes back");
    check(extent(told, WIDE) <= sizeof(gj_cost_reply), "a forecast stays within gj_cost_reply");
    check(extent(told, WIDE) >= offsetof(gj_cost_reply, refusal) + sizeof refusal, "a forecast reaches to refusal");
    check_cost(told, 48, offsetof(gj_cost_reply, cost));
    memset(told, PATTERN, sizeof told);
    seen_forecast(told, COSTED, 0.5, 17.0);
    check(place_of(told, 48, &refusal, 4) == offsetof(gj_cost_reply, refusal), "a forecast's refusal");
}

/* A whole-second start tells what a plain one tells, and the cost after it. */
static void whole_layout(void) {
    unsigned char told[WIDE];
    gj_run run;
    gj_triple r0 = {1.5, 2.5, 3.5}, v0 = {4.5, 5.5, 6.5};
    gj_reply asked = gj_start(&run, COSTED, 0.0, 17.0, r0, v0);
    memset(told, PATTERN, sizeof told);
    check(seen_start_whole(told, &run, COSTED, 0.0, 17.0, r0, v0) == (void *)told, "a whole-second start's hidden pointer comes back");
    check(extent(told, WIDE) == sizeof(gj_whole_reply), "a whole-second start fills gj_whole_reply and no more");
    check(memcmp(told + offsetof(gj_whole_reply, reply), &asked, sizeof asked) == 0, "a whole-second start's reply is the plain start's");
    check_cost(told, 136, offsetof(gj_whole_reply, cost));
}

void layout_of_costs(void) {
    forecast_layout();
    whole_layout();
}
