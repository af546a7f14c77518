/* SPDX-License-Identifier: MIT OR Apache-2.0 */
/* What the header says of storing and loading where they refuse: in which order, and what they leave. */
#include "form.h"

/* Refused by that number; the run that the app holds is as it was, whichever it is: under way, ended, or no run at all. */
static void check_refused(const uint8_t *bytes, size_t count, int refusal, const char *what) {
    gj_run held[3], before[3];
    memset(held, 0, sizeof held);
    after(&held[0], 20, 1);
    memset(&held[2], PATTERN, sizeof held[2]);
    memcpy(before, held, sizeof held);
    for (int i = 0; i < 3; i++) check(refused_alone(gj_load(&held[i], bytes, count), refusal), what);
    check(memcmp(held, before, sizeof held) == 0, "a refused load leaves the run as it was");
}

static void store_refusals(void) {
    static const size_t lengths[] = {0, 1, 512, 2047, 2049, ROOM};
    gj_run run, ended, made_up, before;
    uint8_t out[ROOM];
    memset(out, PATTERN, sizeof out);
    memset(&ended, 0, sizeof ended);
    after(&run, 50, 0);
    made_up = before = run;
    made_up.body.startup_iters = 7;
    for (int i = 0; i < 6; i++) {
        check(gj_store(&run, out, lengths[i]) == GJ_STORED_SHAPE, "another buffer than of 2,048 bytes: refusal 10");
        check(gj_store(&ended, out, lengths[i]) == GJ_NO_QUESTION, "an ended run: refusal 7, before 10");
        check(gj_store(&made_up, out, lengths[i]) == GJ_NO_QUESTION, "a made-up run: refusal 7, before 10");
    }
    check(gj_store(&ended, out, GJ_STORED_SIZE) == GJ_NO_QUESTION, "an ended run: refusal 7");
    check(gj_store(&made_up, out, GJ_STORED_SIZE) == GJ_NO_QUESTION, "a made-up run: refusal 7");
    check(is_all(out, sizeof out, PATTERN), "a refused storing leaves the buffer as it was");
    check(gj_store(&run, NULL, 0) == GJ_STORED_SHAPE, "no buffer: refusal 10");
    check(gj_store(&ended, NULL, 0) == GJ_NO_QUESTION, "no buffer for an ended run: refusal 7");
    check(memcmp(&run, &before, sizeof run) == 0, "a storing only reads the run");
    play(&run, gj_open_question(&run), 0, 0, 1000);
    check(gj_store(&run, out, GJ_STORED_SIZE) == GJ_NO_QUESTION, "a finished run: refusal 7");
}

static void shapes(const uint8_t *form) {
    uint8_t bytes[GJ_STORED_SIZE + 1];
    memcpy(bytes, form, GJ_STORED_SIZE);
    bytes[GJ_STORED_SIZE] = 0;
    check_refused(NULL, 0, GJ_STORED_SHAPE, "no bytes: refusal 10");
    check_refused(bytes, GJ_STORED_SIZE - 1, GJ_STORED_SHAPE, "2,047 bytes: refusal 10");
    check_refused(bytes, GJ_STORED_SIZE + 1, GJ_STORED_SHAPE, "2,049 bytes: refusal 10");
    for (int b = 0; b < BLOCKS; b++) {
        uint8_t *block = bytes + BLOCK * b;
        put_word(block, 4);
        put_word(block + BLOCK - 4, check_of(block));
        check_refused(bytes, GJ_STORED_SIZE, GJ_STORED_SHAPE, "another block number: refusal 10");
        memcpy(bytes, form, GJ_STORED_SIZE);
        put_word(block + BLOCK - 4, check_of(block) - 1);
        check_refused(bytes, GJ_STORED_SIZE, GJ_STORED_SHAPE, "a check without the 1: refusal 10");
        memcpy(bytes, form, GJ_STORED_SIZE);
    }
    memset(bytes, 0, sizeof bytes);
    check_refused(bytes, GJ_STORED_SIZE, GJ_STORED_SHAPE, "all zeros: refusal 10");
}

/* Each is whole, so the check does not find it. `form` waits at a step, where stage and places are not used. */
static void contents(const uint8_t *form) {
    static const struct { int word; uint32_t value; } wrong[] = {
        {0, 0}, {0, 2}, {1, 0}, {1, 9}, {1, 256 + 6}, {2, 2}, {2, 256}, {3, 1}, {4, 51}, {4, 65536 + 50}, {5, 2}, {6, 1}, {503, 1},
        {252, 101}, {253, 101}, {254, 1000001}, {255, 2}, {256, 5}, {257, 51}, {257, 65536 + 50},
    };
    for (size_t i = 0; i < sizeof wrong / sizeof *wrong; i++) {
        uint8_t bytes[GJ_STORED_SIZE];
        memcpy(bytes, form, GJ_STORED_SIZE);
        replace(bytes, wrong[i].word, wrong[i].value);
        check_refused(bytes, GJ_STORED_SIZE, GJ_STORED_CONTENT, "whole blocks that hold no run: refusal 11");
        bytes[BLOCK - 4] ^= 1;
        check_refused(bytes, GJ_STORED_SIZE, GJ_STORED_SHAPE, "such a form with a wrong check: refusal 10, before 11");
    }
}

/* The step as it was set, t0, tf and the step with its direction: a NaN or an infinity in one of them, in the run and in its form. */
static void blank_dates(const uint8_t *form) {
    static const int floats[] = {117, 120, 121, 122};
    static const uint64_t blanks[] = {0x7ff8000000000000, 0xfff0000000000001, 0x7ff0000000000000, 0xfff0000000000000};
    for (int i = 0; i < 16; i++) {
        gj_run run, before;
        uint8_t bytes[GJ_STORED_SIZE];
        gj_reply open = after(&run, 50, 0);
        double *dates[] = {&run.body.plan.settings.h, &run.body.plan.t0, &run.body.plan.tf, &run.body.plan.h};
        memcpy(dates[i % 4], &blanks[i / 4], sizeof(double));
        before = run;
        memset(bytes, PATTERN, sizeof bytes);
        check(gj_store(&run, bytes, sizeof bytes) == GJ_NO_QUESTION, "a run with a blank date is made up: refusal 7 to a storing");
        check(is_all(bytes, sizeof bytes, PATTERN), "a refused storing leaves the buffer as it was");
        check(refused_alone(gj_open_question(&run), GJ_NO_QUESTION), "such a run has no open question");
        check(refused_alone(gj_answer(&run, open.number, open.r, 0, 0, 0), GJ_NO_QUESTION), "such a run takes no answer");
        check(memcmp(&run, &before, sizeof run) == 0, "such a run is left as it was");
        memcpy(bytes, form, sizeof bytes);
        replace(bytes, 6 + 2 * floats[i % 4], (uint32_t)blanks[i / 4]);
        replace(bytes, 7 + 2 * floats[i % 4], (uint32_t)(blanks[i / 4] >> 32));
        check_refused(bytes, sizeof bytes, GJ_STORED_CONTENT, "a form with a blank date: refusal 11");
    }
}

static void load_refusals(void) {
    gj_run run;
    uint8_t form[GJ_STORED_SIZE];
    after(&run, 50, 0);
    check(gj_store(&run, form, sizeof form) == 0, "a storing");
    shapes(form);
    contents(form);
    blank_dates(form);
}

void stored_refusals(void) {
    store_refusals();
    load_refusals();
}
