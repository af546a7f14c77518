/* SPDX-License-Identifier: MIT OR Apache-2.0 */
/* What the header says of a run that is put away: which bytes are written, that a loaded run asks on, and what becomes of a NaN. */
#include "form.h"

#include <math.h>

static const uint64_t NAN_STORED = 0x7ff8000000000000;

/* All 2,048 bytes are written, whatever stood there, and no other, wherever the buffer begins. */
static void bytes_written(void) {
    gj_run run;
    uint8_t low[ROOM], high[ROOM];
    after(&run, 50, 0);
    memset(low, 0x11, sizeof low);
    memset(high, 0xEE, sizeof high);
    check(GJ_STORED_SIZE == 2048, "a stored run takes 2,048 bytes");
    check(gj_store(&run, low + 8, GJ_STORED_SIZE) == 0 && gj_store(&run, high + 1, GJ_STORED_SIZE) == 0, "a storing");
    check(memcmp(low + 8, high + 1, GJ_STORED_SIZE) == 0, "the same run gives the same bytes");
    check(is_all(low, 8, 0x11) && is_all(low + 8 + 2048, ROOM - 2056, 0x11), "nothing around the buffer is written");
    check(is_all(high, 1, 0xEE) && is_all(high + 1 + 2048, ROOM - 2049, 0xEE), "nothing around an odd place is written");
    gj_run other;
    memset(&other, PATTERN, sizeof other);
    check(gj_load(&other, high + 1, GJ_STORED_SIZE).kind == GJ_ASK, "a form is read from an odd place");
}

/* At the first step's correction of 10 to 41 by 2, after two startup passes: every count is another. */
static void store_a_step(uint8_t *form) {
    gj_run run;
    double out[50];
    gj_triple r0 = {1, 2, 3}, v0 = {0, 1, 0};
    gj_settings s = {-2.0, 0.0, 0.0, 3, 2, 777777, 1};
    play(&run, gj_start(&run, s, 10.0, 41.0, r0, v0), out, 50, 58);
    check(gj_store(&run, form, GJ_STORED_SIZE) == 0, "a storing");
}

/* Words at the places that docs/STORED.md gives them; the whole form is held to it elsewhere. */
static void words_of_a_form(void) {
    static const uint32_t head[] = {1, 6, 1, 0, 58, 1}, counts[] = {3, 2, 777777, 2, 4, 58};
    uint8_t form[GJ_STORED_SIZE];
    store_a_step(form);
    for (int b = 0; b < BLOCKS; b++) {
        check(word_at(form + BLOCK * b) == (uint32_t)b, "a block begins with its number");
        check(word_at(form + BLOCK * b + BLOCK - 4) == check_of(form + BLOCK * b), "a block ends with its check");
    }
    for (int i = 0; i < 6; i++) {
        check(content(form, i) == head[i], "form, waiting point, corrections made, no stage, question number, samples");
        check(content(form, 252 + i) == counts[i], "the limits, and passes, steps and answers made");
    }
    double floats[] = {18.0, -2.0, 0.0, 0.0, 10.0, 41.0, 2.0};
    for (int i = 0; i < 7; i++) {
        uint64_t bits;
        memcpy(&bits, floats + i, sizeof bits);
        check(bits_of(form, 116 + i) == bits, "the clock, the settings' floats, t0, tf and the step");
    }
    for (int k = 0; k < 54; k++) check(bits_of(form, k) == 0, "places are not used at a step: zero");
    for (int j = 258; j < 504; j++) check(content(form, j) == 0, "the rest is zero");
}

/* The run goes through the form before each answer: every reply and sample is that of the run that did not. */
static void asks_on(gj_settings s, double t0, double tf) {
    gj_run kept, away;
    gj_triple r0 = {1, 2, 3}, v0 = {0, 1, 0};
    double one[400] = {0}, other[400] = {0};
    uint8_t form[GJ_STORED_SIZE], again[GJ_STORED_SIZE];
    gj_reply reply = gj_start(&kept, s, t0, tf, r0, v0), loaded = reply;
    away = kept;
    while (reply.kind == GJ_ASK) {
        check(gj_store(&away, form, sizeof form) == 0, "a storing at a question");
        memset(&away, PATTERN, sizeof away);
        loaded = gj_load(&away, form, sizeof form);
        /* What the answer before it stored is told once. */
        reply.stored = 0;
        check(memcmp(&loaded, &reply, sizeof reply) == 0, "a loading gives the open question");
        loaded = gj_open_question(&away);
        check(memcmp(&loaded, &reply, sizeof reply) == 0, "the loaded run has that question open");
        check(gj_store(&away, again, sizeof again) == 0 && memcmp(form, again, sizeof form) == 0, "stored again: the same bytes");
        loaded = play(&away, loaded, other, 400, 1);
        reply = play(&kept, reply, one, 400, 1);
    }
    check(reply.kind == GJ_DONE && memcmp(&loaded, &reply, sizeof reply) == 0, "put away at every question: the same end");
    check(memcmp(one, other, sizeof one) == 0, "put away at every question: the same samples");
}

static void every_question(void) {
    gj_settings s = plain();
    asks_on(s, 0.0, 8.0);
    s.samples = 1, s.h = 2.0, s.max_corrector_iters = 3, s.max_startup_iters = 2;
    asks_on(s, 0.0, 17.0);
    asks_on(s, 50.0, -3.0);
    asks_on(gj_default_settings(), 0.0, 1000.0);
}

/* What was answered since the older form no longer counts, and is asked again. */
static void older_form(void) {
    gj_run run;
    uint8_t form[GJ_STORED_SIZE];
    gj_reply early = after(&run, 45, 0);
    check(gj_store(&run, form, sizeof form) == 0, "a storing");
    gj_reply late = play(&run, early, 0, 0, 10), asked = gj_load(&run, form, sizeof form);
    check(memcmp(&asked, &early, sizeof early) == 0, "an older form asks its own question");
    asked = play(&run, asked, 0, 0, 10);
    check(memcmp(&asked, &late, sizeof late) == 0, "what was answered since is asked again");
    check(play(&run, asked, 0, 0, 1000).evals == 61, "what was answered twice counts once");
}

/* A float of the run by other bits: the sum s, component y, which stands as float 97 and is used at a step. */
static uint64_t stored_as(uint64_t bits) {
    gj_run run;
    uint8_t form[GJ_STORED_SIZE];
    after(&run, 50, 0);
    memcpy(&run.body.track.s.y, &bits, sizeof bits);
    check(gj_store(&run, form, sizeof form) == 0, "a run with any float is stored");
    return bits_of(form, 97);
}

static void floats_by_their_bits(void) {
    static const uint64_t plain_bits[] = {0, 1, 0x8000000000000000, 0x7ff0000000000000, 0xfff0000000000000, 0x000fffffffffffff,
                                          0x3ff0000000000001};
    static const uint64_t nans[] = {0x7ff8000000000000, 0xfff8000000000000, 0x7ff0000000000001, 0xfff4123456789abc, 0x7fffffffffffffff};
    for (int i = 0; i < 7; i++) check(stored_as(plain_bits[i]) == plain_bits[i], "a float is stored by its bits");
    for (int i = 0; i < 5; i++) check(stored_as(nans[i]) == NAN_STORED, "every NaN is stored by one pattern");
}

/* A form with another pattern of NaN loads; stored again it has the one pattern there, and all else as it was. */
static void nan_in_a_form(void) {
    gj_run run;
    uint8_t form[GJ_STORED_SIZE], wanted[GJ_STORED_SIZE], again[GJ_STORED_SIZE];
    after(&run, 50, 0);
    check(gj_store(&run, form, sizeof form) == 0, "a storing");
    memcpy(wanted, form, sizeof form);
    replace(form, 6 + 2 * 97, 0x89abcdef);
    replace(form, 7 + 2 * 97, 0xfff01234);
    replace(wanted, 6 + 2 * 97, 0);
    replace(wanted, 7 + 2 * 97, (uint32_t)(NAN_STORED >> 32));
    check(gj_load(&run, form, sizeof form).kind == GJ_ASK && isnan(run.body.track.s.y), "a form with any pattern of NaN loads");
    check(gj_store(&run, again, sizeof again) == 0 && memcmp(again, wanted, sizeof again) == 0, "the pattern and the check alone change");
}

void stored_runs(void) {
    bytes_written();
    words_of_a_form();
    every_question();
    older_form();
    floats_by_their_bits();
    nan_in_a_form();
}
