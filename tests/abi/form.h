/* SPDX-License-Identifier: MIT OR Apache-2.0 */
/* The words of a stored form, read and written without the library; and a run to put away. */
#ifndef FORM_H
#define FORM_H

#include "abi.h"

#include <string.h>

enum { BLOCK = 512, BLOCKS = 4, PATTERN = 0xA5, ROOM = 3000 };

/* A run of 0 to 17 in steps of 2 after so many answers; its samples go nowhere that is looked at. */
static inline gj_reply after(gj_run *run, int answers, uint8_t samples) {
    static double out[100];
    gj_triple r0 = {1, 2, 3}, v0 = {0, 1, 0};
    gj_settings s = plain();
    s.h = 2.0, s.samples = samples;
    return play(run, gj_start(run, s, 0.0, 17.0, r0, v0), out, 100, answers);
}

static inline int is_all(const uint8_t *bytes, size_t count, uint8_t value) {
    for (size_t i = 0; i < count; i++)
        if (bytes[i] != value) return 0;
    return 1;
}

static inline uint32_t word_at(const uint8_t *bytes) {
    return bytes[0] | (uint32_t)bytes[1] << 8 | (uint32_t)bytes[2] << 16 | (uint32_t)bytes[3] << 24;
}

static inline void put_word(uint8_t *bytes, uint32_t word) {
    for (int i = 0; i < 4; i++) bytes[i] = (uint8_t)(word >> 8 * i);
}

/* Where word j of the content stands. */
static inline size_t place_of(int j) { return BLOCK * (j / 126) + 4 * (1 + j % 126); }

static inline uint32_t content(const uint8_t *form, int j) { return word_at(form + place_of(j)); }

static inline uint64_t bits_of(const uint8_t *form, int k) { return content(form, 6 + 2 * k) | (uint64_t)content(form, 7 + 2 * k) << 32; }

/* The check that the words of a block ask for. */
static inline uint32_t check_of(const uint8_t *block) {
    uint32_t sum = 1;
    for (int i = 0; i < 127; i++) sum += word_at(block + 4 * i);
    return sum;
}

/* Word j of the content replaced, and its block made whole again. */
static inline void replace(uint8_t *form, int j, uint32_t word) {
    uint8_t *block = form + BLOCK * (j / 126);
    put_word(form + place_of(j), word);
    put_word(block + BLOCK - 4, check_of(block));
}

#endif
