/* SPDX-License-Identifier: MIT OR Apache-2.0 */
/* scale cases|forms COUNT SEED SECONDS: a C main, since a Rust one cannot be linked whole everywhere. */
#include <stdbool.h>
#include <stdint.h>
#include <stdlib.h>
#include <string.h>

int scale(bool forms, uint64_t count, uint64_t seed, uint64_t seconds);

static uint64_t number(const char *word) { return strtoull(word, 0, 10); }

int main(int argc, char **argv) {
    return argc == 5 ? scale(!strcmp(argv[1], "forms"), number(argv[2]), number(argv[3]), number(argv[4])) : 2;
}
