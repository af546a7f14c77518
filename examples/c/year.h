/* SPDX-License-Identifier: MIT OR Apache-2.0 */
/* The parts of the year: year.c flies it and prints the table, map.c draws where it went at last. */
#ifndef YEAR_H
#define YEAR_H

#include "flight.h"

enum { STEP = 60, DAYS = 365, STEPS_A_DAY = 1440, STEPS = DAYS * STEPS_A_DAY };

/* The samples of the last day, which are kept. */
enum { FIRST_KEPT = STEPS - STEPS_A_DAY, KEPT_NUMBERS = GJ_SAMPLE_NUMBERS * (STEPS_A_DAY + 1) };

static const double PI = 3.141592653589793, DEGREES = 57.29577951308232;

/* Draws the ground track of the last `revolutions`, from the last day's samples; 0, or a refusal. */
uint32_t draw_track(const double *last_day, int revolutions);

#endif
