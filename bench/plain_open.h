/* SPDX-License-Identifier: MIT OR Apache-2.0 */
/* A run that waits, in plain C: whether it is one, and what it asks. */
#ifndef PLAIN_OPEN_H
#define PLAIN_OPEN_H

#include "gauss_jackson.h"

#include <stdbool.h>

/* The waiting points, as gj_mark numbers them. */
enum { EPOCH = 1, FORWARD, BACKWARD, SURVEY, PASS, STEP, TAIL, TAIL_SAMPLE };

/* Neither ended nor made up, by document 01's answer 7. */
bool plain_is_sound(const gj_run *run);
/* The open question of a sound run. */
gj_reply plain_question(const gj_run *run);

#endif
