/* SPDX-License-Identifier: MIT OR Apache-2.0 */
/* The proved library, asked and answered; the force stands in the caller's loop. */
#include "bench.h"

void library_run(const task *task, gj_reply *end) {
    gj_run run;
    gj_reply reply = gj_start(&run, task->settings, task->t0, task->tf, task->r0, task->v0);
    while (reply.kind == GJ_ASK) {
        gj_triple a = {-reply.r.x, -reply.r.y, -reply.r.z};
        reply = gj_answer(&run, reply.number, a, 0, task->out, task->count);
    }
    /* The other columns make one call of the whole run: what the last one stored is no result to compare. */
    reply.stored = 0;
    *end = reply;
}

uint32_t library_read(const reading *in, bool batch) {
#if GJ_DENSE
    if (batch) return gj_interpolate_batch(in->times, in->k, in->samples, in->n, in->rows, GJ_BETWEEN_NUMBERS * in->k);
    uint32_t refusal = 0;
    for (size_t j = 0; j < in->k && refusal == 0; j++)
        refusal = gj_interpolate(in->times[j], in->samples, in->n, in->rows + GJ_BETWEEN_NUMBERS * j, GJ_BETWEEN_NUMBERS);
    return refusal;
#else
    (void)in, (void)batch;
    return GJ_NO_DENSE_OUTPUT;
#endif
}
