/* SPDX-License-Identifier: MIT OR Apache-2.0 */
/* Part of gauss_jackson.h: the refusals, by name and in words. */
#ifndef GAUSS_JACKSON_REFUSALS_H
#define GAUSS_JACKSON_REFUSALS_H

/* Refusals. What is left of a run: "no run" and "ended" are one and the same ended run, which answers 7 from then on. */
enum {
    GJ_STEP_NOT_FINITE = 1,       /* start, forecast: the span is shorter than eight steps; start: the step is zero; no run, no sample */
    GJ_MAX_STEPS_EXCEEDED = 2,    /* answer: a further step is due and max_steps are made; ended. max_steps + 1 samples stand (at least 5) */
    GJ_NO_DENSE_OUTPUT = 3,       /* interpolation: fewer than two samples; the output is untouched */
    GJ_INTERP_OUT_OF_BOUNDS = 4,  /* interpolation: a time outside the samples; the output is untouched, for a batch wholly */
    GJ_SETTING = 5,               /* start, forecast: a setting over its limit; no run, no sample */
    GJ_SAMPLE_ROOM = 6,           /* answer: the samples due now do not all fit, or the first stands before the room's; ended. This call
                                     writes none, earlier ones stand: with room from sample 0 for n of them at every call n, none if n
                                     is below 5 */
    GJ_NO_QUESTION = 7,           /* answer, open question, storing: the run has ended, or is made up; run, samples, bytes unchanged */
    GJ_NOT_THAT_QUESTION = 8,     /* answer: the number is not the open question's; run and samples unchanged, answer again */
    GJ_SHAPE = 9,                 /* interpolation: samples not in tens, or output below GJ_BETWEEN_NUMBERS a time; untouched */
    GJ_STORED_SHAPE = 10,         /* storing: the buffer has not GJ_STORED_SIZE bytes; untouched. Loading: not GJ_STORED_SIZE bytes, or a
                                     block's number or check is wrong: cut short, damaged, another file; the run is as it was */
    GJ_STORED_CONTENT = 11,       /* loading: whole blocks, but another form number, or what no run is; the run is as it was */
    GJ_BLANK_DATE = 12,           /* start, forecast: t0, tf or the step is a NaN or an infinity; no run, no sample */
    GJ_NOT_WHOLE = 13,            /* whole-second start, forecast: t0, tf or the step is no whole number; t0 or tf is above GJ_FARTHEST in
                                     size, or the step's size not from 1 to GJ_LONGEST_STEP; no run, no sample */
    GJ_TOO_FEW_STEPS = 14,        /* whole-second start, forecast: max_steps is below the steps that the run takes; no run, no sample */
    GJ_TOO_LOW = 15,              /* no call of this library gives it. The program forecast: a question's distance is below 1 km, or NaN */
    GJ_INPUT_LINE = 19            /* nor this. The program forecast: a line of its input is missing, one too many, or misshapen */
};

/* A refusal in words, without a full stop; a text of its own for any other number. */
static inline const char *gj_refusal_text(unsigned refusal) {
    switch (refusal) {
    case GJ_STEP_NOT_FINITE: return "the step is zero, or the span from start to end is shorter than eight steps";
    case GJ_MAX_STEPS_EXCEEDED: return "a further step is due, but max_steps are made; the run has ended, its samples stay";
    case GJ_NO_DENSE_OUTPUT: return "fewer than two samples, so there is nothing to interpolate between";
    case GJ_INTERP_OUT_OF_BOUNDS: return "a time lies outside the samples; nothing was written";
    case GJ_SETTING: return "a setting is over its limit: passes go up to 100, max_steps to 1,000,000, samples to 1";
    case GJ_SAMPLE_ROOM: return "the samples due now do not all fit in the buffer, or it begins at a later one; the run has ended, this call wrote none";
    case GJ_NO_QUESTION: return "no question is open: the run has ended, or its memory is not that of a run";
    case GJ_NOT_THAT_QUESTION: return "the answer's number is not that of the open question; the run waits as before";
    case GJ_SHAPE: return "the samples are not in tens, or the output has too few numbers for its times";
    case GJ_STORED_SHAPE: return "there are not 2,048 bytes, or a block's number or check is wrong: cut short, damaged, or no stored run";
    case GJ_STORED_CONTENT: return "the blocks are whole, but hold no run: another form number, or what no run has";
    case GJ_BLANK_DATE: return "the start, the end or the step is not a finite number; look at the dates that went in";
    case GJ_NOT_WHOLE: return "the start, the end or the step is no whole number, or beyond the bounds of a whole-second start";
    case GJ_TOO_FEW_STEPS: return "max_steps is below the steps that the run takes; a larger max_steps or a longer step would do";
    case GJ_TOO_LOW: return "a question's distance from the centre is below 1 km, or NaN; the run has ended";
    case GJ_INPUT_LINE: return "a line of the input is missing, one too many, or misshapen";
    default: return "no refusal has this number";
    }
}

#endif
