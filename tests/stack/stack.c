/* SPDX-License-Identifier: MIT OR Apache-2.0 */
/* How much stack each call takes, its arguments and its reply included: the stack below is painted, the call is made, and what it wrote
 * over is found again. Every waiting point of a run is gone through. Fails where a call takes more than the header says. */
#include "gauss_jackson.h"

#include <stdio.h>

enum { DEEP = 1 << 18, NEAR = 256, PAINT = 0x5A, SAID = 32768 };

static gj_run run;
static gj_reply reply;
static gj_cost_reply forecast;
static gj_whole_reply begun;
static gj_settings settings;
static double samples[110], between[2 * GJ_BETWEEN_NUMBERS], times[2];
static uint32_t told;
static uint8_t form[GJ_STORED_SIZE];

static void nothing(void) {}
static void call_default_settings(void) { settings = gj_default_settings(); }

static void call_start(void) {
    gj_triple r0 = {1, 2, 3}, v0 = {0, 1, 0};
    reply = gj_start(&run, settings, 0.0, 17.0, r0, v0);
}

static void call_forecast(void) { forecast = gj_forecast(settings, 0.0, 17.0); }

static void call_start_whole(void) {
    gj_triple r0 = {1, 2, 3}, v0 = {0, 1, 0};
    begun = gj_start_whole(&run, settings, 0.0, 17.0, r0, v0);
}

static void call_answer(void) {
    gj_triple a = {-reply.r.x, -reply.r.y, -reply.r.z};
    reply = gj_answer(&run, reply.number, a, 0, samples, 110);
}

static void call_open_question(void) { reply = gj_open_question(&run); }
static void call_store(void) { told = gj_store(&run, form, sizeof form); }
static void call_load(void) { reply = gj_load(&run, form, sizeof form); }
static void call_interpolate(void) { told = gj_interpolate(times[0], samples, 100, between, GJ_BETWEEN_NUMBERS); }
static void call_interpolate_batch(void) { told = gj_interpolate_batch(times, 2, samples, 100, between, 2 * GJ_BETWEEN_NUMBERS); }

/* From far below up to near this function's own place. */
__attribute__((noinline)) static void paint(volatile unsigned char *low) {
    volatile unsigned char *high = (unsigned char *)__builtin_frame_address(0) - NEAR;
    while (low < high) *low++ = PAINT;
}

__attribute__((noinline)) static long taken(void (*call)(void)) {
    volatile unsigned char *here = __builtin_frame_address(0), *low = here - DEEP;
    paint(low);
    call();
    while (low < here && *low == PAINT) low++;
    return here - low;
}

static int failures;

static void print(const char *name, long bytes) {
    printf("%-22s %6ld bytes of stack\n", name, bytes);
    failures += bytes > SAID;
}

static void keep(long *most, long bytes) {
    if (bytes > *most) *most = bytes;
}

/* The most that the calls took. */
typedef struct most {
    long forecast, whole, startup, step, open, store, load;
} most;

/* A forecast and a whole-second start, taken and then refused: by the last test, so that all are made. */
static void profile(most *m) {
    for (int fits = 1; fits >= 0; fits--) {
        settings.max_steps = fits ? GJ_MAX_STEPS : 8;
        keep(&m->forecast, taken(call_forecast));
        failures += forecast.refusal != (fits ? 0 : GJ_TOO_FEW_STEPS);
        keep(&m->whole, taken(call_start_whole));
        failures += begun.reply.kind != (fits ? GJ_ASK : GJ_REFUSED);
    }
    settings.max_steps = GJ_MAX_STEPS;
}

/* The run goes through the stored form: what comes out of it is answered next. */
static void put_away(most *m) {
    keep(&m->store, taken(call_store));
    failures += told != 0;
    keep(&m->load, taken(call_load));
    failures += reply.kind != GJ_ASK;
}

/* A run to its end, with samples or without, and one call more of each, by what is ended and what is no form. */
static void follow(most *m) {
    call_start();
    while (reply.kind == GJ_ASK) {
        keep(&m->open, taken(call_open_question));
        put_away(m);
        long *answer = run.mark.at < 6 ? &m->startup : &m->step;
        keep(answer, taken(call_answer));
    }
    keep(&m->step, taken(call_answer));
    keep(&m->open, taken(call_open_question));
    keep(&m->store, taken(call_store));
    form[0] ^= 1;
    keep(&m->load, taken(call_load));
}

int main(void) {
    print("(no call)", taken(nothing));
    print("gj_default_settings", taken(call_default_settings));
    settings.h = 2.0;
    print("gj_start", taken(call_start));
    most m = {0, 0, 0, 0, 0, 0, 0};
    for (settings.samples = 0; settings.samples <= 1; settings.samples++) {
        profile(&m);
        follow(&m);
    }
    print("gj_forecast", m.forecast);
    print("gj_start_whole", m.whole);
    print("gj_answer, startup", m.startup);
    print("gj_answer, later", m.step);
    print("gj_open_question", m.open);
    print("gj_store", m.store);
    print("gj_load", m.load);
    times[0] = 3.5, times[1] = 16.5;
    print("gj_interpolate", taken(call_interpolate));
    failures += told != 0;
    print("gj_interpolate_batch", taken(call_interpolate_batch));
    failures += told != 0;
    printf("at most %d bytes a call, by the header: %d failed\n", SAID, failures);
    return failures != 0;
}
