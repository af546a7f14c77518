/* SPDX-License-Identifier: MIT OR Apache-2.0 */
/* The day of orbit.c, put away in a file on the way and taken up by another program. examples/rust/src/away.rs is the same in Rust; each
 * takes up what the other has put away, and ends with the same bits.
 *
 *   away                  flies the day without a stop
 *   away put N FILE       answers N questions and puts the run away in FILE
 *   away take FILE        takes it up and flies on to the end
 *
 * There are no samples here: an app that has them keeps its sample buffer too, in a file of its own.
 */
#define _POSIX_C_SOURCE 200809L /* fileno, fsync */
#include "orbit.h"

#include <stdlib.h>
#include <unistd.h>

/* The new form is written beside the old one and takes its place when the disk has all of it: whatever happens before that, the old one
 * stands, whole. */
static int write_safely(const char *path, const uint8_t *form) {
    char beside[1000];
    if (snprintf(beside, sizeof beside, "%s.new", path) >= (int)sizeof beside) return 0;
    FILE *file = fopen(beside, "wb");
    if (file == NULL) return 0;
    int on_disk = fwrite(form, 1, GJ_STORED_SIZE, file) == GJ_STORED_SIZE && fflush(file) == 0 && fsync(fileno(file)) == 0;
    int closed = fclose(file) == 0;
    return on_disk && closed && rename(beside, path) == 0;
}

/* How many bytes were read; none where there is no file. */
static size_t read_form(const char *path, uint8_t *bytes, size_t room) {
    FILE *file = fopen(path, "rb");
    if (file == NULL) return 0;
    size_t count = fread(bytes, 1, room, file);
    fclose(file);
    return count;
}

static gj_reply answer(gj_run *run, gj_reply question) { return gj_answer(run, question.number, force(question.r), 0, NULL, 0); }

static int put_away(long answers, const char *path) {
    gj_run run;
    gj_whole_reply begun = start_day(&run, 0);
    gj_reply reply = begun.reply;
    if (reply.kind == GJ_ASK) print_cost(begun.cost);
    for (; answers > 0 && reply.kind == GJ_ASK; answers--) reply = answer(&run, reply);
    uint8_t form[GJ_STORED_SIZE];
    uint32_t refusal = gj_store(&run, form, sizeof form);
    if (refusal != 0) return tell_refusal(refusal);
    if (!write_safely(path, form)) {
        perror(path);
        return 1;
    }
    printf("put away at question %u, at %.0f s\n", (unsigned)reply.number, reply.t);
    return 0;
}

/* The finished state for people, and by its bits. */
static int tell_end(gj_reply end) {
    if (end.kind != GJ_DONE) return tell_refusal(end.refusal);
    static const char *const names[] = {"t s", "x km", "y km", "z km", "vx km/s", "vy km/s", "vz km/s"};
    double state[] = {end.t, end.r.x, end.r.y, end.r.z, end.v.x, end.v.y, end.v.z};
    for (int i = 0; i < 7; i++) {
        unsigned long long bits;
        memcpy(&bits, state + i, sizeof bits);
        printf("%-7s %14.6f  %016llx\n", names[i], state[i], bits);
    }
    printf("%llu steps, %llu answers, %llu startup passes\n", (unsigned long long)end.steps, (unsigned long long)end.evals,
           (unsigned long long)end.startup_iters);
    return 0;
}

static int fly_on(gj_run *run, gj_reply reply) {
    while (reply.kind == GJ_ASK) reply = answer(run, reply);
    return tell_end(reply);
}

static int take_up(const char *path) {
    uint8_t bytes[GJ_STORED_SIZE + 1]; /* one more than a form has, so that a longer file is refused too */
    gj_run run = {0};                  /* an ended run, which a refusal leaves as it is */
    gj_reply reply = gj_load(&run, bytes, read_form(path, bytes, sizeof bytes));
    return fly_on(&run, reply);
}

static int fly_through(void) {
    gj_run run;
    gj_reply reply = start_day(&run, 0).reply;
    return fly_on(&run, reply);
}

int main(int argc, char **argv) {
    if (argc == 1) return fly_through();
    if (argc == 3 && strcmp(argv[1], "take") == 0) return take_up(argv[2]);
    if (argc == 4 && strcmp(argv[1], "put") == 0) {
        char *rest;
        long answers = strtol(argv[2], &rest, 10);
        if (*rest == '\0') return put_away(answers, argv[3]);
    }
    fprintf(stderr, "usage: away [put ANSWERS FILE | take FILE]\n");
    return 2;
}
