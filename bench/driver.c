/* SPDX-License-Identifier: MIT OR Apache-2.0 */
/* driver COLUMN WORK: does one work in one column, and prints a line: answers or times read, seconds, and a digest of all results (of the
 * accelerations between samples one of its own).
 *   COLUMN  module, plain, library; none, which does all but the work, so that its instructions can be taken away
 *   WORK    year, year-defaults, day, single, batch; root, store-POINT and load-POINT, which the module has not, at a POINT of POINTS below */
#include "bench.h"

#include <stdio.h>
#include <stdlib.h>
#include <string.h>
#include <time.h>

enum { DAYS = 100, READINGS = 1000000, ROOTS = 1000000, STORINGS = 10000, STEPS = 1440, NUMBERS = 10 * (STEPS + 1) };

typedef struct column {
    const char *name;
    void (*run)(const task *, gj_reply *);
    uint32_t (*read)(const reading *, bool);
    uint32_t (*store)(const gj_run *, uint8_t *, size_t);
    gj_reply (*load)(gj_run *, const uint8_t *, size_t);
    double (*root)(double);
} column;

static void no_run(const task *task, gj_reply *end) { (void)task, (void)end; }

static uint32_t no_read(const reading *reading, bool batch) { return (void)reading, (void)batch, 0; }

static uint32_t no_store(const gj_run *run, uint8_t *out, size_t bytes) { return (void)run, (void)out, (void)bytes, 0; }

static gj_reply no_load(gj_run *run, const uint8_t *in, size_t bytes) { return (void)run, (void)in, (void)bytes, (gj_reply){0}; }

static double no_root(double x) { return x; }

static const column COLUMNS[] = {{"module", module_run, module_read, NULL, NULL, NULL},
                                 {"plain", plain_run, plain_read, plain_store, plain_load, plain_root},
                                 {"library", library_run, library_read, gj_store, gj_load, probe_root},
                                 {"none", no_run, no_read, no_store, no_load, no_root}};

/* Where the runs wait that are put away: gj_mark's three numbers. */
static const struct point {
    const char *name;
    uint8_t at, index, stage;
} POINTS[] = {{"epoch", 1, 0, 0}, {"survey", 4, 6, 0}, {"pass", 5, 6, 0}, {"step", 6, 1, 0}, {"tail", 7, 0, 2}};

static double now(void) {
    struct timespec t;
    timespec_get(&t, TIME_UTC);
    return t.tv_sec + 1e-9 * t.tv_nsec;
}

/* All bytes of the results in one number: equal results, equal digests. */
static uint64_t digest(const void *bytes, size_t size, uint64_t from) {
    const unsigned char *b = bytes;
    for (size_t i = 0; i < size; i++) from = (from ^ b[i]) * 1099511628211u;
    return from;
}

static void tell(uint64_t count, double seconds, uint64_t results) {
    printf("%llu %.6f %016llx\n", (unsigned long long)count, seconds, (unsigned long long)results);
}

/* A year of minutes, no samples. The force makes r circle once in 2 pi seconds, far too fast for such a step: the numbers grow past
 * all bounds, and no pass is spared. So the step is set to 2^-10 s of a year as long. */
static task year(bool defaults) {
    task k = {gj_default_settings(), 0.0, 525600.0 * 0x1p-10, {1.0, -2.0, 0.5}, {0.25, 0.125, -3.0}, NULL, 0};
    k.settings.h = 0x1p-10;
    if (!defaults) k.settings.corrector_tol = k.settings.startup_tol = 0.0;
    return k;
}

static task day(double *out) {
    task k = year(true);
    k.tf = STEPS * 0x1p-10, k.settings.samples = true, k.out = out, k.count = NUMBERS;
    return k;
}

static void run_year(const column *c, bool defaults) {
    task k = year(defaults);
    gj_reply end = {0};
    double began = now();
    c->run(&k, &end);
    tell(end.evals, now() - began, digest(&end, sizeof end, 14695981039346656037u));
}

/* The same day over and over into the same room, which is not cleared in between. */
static void run_days(const column *c) {
    static double out[NUMBERS];
    task k = day(out);
    gj_reply end = {0};
    double began = now();
    for (int i = 0; i < DAYS; i++) c->run(&k, &end);
    double seconds = now() - began;
    tell(DAYS * end.evals, seconds, digest(out, sizeof out, digest(&end, sizeof end, 14695981039346656037u)));
}

/* What was read off: positions and velocities in one number, accelerations, which the module has not, in another. */
static void tell_rows(double seconds, const double *rows) {
    uint64_t states = 14695981039346656037u, accelerations = states;
    for (int i = 0; i < READINGS; i++) {
        const gj_triple *row = (const gj_triple *)(rows + GJ_BETWEEN_NUMBERS * i);
        states = digest(row, 2 * sizeof *row, states);
        accelerations = digest(row + 2, sizeof *row, accelerations);
    }
    printf("%d %.6f %016llx %016llx\n", READINGS, seconds, (unsigned long long)states, (unsigned long long)accelerations);
}

/* A million times across a day's samples, in the order of time. */
static void read_off(const column *c, bool batch) {
    static double out[NUMBERS], times[READINGS], rows[GJ_BETWEEN_NUMBERS * READINGS];
    task k = day(out);
    gj_reply end;
    plain_run(&k, &end);
    for (int i = 0; i < READINGS; i++) times[i] = k.tf * i / READINGS;
    reading in = {times, READINGS, out, NUMBERS, rows, GJ_BETWEEN_NUMBERS};
    double began = now();
    uint32_t refusal = c->read(&in, batch);
    double seconds = now() - began;
    if (refusal != 0) exit(3);
    tell_rows(seconds, rows);
}

/* A million numbers of all sizes above zero, from 2^-500 up to 2^500. */
static bool take_roots(const column *c) {
    static double numbers[ROOTS], roots[ROOTS];
    uint64_t state = 1;
    if (c->root == NULL) return false;
    for (int i = 0; i < ROOTS; i++) {
        state = state * 6364136223846793005u + 1442695040888963407u;
        uint64_t bits = (state >> 12) | ((523 + (state >> 33) % 1001) << 52);
        memcpy(&numbers[i], &bits, sizeof bits);
    }
    double began = now();
    for (int i = 0; i < ROOTS; i++) roots[i] = c->root(numbers[i]);
    tell(ROOTS, now() - began, digest(roots, sizeof roots, 14695981039346656037u));
    return true;
}

/* A run that waits there: with samples, every pass and a tail. */
static gj_run run_at(const struct point *p) {
    static double out[NUMBERS];
    task k = day(out);
    gj_run run;
    k.tf = 12.5 * 0x1p-10, k.settings.corrector_tol = k.settings.startup_tol = 0.0;
    gj_reply reply = gj_start(&run, k.settings, k.t0, k.tf, k.r0, k.v0);
    while (run.mark.at != p->at || run.mark.index != p->index || run.mark.stage != p->stage) {
        if (reply.kind != GJ_ASK) exit(3);
        reply = gj_answer(&run, reply.number, (gj_triple){-reply.r.x, -reply.r.y, -reply.r.z}, 0, k.out, k.count);
    }
    return run;
}

/* Every field of a run; what lies between fields may be anything. */
static uint64_t digest_run(const gj_run *run, uint64_t from) {
    const gj_mark *m = &run->mark;
    const gj_body *b = &run->body;
    uint64_t mark[] = {m->at, m->index, m->stage, m->count.number, m->count.evals, b->plan.settings.samples};
    from = digest(mark, sizeof mark, digest(&b->plan.settings, offsetof(gj_settings, samples), from));
    return digest((const char *)b + offsetof(gj_body, plan.t0), sizeof *b - offsetof(gj_body, plan.t0), from);
}

/* The same run over and over into the same bytes. */
static void put_away(const column *c, const struct point *p) {
    static uint8_t form[GJ_STORED_SIZE];
    gj_run run = run_at(p);
    uint32_t refusal = 0;
    double began = now();
    for (int i = 0; i < STORINGS; i++) refusal |= c->store(&run, form, sizeof form);
    double seconds = now() - began;
    if (refusal != 0) exit(3);
    tell(STORINGS, seconds, digest(form, sizeof form, 14695981039346656037u));
}

/* The same bytes over and over into a run that had ended. */
static void take_up(const column *c, const struct point *p) {
    static uint8_t form[GJ_STORED_SIZE];
    gj_run run = run_at(p), taken = {0};
    gj_reply reply = {0};
    if (plain_store(&run, form, sizeof form) != 0) exit(3);
    double began = now();
    for (int i = 0; i < STORINGS; i++) reply = c->load(&taken, form, sizeof form);
    double seconds = now() - began;
    if (reply.kind != GJ_ASK) exit(3);
    tell(STORINGS, seconds, digest_run(&taken, digest(&reply, sizeof reply, 14695981039346656037u)));
}

/* A work at a waiting point; whether there is such a work, and the column has it. */
static bool store_or_load(const column *c, const char *work) {
    bool away = strncmp(work, "store-", 6) == 0, up = strncmp(work, "load-", 5) == 0;
    const char *name = strchr(work, '-');
    if ((!away && !up) || c->store == NULL) return false;
    for (size_t i = 0; i < sizeof POINTS / sizeof *POINTS; i++) {
        if (strcmp(POINTS[i].name, name + 1) != 0) continue;
        if (away) put_away(c, &POINTS[i]);
        else take_up(c, &POINTS[i]);
        return true;
    }
    return false;
}

int main(int argc, char **argv) {
    if (argc != 3) return 2;
    const column *c = COLUMNS;
    while (strcmp(c->name, argv[1]) != 0)
        if (++c == COLUMNS + 4) return 2;
    if (strcmp(argv[2], "year") == 0) run_year(c, false);
    else if (strcmp(argv[2], "year-defaults") == 0) run_year(c, true);
    else if (strcmp(argv[2], "day") == 0) run_days(c);
    else if (strcmp(argv[2], "single") == 0) read_off(c, false);
    else if (strcmp(argv[2], "batch") == 0) read_off(c, true);
    else if (strcmp(argv[2], "root") == 0) return take_roots(c) ? 0 : 2;
    else return store_or_load(c, argv[2]) ? 0 : 2;
    return 0;
}
