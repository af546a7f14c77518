/* SPDX-License-Identifier: MIT OR Apache-2.0 */
/* An orbit 400 km up, carried forward for a day in one-minute steps, and read off between the steps; what a ground station needs of it to
 * plan its radio stands beside.
 *
 *   orbit           prints what the flight takes, and a table
 *   orbit --csv     prints every sample, for other programs
 *   orbit --bits    prints every sample, the finished state and the table's values by their bits, for comparison
 *
 * GJ_DENSE 0 builds it for a library without interpolation: the table then stands at samples.
 */
#include "orbit.h"
#include "station.h"

#include <stdlib.h>

#ifndef GJ_DENSE
#define GJ_DENSE 1
#endif

enum { ROWS = 24 };

/* Every answer brings the room that the start has told. */
static gj_reply carry_forward(gj_run *run, gj_whole_reply begun, double *samples) {
    gj_reply reply = begun.reply;
    while (reply.kind == GJ_ASK)
        reply = gj_answer(run, reply.number, force(reply.r), 0, samples, begun.cost.numbers);
    return reply;
}

/* Once an hour, and half a minute past: between two samples. */
static double time_of(int row) { return 3600.0 * row + (GJ_DENSE ? 30.0 : 0.0); }

/* Position, velocity and acceleration at each row; 0, or a refusal. A sample has the same after its time. */
static uint32_t read_off(const double *samples, size_t numbers, double *rows) {
#if GJ_DENSE
    double times[ROWS];
    for (int row = 0; row < ROWS; row++) times[row] = time_of(row);
    return gj_interpolate_batch(times, ROWS, samples, numbers, rows, GJ_BETWEEN_NUMBERS * ROWS);
#else
    (void)numbers;
    for (int row = 0; row < ROWS; row++)
        memcpy(rows + GJ_BETWEEN_NUMBERS * row, samples + GJ_SAMPLE_NUMBERS * 60 * row + 1, GJ_BETWEEN_NUMBERS * sizeof *rows);
    return 0;
#endif
}

static void print_row(double t, motion m) {
    int s = (int)t;
    ranging to = range_to(m, t);
    printf("%02d:%02d:%02d", s / 3600, s / 60 % 60, s % 60);
    printf("  %10.3f %10.3f %10.3f", m.r.x, m.r.y, m.r.z);
    printf("  %9.6f %9.6f %9.6f", m.v.x, m.v.y, m.v.z);
    printf("  %8.4f", distance(m.r) - EARTH);
    printf("  %10.3f %9.6f %8.4f\n", to.range, to.rate, 1000.0 * to.change);
}

/* The finished state has no acceleration: the last sample, at the same time, has it. */
static void print_table(gj_reply end, const double *samples, const double *rows) {
    printf("An orbit 400 km up, %llu steps of a minute; %s.\n", (unsigned long long)end.steps,
           GJ_DENSE ? "read off between steps" : "read off at steps");
    printf("Range, its rate and how fast the rate changes: from a station 45 degrees north by Greenwich, in its sight or not.\n\n");
    printf("    time       x km       y km       z km    vx km/s   vy km/s   vz km/s    height    range km rate km/s   m/s^2\n");
    for (int row = 0; row < ROWS; row++) {
        motion m;
        memcpy(&m, rows + GJ_BETWEEN_NUMBERS * row, sizeof m);
        print_row(time_of(row), m);
    }
    motion last = {end.r, end.v, {0.0, 0.0, 0.0}};
    memcpy(&last.a, samples + GJ_SAMPLE_NUMBERS * end.steps + 7, sizeof last.a);
    print_row(end.t, last);
    printf("\nFinished at %.0f s: %llu steps, %llu answers, %llu startup passes.\n", end.t, (unsigned long long)end.steps,
           (unsigned long long)end.evals, (unsigned long long)end.startup_iters);
}

static void print_bits(const double *numbers, int count) {
    for (int i = 0; i < count; i++) {
        unsigned long long bits;
        memcpy(&bits, numbers + i, sizeof bits);
        printf(" %016llx", bits);
    }
}

static void print_all_bits(gj_reply end, const double *samples, const double *rows) {
    for (uint64_t n = 0; n <= end.steps; n++) {
        printf("sample %llu", (unsigned long long)n);
        print_bits(samples + GJ_SAMPLE_NUMBERS * n, GJ_SAMPLE_NUMBERS);
        puts("");
    }
    double state[] = {end.t, end.r.x, end.r.y, end.r.z, end.v.x, end.v.y, end.v.z};
    printf("done");
    print_bits(state, 7);
    printf(" %llu %llu %llu\n", (unsigned long long)end.evals, (unsigned long long)end.steps,
           (unsigned long long)end.startup_iters);
    for (int row = 0; GJ_DENSE && row < ROWS; row++) {
        printf("interp");
        print_bits(rows + GJ_BETWEEN_NUMBERS * row, GJ_BETWEEN_NUMBERS);
        puts("");
    }
}

static void print_samples(gj_reply end, const double *samples) {
    puts("t_s,x_km,y_km,z_km,vx_km_s,vy_km_s,vz_km_s,ax_km_s2,ay_km_s2,az_km_s2");
    for (uint64_t n = 0; n <= end.steps; n++) print_csv(samples + GJ_SAMPLE_NUMBERS * n, GJ_SAMPLE_NUMBERS);
}

typedef enum form { TABLE, CSV, BITS } form;

static int fly(gj_run *run, gj_whole_reply begun, double *samples, form wanted) {
    double rows[GJ_BETWEEN_NUMBERS * ROWS];
    gj_reply end = carry_forward(run, begun, samples);
    uint32_t refusal = end.kind == GJ_DONE ? read_off(samples, begun.cost.numbers, rows) : end.refusal;
    if (refusal != 0) return tell_refusal(refusal);
    if (wanted == BITS)
        print_all_bits(end, samples, rows);
    else if (wanted == CSV)
        print_samples(end, samples);
    else
        print_table(end, samples, rows);
    return 0;
}

int main(int argc, char **argv) {
    int csv = has_word(argc, argv, "--csv"), bits = has_word(argc, argv, "--bits");
    if (csv < 0 && bits < 0) {
        fprintf(stderr, "usage: orbit [--csv | --bits]\n");
        return 2;
    }
    form wanted = bits == 1 ? BITS : csv == 1 ? CSV : TABLE;
    gj_run run;
    gj_whole_reply begun = start_day(&run, 1);
    if (begun.reply.kind != GJ_ASK) return tell_refusal(begun.reply.refusal);
    if (wanted == TABLE) print_cost(begun.cost);
    double *samples = calloc(begun.cost.numbers, sizeof *samples);
    if (samples == NULL) {
        perror("room for the samples");
        return 1;
    }
    int status = fly(&run, begun, samples, wanted);
    free(samples);
    return status;
}
