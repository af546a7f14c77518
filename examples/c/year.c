/* SPDX-License-Identifier: MIT OR Apache-2.0 */
/* A year of one-minute steps, 420 km up, with the Earth as a point and its bulge (J2).
 *
 *   year            prints what the flight takes, a table by month as it is flown, how far the energy moved, and the last ground track
 *   year --csv      prints a row an hour, for other programs
 *
 * Height is that above a ball of the equator's radius.
 */
#include "year.h"

#include <unistd.h>

static const double J2 = 1.08262668e-3, HEIGHT = 420.0;
static const int MONTHS[] = {31, 28, 31, 30, 31, 30, 31, 31, 30, 31, 30, 31}; /* their days */

/* The bulge draws towards the equator's plane: J2's part, relative to the point's. */
static gj_triple force(gj_triple r) {
    double square = r.x * r.x + r.y * r.y + r.z * r.z, pull = -MU / (square * sqrt(square));
    double bulge = 1.5 * J2 * EARTH * EARTH / square, slope = 5.0 * r.z * r.z / square;
    gj_triple a = {pull * r.x * (1.0 + bulge * (1.0 - slope)), pull * r.y * (1.0 + bulge * (1.0 - slope)),
                   pull * r.z * (1.0 + bulge * (3.0 - slope))};
    return a;
}

/* Of motion and place together, a unit of mass; the force keeps it, so what it moves by is error. */
static double energy(const double *sample) {
    gj_triple r = {sample[1], sample[2], sample[3]}, v = {sample[4], sample[5], sample[6]};
    double d = distance(r), speed = distance(v), sine = r.z / d, part = J2 * (EARTH / d) * (EARTH / d);
    return speed * speed / 2.0 - MU / d * (1.0 - part * (3.0 * sine * sine - 1.0) / 2.0);
}

static double height(const double *sample) {
    gj_triple r = {sample[1], sample[2], sample[3]};
    return distance(r) - EARTH;
}

/* Where the orbit's plane goes up through the equator's. */
static double node(const double *s) { return atan2(s[2] * s[6] - s[3] * s[5], s[1] * s[6] - s[3] * s[4]) * DEGREES; }

/* One line, written over itself; nothing where standard error is no terminal. The bar goes by the steps, whose number is known: it is full
 * when the run is done. How many answers that takes is known within two bounds, so that they may end well before the most. */
static void show_progress(gj_cost cost, uint64_t step, uint64_t answers) {
    static const char full[] = "################", empty[] = "................";
    int width = sizeof full - 1, filled = (int)((uint64_t)width * step / cost.steps);
    if (!isatty(2)) return;
    fprintf(stderr, "\r  step %llu of %llu [%.*s%.*s] answer %llu of at most %llu ", (unsigned long long)step, (unsigned long long)cost.steps,
            filled, full, width - filled, empty, (unsigned long long)answers, (unsigned long long)cost.most);
    fflush(stderr);
}

static void end_progress(void) {
    if (isatty(2)) fprintf(stderr, "\r%78s\r", "");
}

static gj_whole_reply start_year(gj_run *run) {
    double radius = EARTH + HEIGHT, speed = sqrt(MU / radius);
    gj_triple r0 = {radius, 0.0, 0.0}, v0 = {0.0, speed * COS_INCLINATION, speed * SIN_INCLINATION};
    gj_settings settings = gj_default_settings();
    settings.h = STEP, settings.samples = 1;
    return gj_start_whole(run, settings, 0.0, (double)STEPS * STEP, r0, v0);
}

/* What is known of the flight so far. A sample is looked at once, when it is stored; those of the last day are kept for the map. */
typedef struct diary {
    int csv;
    double first_energy, energy_change, most;
    double lowest, highest, before_z;
    int month, month_ends, revolutions;
    double last_day[KEPT_NUMBERS];
} diary;

static void print_month(diary *d, const double *sample) {
    static const char *const names[] = {"January", "February", "March",     "April",   "May",      "June",
                                        "July",    "August",   "September", "October", "November", "December"};
    printf("  %-10s %4d %12d %11.3f %11.3f %9.2f %13.2e\n", names[d->month], MONTHS[d->month], d->revolutions, d->lowest, d->highest, node(sample),
           d->energy_change);
}

/* A month goes from its first sample to the next month's first, which belongs to both. */
static void begin_month(diary *d, double height) { d->lowest = d->highest = height; }

static void note_month(diary *d, int n, const double *sample) {
    double h = height(sample);
    if (n == 0) begin_month(d, h), d->month_ends = MONTHS[0] * STEPS_A_DAY;
    d->lowest = fmin(d->lowest, h), d->highest = fmax(d->highest, h);
    /* Up through the equator since the sample before. */
    d->revolutions += n > 0 && d->before_z < 0.0 && sample[3] >= 0.0;
    d->before_z = sample[3];
    if (n < d->month_ends) return;
    end_progress();
    if (!d->csv) print_month(d, sample);
    if (++d->month == 12) return;
    begin_month(d, h), d->month_ends += MONTHS[d->month] * STEPS_A_DAY;
}

static void print_hour(const diary *d, const double *s) {
    double row[] = {s[0], s[1], s[2], s[3], s[4], s[5], s[6], height(s), d->energy_change};
    print_csv(row, 9);
}

static void note(diary *d, int n, const double *sample) {
    if (n == 0) d->first_energy = energy(sample);
    d->energy_change = (energy(sample) - d->first_energy) / fabs(d->first_energy);
    d->most = fmax(d->most, fabs(d->energy_change));
    note_month(d, n, sample);
    if (n >= FIRST_KEPT) memcpy(d->last_day + GJ_SAMPLE_NUMBERS * (n - FIRST_KEPT), sample, GJ_SAMPLE_NUMBERS * sizeof *sample);
    if (d->csv && n % 60 == 0) print_hour(d, sample);
}

/* Through a room of five samples that begins at the next one, used again and again: a year's table would take 42 MB. What a call stored is
 * taken out before its kind is looked at. Shows how far it is once a day of the flight. */
static gj_reply carry_forward(gj_run *run, gj_whole_reply begun, diary *d) {
    double room[5 * GJ_SAMPLE_NUMBERS];
    gj_reply reply = begun.reply;
    uint64_t so_far = 0;
    for (uint64_t answers = 1; reply.kind == GJ_ASK; answers++) {
        reply = gj_answer(run, reply.number, force(reply.r), so_far, room, 5 * GJ_SAMPLE_NUMBERS);
        for (uint64_t i = 0; i < reply.stored; i++) note(d, (int)(so_far + i), room + GJ_SAMPLE_NUMBERS * i);
        so_far += reply.stored;
        if (reply.stored > 0 && so_far % STEPS_A_DAY == 0) show_progress(begun.cost, so_far - 1, answers);
    }
    end_progress();
    return reply;
}

static void print_heading(void) {
    printf("A year from an orbit fix: %.0f km up, 51.6 degrees, %d steps of a minute.\n", HEIGHT, STEPS);
    printf("The Earth is a point with a bulge (J2). Node and energy: at the month's end.\n\n");
    printf("  month      days  revolutions   lowest km  highest km  node deg energy change\n");
    fflush(stdout);
}

static void print_end(gj_reply end, const diary *d) {
    printf("\nFinished at day %.0f: %llu steps, %llu answers, %llu startup passes.\n", end.t / 86400.0, (unsigned long long)end.steps,
           (unsigned long long)end.evals, (unsigned long long)end.startup_iters);
    printf("The energy moved by %.1e of itself at most, over the whole year.\n", d->most);
}

/* The diary is laid out for so many steps, no fewer and no more. */
static int is_a_year(gj_cost cost) {
    if (cost.steps == STEPS) return 1;
    fprintf(stderr, "the flight takes %llu steps, and the diary is laid out for %d\n", (unsigned long long)cost.steps, STEPS);
    return 0;
}

int main(int argc, char **argv) {
    static diary d;
    d.csv = has_word(argc, argv, "--csv");
    if (d.csv < 0) {
        fprintf(stderr, "usage: year [--csv]\n");
        return 2;
    }
    gj_run run;
    gj_whole_reply begun = start_year(&run);
    if (begun.reply.kind != GJ_ASK) return tell_refusal(begun.reply.refusal);
    if (!is_a_year(begun.cost)) return 1;
    if (d.csv)
        puts("t_s,x_km,y_km,z_km,vx_km_s,vy_km_s,vz_km_s,height_km,energy_change");
    else
        print_cost(begun.cost), print_heading();
    gj_reply end = carry_forward(&run, begun, &d);
    if (end.kind != GJ_DONE) return tell_refusal(end.refusal);
    if (d.csv) return 0;
    print_end(end, &d);
    uint32_t refusal = draw_track(d.last_day, 3);
    return refusal == 0 ? 0 : tell_refusal(refusal);
}
