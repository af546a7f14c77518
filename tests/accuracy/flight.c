/* SPDX-License-Identifier: MIT OR Apache-2.0 */
#include "flight.h"

#include <math.h>

static const double MU = 398600.4418, RADIUS = 6378.137, J2 = 1.08262668e-3;

static double square(gj_triple a) { return a.x * a.x + a.y * a.y + a.z * a.z; }

double distance(gj_triple a, gj_triple b) {
    gj_triple d = {a.x - b.x, a.y - b.y, a.z - b.z};
    return sqrt(square(d));
}

/* A point and its flattening, the axis along z. */
gj_triple force(gj_triple r) {
    double d2 = square(r), pull = -MU / (d2 * sqrt(d2)), flat = 1.5 * J2 * (RADIUS * RADIUS) / d2, slant = 5.0 * r.z * r.z / d2;
    double across = pull * (1.0 + flat * (1.0 - slant)), along = pull * (1.0 + flat * (3.0 - slant));
    gj_triple a = {across * r.x, across * r.y, along * r.z};
    return a;
}

/* Of one kg, in MJ: it stays the same on the true path. */
static double energy(gj_triple r, gj_triple v) {
    double d2 = square(r), flat = J2 * (RADIUS * RADIUS) / d2;
    return square(v) / 2.0 - MU / sqrt(d2) * (1.0 - flat * (1.5 * r.z * r.z / d2 - 0.5));
}

gj_reply fly(place from, double until, double h, double *samples, size_t room) {
    gj_run run;
    gj_settings settings = gj_default_settings();
    settings.h = h;
    settings.samples = samples != 0;
    gj_reply reply = gj_start(&run, settings, from.t, until, from.r, from.v);
    while (reply.kind == GJ_ASK) reply = gj_answer(&run, reply.number, force(reply.r), 0, samples, room);
    return reply;
}

measured out_and_back(place start, double span, double h) {
    measured m = {0, 0.0, 0.0, 0, {0.0, 0.0, 0.0}};
    gj_reply far = fly(start, start.t + span, h, 0, 0);
    m.refusal = far.refusal;
    if (far.kind != GJ_DONE) return m;
    place turn = {far.t, far.r, far.v};
    gj_reply home = fly(turn, start.t, h, 0, 0);
    double before = energy(start.r, start.v);
    m.refusal = home.refusal;
    m.returned = 1000.0 * distance(home.r, start.r);
    m.energy = fabs((energy(far.r, far.v) - before) / before);
    m.answers = far.evals;
    m.far_end = far.r;
    return m;
}
