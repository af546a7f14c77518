/* SPDX-License-Identifier: MIT OR Apache-2.0 */
/* The orbits that are flown, each from its lowest point, in km and s. */
#ifndef ORBITS_H
#define ORBITS_H

#include "flight.h"

enum { MOST_STEPS = 6 };

typedef struct orbit {
    const char *name;
    place start;
    double period;            /* of the ellipse, without the flattening */
    double fine;              /* the step of the flight that the others are held beside */
    double steps[MOST_STEPS]; /* up to a 0 */
} orbit;

static const orbit LOW = {
    "low (420 km, 51.6°)",
    {0.0, {6798.137, 0.0, 0.0}, {0.0, 4.756295943340592, 6.000951996047267}},
    5578.2, 20.0, {30.0, 60.0, 120.0, 240.0, 480.0}};

static const orbit STATIONARY = {
    "geostationary",
    {0.0, {42164.17, 0.0, 0.0}, {0.0, 3.074660085810545, 0.0}},
    86164.1, 150.0, {60.0, 300.0, 900.0, 1800.0, 3600.0, 7200.0}};

static const orbit LONG = {
    "e 0.74 (12 h, 63.4°)",
    {0.0, {6906.0576, 0.0, 0.0}, {0.0, 4.487173095547835, 8.960677613896811}},
    43082.0, 10.0, {20.0, 30.0, 60.0, 120.0, 300.0}};

#endif
