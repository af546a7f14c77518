/* SPDX-License-Identifier: MIT OR Apache-2.0 */
/* The ground track on a map of letters, 5 degrees a letter. It is read off every 20 seconds, between the steps, in one batch. */
#include "year.h"

enum { WIDTH = 72, ROWS = 24, EVERY = 20, MOST = 1500 };

typedef char map[ROWS][WIDTH + 1];

/* Land, roughly. */
static const map LAND = {
    "   ..    .........  ....           . ...........................   ..   ",
    "          ...............         .. ............................  .    ",
    "           ............ ..         ..............................       ",
    "           ...........            ... . ..  ..................  .       ",
    "           ..........             .. .. ...... ............. . .        ",
    "            ........              ..... .  .................  .         ",
    "             ....  .             ...........................            ",
    "               ..  .             ...............  ......... .           ",
    "               ....  .           ..............   ...  ..   .           ",
    "                  .  .          ..............     .   ...  .           ",
    "                   ......        .............      .       .           ",
    "                    ......            .......          .. ..            ",
    "                    ........          ......            . . . ..        ",
    "                    .........         ......             ..    ...      ",
    "                    .........          ..... .                ...       ",
    "                      ......          ...... .              .....       ",
    "                      ......           ....  .             .......      ",
    "                      ....             ....                ........     ",
    "                      ....             ...                 .. .....     ",
    "                     ....                                       ..     .",
    "                     ..                                          .    . ",
    "                     ..                                                 ",
    "                     .  .                                               ",
    "                                                                        ",
};

/* Row 0 is 55 to 60 degrees north, column 0 begins at 180 degrees west. */
static void mark(map letters, double longitude, double latitude, char letter) {
    int column = (int)floor((longitude + 180.0) / 5.0), row = (int)floor((60.0 - latitude) / 5.0);
    if (column >= 0 && column < WIDTH && row >= 0 && row < ROWS) letters[row][column] = letter;
}

/* Where a place seen from among the stars lies on the turning Earth. */
static void mark_place(map letters, double t, const double *r, char letter) {
    gj_triple place = {r[0], r[1], r[2]};
    double longitude = fmod((atan2(r[1], r[0]) - TURN * t) * DEGREES, 360.0);
    if (longitude < -180.0) longitude += 360.0;
    mark(letters, longitude, asin(r[2] / distance(place)) * DEGREES, letter);
}

/* The step at which the last `revolutions` begin: that many times back up through the equator. */
static int first_step(const double *last_day, int revolutions) {
    int n = STEPS;
    while (n > FIRST_KEPT && revolutions >= 0) {
        n--;
        const double *s = last_day + GJ_SAMPLE_NUMBERS * (n - FIRST_KEPT);
        revolutions -= s[3] < 0.0 && s[3 + GJ_SAMPLE_NUMBERS] >= 0.0;
    }
    return n;
}

static void print_map(map letters) {
    printf("     180W       120W         60W          0          60E        120E       180E\n");
    for (int row = 0; row < ROWS; row++) {
        int edge = 60 - 5 * row;
        if (edge % 15 == 0)
            printf("%3d%c |%s|\n", edge < 0 ? -edge : edge, edge == 0 ? ' ' : edge > 0 ? 'N' : 'S', letters[row]);
        else
            printf("     |%s|\n", letters[row]);
    }
}

uint32_t draw_track(const double *last_day, int revolutions) {
    static double times[MOST], places[GJ_BETWEEN_NUMBERS * MOST];
    static map letters;
    int from = first_step(last_day, revolutions), count = 0, at = 0;
    for (double t = (double)from * STEP; t <= (double)STEPS * STEP && count < MOST; t += EVERY) times[count++] = t;
    uint32_t refusal =
        gj_interpolate_batch(times, (size_t)count, last_day, KEPT_NUMBERS, places, (size_t)GJ_BETWEEN_NUMBERS * (size_t)count);
    if (refusal != 0) return refusal;
    memcpy(letters, LAND, sizeof letters);
    for (int i = 0; i < count; i++) {
        const double *r = places + GJ_BETWEEN_NUMBERS * i;
        if (i > 0 && r[2 - GJ_BETWEEN_NUMBERS] < 0.0 && r[2] >= 0.0) at++;
        if (at > 0) mark_place(letters, times[i], r, (char)('0' + at));
    }
    mark_place(letters, times[count - 1], places + GJ_BETWEEN_NUMBERS * (count - 1), '@');
    printf("\nThe ground track of the last %d revolutions and of the one begun, up to @:\n\n", revolutions);
    print_map(letters);
    return 0;
}
