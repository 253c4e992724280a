/* The time of the check of every cell, beside streaming both tables once and a check written by hand, in one run: the versions take turns, and
 * medians and ratios are printed. The proved check is timed as a multiplier call that is refused at its last cell. Both checks take weights,
 * which are all 1. Streaming is the quickest of four sums (stream.c). This is no part of time.c, since a function more there moves the C loops
 * that it times. */
#define _POSIX_C_SOURCE 199309L
#include "cells.h"
#include "qpl.h"
#include "turns.h"

#include <stdio.h>
#include <string.h>

#define MOST (16 + 1023 * 256)
#define VERSIONS 6

uint64_t stream_cc_32(const uint32_t *, const uint32_t *, size_t), stream_cc_64(const uint32_t *, const uint32_t *, size_t);
uint64_t stream_kit_32(const uint32_t *, const uint32_t *, size_t), stream_kit_64(const uint32_t *, const uint32_t *, size_t);

static uint32_t rates[MOST], distortions[MOST];
static uint8_t weights[1024], plan[1024], scratch[16384], answer[QPL_MULTIPLIER_ANSWER];

/* Called through this, so that no repeated check is left out. */
static int (*volatile by_hand)(const uint32_t *, const uint32_t *, const uint8_t *, size_t, size_t) = illegal;

/* Version 0 is the proved call, 1 the check by hand, and the others stream: what the call gave back, whether a cell is illegal, the sum. */
static uint64_t called(int version, size_t scans, size_t settings, size_t cells) {
    switch (version) {
    case 0:
        return qpl_multiplier(scans, settings, 0, 1, 1, rates, cells, distortions, cells, weights, scans, plan, sizeof plan, scratch,
                              sizeof scratch, answer, sizeof answer);
    case 1: return (uint64_t)by_hand(rates, distortions, weights, scans, settings);
    case 2: return stream_cc_32(rates, distortions, cells);
    case 3: return stream_cc_64(rates, distortions, cells);
    case 4: return stream_kit_32(rates, distortions, cells);
    default: return stream_kit_64(rates, distortions, cells);
    }
}

/* Random legal cells, the last one illegal, and all weights 1. */
static void fill(size_t cells) {
    memset(weights, 1, sizeof weights);
    for (size_t k = 0; k < cells; k++) {
        rates[k] = drawn(MOST_CELL + 1);
        distortions[k] = drawn(MOST_CELL + 1);
    }
    distortions[cells - 1] = MOST_CELL + 1;
}

/* What each version must have given: 7 at the last cell, an illegal one, and sums that agree. */
static int agree(const uint64_t *given, size_t cells) {
    return qpl_refusal(given[0]) == 7 && qpl_carried(given[0]) == cells - 1 && given[1] == 1 && given[2] == given[4] &&
           given[3] == given[5] && given[2] == (uint32_t)given[3];
}

static int row(size_t scans, size_t settings) {
    double took[VERSIONS][TURNS], medians[VERSIONS], stream;
    uint64_t given[VERSIONS];
    size_t cells = settings + (scans - 1) * settings * settings, times = 1 + 600000 / cells;
    fill(cells);
    for (int turn = 0; turn < TURNS; turn++)
        for (int version = 0; version < VERSIONS; version++) {
            double start = now();
            for (size_t k = 0; k < times; k++) given[version] = called(version, scans, settings, cells);
            took[version][turn] = (now() - start) / (double)times;
        }
    if (!agree(given, cells)) return printf("check: results differ\n"), 1;
    for (int version = 0; version < VERSIONS; version++) medians[version] = median(took[version]);
    stream = medians[2];
    for (int version = 3; version < VERSIONS; version++) stream = medians[version] < stream ? medians[version] : stream;
    printf("check      N %4zu Q %2zu %6zu cells  %7.2f us  streaming %6.2f us  %5.3f  by hand %7.2f us  %5.3f\n", scans, settings, cells,
           medians[0], stream, medians[0] / stream, medians[1], medians[0] / medians[1]);
    return 0;
}

int main(void) {
    static const size_t scans[] = {64, 256, 1024}, settings[] = {4, 8, 16};
    int failed = 0;
    printf("the check of every cell, its time, and its ratio to streaming both tables once and to a check by hand\n");
    for (int s = 0; s < 3; s++)
        for (int k = 0; k < 3; k++) failed += row(scans[s], settings[k]);
    return failed != 0;
}
