/* Times of the proved calls beside the same calls written in C, in one run: the versions take turns, values and plans are compared, and the
 * ratio of the medians is printed. Below 1 the proved call is the faster one.
 *
 * A call includes the check of every cell, on both sides. "One pass" leaves it out: of the proved call it is a multiplier call less one that
 * is refused at the last cell, and by hand it is the pass and the walk along its choices, with no check. Both sides take weights: all 1, but
 * random ones in the rows that are called uneven. */
#define _POSIX_C_SOURCE 199309L
#include "qpl.h"
#include "reference.h"
#include "turns.h"

#include <stdio.h>

#define MOST (16 + 1023 * 256)

static uint32_t rates[MOST], distortions[MOST];
static uint8_t weights[1024], scratch[16384], plans[3][1024];

enum content { RANDOM, SMOOTH, UNEVEN };
static const char *const contents[] = {"random", "smooth", "uneven"};

/* Random cells; or smooth ones, where a higher setting takes fewer bits and leaves more error, and a rough scan before costs both; or random
 * weights, and random cells that are legal with them. */
static void fill(size_t scans, size_t settings, enum content content) {
    size_t k = settings, cells = k + (scans - 1) * k * k;
    for (size_t i = 0; i < scans; i++) weights[i] = content == UNEVEN ? (uint8_t)drawn(256) : 1;
    for (size_t c = 0; c < cells; c++) {
        size_t q = c < k ? c : (c - k) % k, p = c < k ? 0 : (c - k) / k % k, i = c < k ? 0 : 1 + (c - k) / (k * k);
        if (content == SMOOTH) {
            uint32_t wave = (uint32_t)(i % 97);
            rates[c] = (uint32_t)(20000 / (q + 1) + 300 * p) + 40 * wave + drawn(30);
            distortions[c] = (uint32_t)(900 * (q + 1) * (q + 1) + 250 * p) + 15 * wave + drawn(30);
        } else {
            rates[c] = drawn(MOST_CELL + 1);
            distortions[c] = drawn(MOST_CELL / (weights[i] > 1 ? weights[i] : 1) + 1);
        }
    }
}

enum call { PASS, MULTIPLIER, AVERAGE, MINMAX };
static const char *const names[] = {"one pass", "multiplier", "average", "minmax"};
static const size_t lengths[] = {QPL_MULTIPLIER_ANSWER, QPL_MULTIPLIER_ANSWER, QPL_AVERAGE_ANSWER, QPL_MINMAX_ANSWER};

/* The values of the proved call, and how many there are: 0 where it refuses. */
static size_t proved(enum call which, const job *j, uint64_t limit, uint64_t *v) {
    uint8_t answer[QPL_AVERAGE_ANSWER] = {0};
    size_t cells = j->settings + (j->scans - 1) * j->settings * j->settings;
    uint64_t given;
    if (which <= MULTIPLIER)
        given = qpl_multiplier(j->scans, j->settings, j->law, limit, 1, rates, cells, distortions, cells, weights, j->scans, plans[0], 1024,
                               scratch, 16384, answer, sizeof answer);
    else if (which == AVERAGE)
        given = qpl_average(j->scans, j->settings, j->law, limit, rates, cells, distortions, cells, weights, j->scans, plans[0], 1024, scratch,
                            16384, answer, sizeof answer);
    else
        given = qpl_minmax(j->scans, j->settings, j->law, limit, rates, cells, distortions, cells, weights, j->scans, plans[0], 1024, scratch,
                           16384, answer, sizeof answer);
    if (given) return 0;
    for (size_t k = 0; k < lengths[which] / 8; k++) v[k] = qpl_value(answer, k);
    return lengths[which] / 8;
}

static size_t by_hand(int version, enum call which, const job *j, uint64_t limit, uint64_t *v) {
    uint8_t *plan = plans[version];
    int checked = which != PASS;
    if (which <= MULTIPLIER)
        return version == 1 ? straight_multiplier(j, limit, 1, checked, plan, v) : least_multiplier(j, limit, 1, checked, plan, v);
    if (which == AVERAGE) return version == 1 ? straight_average(j, limit, checked, plan, v) : least_average(j, limit, checked, plan, v);
    return version == 1 ? straight_minmax(j, limit, checked, plan, v) : least_minmax(j, limit, checked, plan, v);
}

/* The time of one call of this version, which is repeated where the clock could not tell; its values, and how many there are. */
static double timed(int version, enum call which, const job *j, uint64_t limit, uint64_t *v, size_t *count, size_t times) {
    double start = now();
    for (size_t k = 0; k < times; k++) *count = version == 0 ? proved(which, j, limit, v) : by_hand(version, which, j, limit, v);
    return (now() - start) / (double)times;
}

/* Version 0 is the proved call, 1 the straightforward loop, 2 the least key first. */
static int row(enum call which, size_t scans, size_t settings, size_t law, enum content content) {
    double took[3][TURNS];
    uint64_t v[3][6] = {{0}}, unused[6] = {0}, limit;
    size_t counts[3] = {0}, refused = 0;
    job j = {rates, distortions, weights, scans, settings, law, scratch};
    size_t cells = settings + (scans - 1) * settings * settings, times = 1 + 60000 / cells / (which <= MULTIPLIER ? 1 : 8);
    fill(scans, settings, content);
    /* a multiplier of 1, or a budget half way from the least rate to the rate of the plan at multiplier zero */
    straight_thrifty(&j, FORBIDDEN);
    limit = walk(&j, NULL).rate;
    straight_cost(&j, 0, 1);
    limit = which <= MULTIPLIER ? 1 : (limit + walk(&j, NULL).rate) / 2;
    for (int turn = 0; turn < TURNS; turn++) {
        for (int version = 0; version < 3; version++)
            took[version][turn] = timed(version, which, &j, limit, v[version], &counts[version], times);
        if (which == PASS) {
            uint32_t last = distortions[cells - 1];
            distortions[cells - 1] = MOST_CELL + 1;
            took[0][turn] -= timed(0, which, &j, limit, unused, &refused, times);
            distortions[cells - 1] = last;
        }
    }
    for (int version = 0; version < 3; version++)
        if (counts[version] != lengths[which] / 8 || memcmp(v[0], v[version], lengths[which]) || memcmp(plans[0], plans[version], scans))
            return printf("%s: results differ\n", names[which]), 1;
    if (refused != 0) return printf("%s: an illegal cell is not refused\n", names[which]), 1;
    double ours = median(took[0]);
    printf("%-10s N %4zu Q %2zu law %zu %-6s  %9.1f us  %5.3f  %5.3f\n", names[which], scans, settings, law, contents[content], ours,
           ours / median(took[1]), ours / median(took[2]));
    return 0;
}

int main(void) {
    static const size_t scans[] = {64, 256, 1024}, settings[] = {4, 8, 16};
    int failed = 0;
    printf("call, table, time of the proved call, and its ratio to the straightforward loop and to the one that takes the least key first\n");
    for (int which = PASS; which <= MINMAX; which++)
        for (int s = 0; s < 3; s++)
            for (int k = 0; k < 3; k++) failed += row((enum call)which, scans[s], settings[k], 0, RANDOM);
    for (int which = PASS; which <= MINMAX; which++)
        for (int k = 0; k < 3; k++) {
            failed += row((enum call)which, 1024, settings[k], 1, RANDOM);
            failed += row((enum call)which, 1024, settings[k], 2, RANDOM);
            failed += row((enum call)which, 1024, settings[k], 0, SMOOTH);
        }
    for (int which = PASS; which <= MULTIPLIER; which++)
        for (int k = 0; k < 3; k += 2) failed += row((enum call)which, 1024, settings[k], 0, UNEVEN);
    return failed != 0;
}
