/* Times of the proved call for the true best beside three C programs for it (best.h), in one run: the versions take turns, values, plans
 * and lent buffers are compared, and the medians of the times and their ratios are printed. Below 1 the proved call is the faster one.
 * Before that all versions are held against each other on many small tables, with forbidden cells, ties, and budgets that nothing keeps.
 *
 *   best               every row but those of
 *   best small FILE    two small tables, which it also writes to FILE with the call's answers and times, for best_mip.py */
#define _POSIX_C_SOURCE 199309L
#include "best.h"
#include "turns.h"

#include <stdio.h>

#define SCANS 64
#define SETTINGS 16
#define CELLS (16 + 63 * 256)
#define VERSIONS 4

static uint32_t rates[CELLS], distortions[CELLS], totals[4 * SETTINGS * MOST_WIDE];
static uint8_t weights[SCANS], plans[VERSIONS][SCANS], choices[SCANS * SETTINGS * MOST_WIDE];

static size_t cells_of(size_t scans, size_t settings) { return settings + (scans - 1) * settings * settings; }
static task task_of(size_t scans, size_t settings, size_t law, size_t budget) {
    task t = {rates, distortions, weights, scans, settings, law, budget, choices, totals};
    return t;
}

enum content { SMOOTH, RANDOM, UNEVEN };
static const char *const contents[] = {"smooth", "random", "uneven"};

/* Tables of which 64 bits for each scan is a budget that matters: smooth ones, with rates below 128 that fall with the setting while the
 * distortions rise; or random ones, of which the least distortion alone would take some 96 bits a scan; or smooth ones with random weights,
 * under which every distortion here is legal. */
static void fill(size_t scans, size_t settings, enum content content) {
    uint32_t k = (uint32_t)settings, steps = k > 1 ? k - 1 : 1;
    for (size_t i = 0; i < scans; i++) weights[i] = content == UNEVEN ? (uint8_t)drawn(256) : 1;
    for (size_t c = 0; c < cells_of(scans, settings); c++) {
        uint32_t q = (uint32_t)(c % settings);
        rates[c] = content == RANDOM ? drawn(192) : (k - 1 - q) * 112 / steps + drawn(16);
        distortions[c] = content == RANDOM ? drawn(4096) : 3200 * (q + 1) / k + drawn(800);
    }
}

/* The values of the proved call, and how many there are: 0 where it refuses. */
static size_t proved(const task *t, uint8_t *plan, uint64_t *v) {
    uint8_t answer[QPL_BEST_ANSWER] = {0};
    size_t cells = cells_of(t->scans, t->settings);
    if (qpl_best(t->scans, t->settings, t->law, t->budget, t->rates, cells, t->distortions, cells, t->weights, t->scans, plan, SCANS,
                 t->choices, sizeof choices, t->totals, sizeof totals / sizeof *totals, answer, sizeof answer))
        return 0;
    for (size_t k = 0; k < QPL_BEST_ANSWER / 8; k++) v[k] = qpl_value(answer, k);
    return QPL_BEST_ANSWER / 8;
}

static size_t (*const versions[VERSIONS])(const task *, uint8_t *, uint64_t *) = {proved, plain_best, turned_best, pairs_best};
static const char *const names[VERSIONS] = {"proved", "plain", "turned", "pairs"};

/* Whether what a call needs of both buffers is zero. */
static int wiped(const task *t) {
    uint32_t some = 0;
    for (size_t k = 0; k < t->scans * t->settings * budgets(t); k++) some |= t->choices[k];
    for (size_t k = 0; k < 4 * t->settings * budgets(t); k++) some |= t->totals[k];
    return some == 0;
}

/* The versions take the same buffers, which hold anything before a call. */
static void soil(const task *t) {
    memset(t->choices, 0xa5, t->scans * t->settings * budgets(t));
    memset(t->totals, 0xa5, 4 * t->settings * budgets(t) * sizeof *t->totals);
}

/* Whether a version has what the proved call has. */
static int equal(const task *t, int version, const size_t *counts, uint64_t v[][3]) {
    if (counts[version] != counts[0]) return 0;
    return counts[0] == 0 || (memcmp(v[0], v[version], sizeof v[0]) == 0 && memcmp(plans[0], plans[version], t->scans) == 0);
}

/* Small tables, in which one choice in eight is forbidden: how many of them have a plan, or -1 where the versions differ. */
static int small_tables(int tables) {
    int planned = 0;
    for (int k = 0; k < tables; k++) {
        size_t scans = 1 + drawn(6), settings = 1 + drawn(6), law = drawn(3), counts[VERSIONS];
        task t = task_of(scans, settings, law, drawn(40));
        uint64_t v[VERSIONS][3] = {{0}};
        for (size_t i = 0; i < scans; i++) weights[i] = (uint8_t)drawn(4);
        for (size_t c = 0; c < cells_of(scans, settings); c++) {
            rates[c] = drawn(8) ? drawn(16) : FORBIDDEN;
            distortions[c] = rates[c] == FORBIDDEN ? FORBIDDEN : drawn(6);
        }
        for (int version = 0; version < VERSIONS; version++) {
            soil(&t);
            counts[version] = versions[version](&t, plans[version], v[version]);
            if (!wiped(&t) || !equal(&t, version, counts, v)) return printf("small tables: %s differs\n", names[version]), -1;
        }
        planned += counts[0] != 0;
    }
    return planned;
}

/* The medians of the turns, and the values of the proved call. */
static int timed(const task *t, double *medians, uint64_t *values) {
    double took[VERSIONS][TURNS];
    uint64_t v[VERSIONS][3] = {{0}};
    size_t counts[VERSIONS] = {0}, times = 1 + 4000000 / (t->scans * t->settings * t->settings * budgets(t));
    soil(t);
    for (int turn = 0; turn < TURNS; turn++)
        for (int version = 0; version < VERSIONS; version++) {
            double start = now();
            for (size_t k = 0; k < times; k++) counts[version] = versions[version](t, plans[version], v[version]);
            took[version][turn] = (now() - start) / (double)times;
            if (counts[version] != 3 || !wiped(t) || !equal(t, version, counts, v))
                return printf("%s: results differ\n", names[version]), 1;
        }
    for (int version = 0; version < VERSIONS; version++) medians[version] = median(took[version]);
    memcpy(values, v[0], sizeof v[0]);
    return 0;
}

/* The small tables go to a file too: their numbers, what the call answers, and its time in nanoseconds, all whole. */
static void put(FILE *file, const task *t, const uint64_t *values, double took) {
    size_t cells = cells_of(t->scans, t->settings);
    fprintf(file, "%zu %zu %zu %zu\n", t->scans, t->settings, t->law, t->budget);
    for (size_t k = 0; k < 3; k++) fprintf(file, "%lu ", (unsigned long)values[k]);
    fprintf(file, "%lu\n", (unsigned long)(took * 1e3));
    for (size_t i = 0; i < t->scans; i++) fprintf(file, "%u\n", (unsigned)t->weights[i]);
    for (size_t c = 0; c < cells; c++) fprintf(file, "%lu\n", (unsigned long)t->rates[c]);
    for (size_t c = 0; c < cells; c++) fprintf(file, "%lu\n", (unsigned long)t->distortions[c]);
}

static int row(size_t scans, size_t settings, size_t budget, size_t law, enum content content, FILE *file) {
    task t = task_of(scans, settings, law, budget);
    double medians[VERSIONS];
    uint64_t values[3];
    fill(scans, settings, content);
    if (timed(&t, medians, values)) return 1;
    printf("best  N %2zu Q %2zu B %4zu law %zu %-6s  %7.3f ms", scans, settings, budget, law, contents[content], medians[0] / 1e3);
    for (int version = 1; version < VERSIONS; version++)
        printf("  %s %7.3f ms  %5.3f", names[version], medians[version] / 1e3, medians[0] / medians[version]);
    printf("\n");
    fflush(stdout);
    if (file != NULL) put(file, &t, values, medians[0]);
    return 0;
}

static int small_rows(const char *name) {
    FILE *file = fopen(name, "w");
    if (file == NULL) return printf("%s: not written\n", name), 1;
    int failed = row(12, 6, 767, 1, SMOOTH, file) + row(24, 8, 1535, 1, SMOOTH, file);
    int bad = ferror(file);
    if (fclose(file) != 0 || bad) return printf("%s: not written\n", name), 1;
    return failed;
}

static int all_rows(void) {
    int failed = 0;
    for (int content = SMOOTH; content <= UNEVEN; content++) {
        failed += row(64, 16, 4095, 1, (enum content)content, NULL);
        failed += row(64, 16, 4095, 0, (enum content)content, NULL);
    }
    failed += row(64, 16, 4095, 2, SMOOTH, NULL);
    failed += row(64, 4, 4095, 1, SMOOTH, NULL);
    failed += row(16, 8, 1023, 1, SMOOTH, NULL);
    failed += row(16, 8, 1023, 0, SMOOTH, NULL);
    return failed;
}

int main(int count, char **words) {
    int small = count == 3 && strcmp(words[1], "small") == 0;
    if (count != 1 && !small) return printf("best, or best small FILE\n"), 2;
    if (!small) {
        int planned = small_tables(3000);
        if (planned < 0) return 1;
        printf("best: all versions agree on 3000 small tables, of which %d have a plan\n", planned);
        printf("call, table, time of the proved call, and of each C program its time and the ratio of the proved call to it\n");
    }
    return (small ? small_rows(words[2]) : all_rows()) != 0;
}
