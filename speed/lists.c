/* Times of import and export beside the same calls written in C (lists.h), in one run: the two take turns, what they give back, tables,
 * texts and scratch are compared, and the ratio of the medians is printed. Below 1 the proved call is the faster one.
 *
 * The lists are the largest ones, of 1,024 scans and 16 settings with no cell forbidden: with numbers of seven digits, which is the longest
 * list that there is, and with numbers of one digit. A call's speed is the length of the list over the time of the whole call, in which an
 * import walks over the text twice.
 *
 *   lists FILE      writes the longest list to FILE, for lists.py */
#define _POSIX_C_SOURCE 199309L
#include "lists.h"
#include "turns.h"

#include <stdio.h>

#define SCANS 1024
#define SETTINGS 16
#define CELLS (16 + 1023 * 256)
#define LONGEST 6722470

/* The tables as they are exported, and what each version leaves: tables, text, scratch. */
static uint32_t rates[CELLS], distortions[CELLS], taken_rates[2][CELLS], taken_distortions[2][CELLS];
static uint8_t texts[2][LONGEST + 1], scratch[2][CELLS], answers[2][QPL_EXPORT_ANSWER];

/* Random cells from `from` to below `to`. */
static void fill(uint32_t from, uint32_t to) {
    for (size_t k = 0; k < CELLS; k++) {
        rates[k] = from + drawn(to - from);
        distortions[k] = from + drawn(to - from);
    }
}

enum call { EXPORT, IMPORT };
static const char *const names[] = {"export", "import"};

/* Version 0 is the proved call, 1 the one by hand. */
static uint64_t called(int version, enum call which, size_t length) {
    uint32_t *r = taken_rates[version], *d = taken_distortions[version];
    if (which == EXPORT)
        return (version == 0 ? qpl_export : hand_export)(SCANS, SETTINGS, rates, CELLS, distortions, CELLS, texts[version], length,
                                                         answers[version], sizeof answers[version]);
    return (version == 0 ? qpl_import : hand_import)(SCANS, SETTINGS, texts[1], length, r, CELLS, d, CELLS, scratch[version], CELLS);
}

/* What each version has left is what the other has; after an import also the tables that the list came from. */
static int agree(enum call which, size_t length) {
    if (which == EXPORT) return memcmp(texts[0], texts[1], length) == 0 && memcmp(answers[0], answers[1], sizeof answers[0]) == 0;
    for (int version = 0; version < 2; version++) {
        if (memcmp(taken_rates[version], rates, sizeof rates) != 0) return 0;
        if (memcmp(taken_distortions[version], distortions, sizeof distortions) != 0) return 0;
        for (size_t k = 0; k < CELLS; k++)
            if (scratch[version][k] != 0) return 0;
    }
    return 1;
}

/* What both say to a list with a fault at its end: it is walked over to there, and refused. */
static int refuse(size_t length) {
    texts[1][length] = 'x';
    return called(0, IMPORT, length + 1) == called(1, IMPORT, length + 1) && called(1, IMPORT, length + 1) == refused(16, CELLS + 1);
}

static int row(enum call which, const char *what, size_t length) {
    double took[2][TURNS];
    uint64_t given[2] = {0};
    memset(taken_rates, 1, sizeof taken_rates);
    memset(taken_distortions, 1, sizeof taken_distortions);
    memset(scratch, 1, sizeof scratch);
    for (int turn = 0; turn < TURNS; turn++)
        for (int version = 0; version < 2; version++) {
            double start = now();
            given[version] |= called(version, which, length);
            took[version][turn] = now() - start;
        }
    if (given[0] != 0 || given[1] != 0 || !agree(which, length) || !refuse(length)) return printf("%s: results differ\n", names[which]), 1;
    double ours = median(took[0]), by_hand = median(took[1]);
    printf("%s  %-12s %7zu bytes  %8.2f ms  %6.1f MB/s  %6.1f MB/s by hand  %5.3f\n", names[which], what, length, ours / 1e3,
           (double)length / ours, (double)length / by_hand, ours / by_hand);
    return 0;
}

/* Both calls on the tables as they are. */
static int rows(const char *what) {
    size_t length = list_length(SCANS, SETTINGS, rates, distortions);
    int failed = row(EXPORT, what, length);
    return failed + row(IMPORT, what, length);
}

int main(int count, char **words) {
    int failed;
    printf("call, list, its length, time of the proved call, speed of both, and the ratio of the times\n");
    fill(0, 10);
    failed = rows("one digit");
    fill(1000000, MOST_CELL + 1);
    failed += rows("seven digits");
    if (count == 2) {
        FILE *file = fopen(words[1], "wb");
        if (file == NULL || fwrite(texts[1], 1, LONGEST, file) != LONGEST || fclose(file) != 0)
            return printf("%s: not written\n", words[1]), 1;
    }
    return failed != 0;
}
