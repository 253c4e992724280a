/* A host to start from: asks for room, plans a table, writes the plan file, reads it back and prints what it read. */
#include "qpl.h"

#include <stdio.h>
#include <stdlib.h>

/* Says which call refused, and ends. */
static void stop(const char *call, uint64_t given) {
    fprintf(stderr, "%s: refused %lu, carried %lu\n", call, (unsigned long)qpl_refusal(given), (unsigned long)qpl_carried(given));
    exit(1);
}

static uint8_t *lend(uint64_t bytes) {
    uint8_t *room = (uint8_t *)calloc((size_t)bytes, 1);
    if (room == NULL) exit(1);
    return room;
}

int main(void) {
    const uint64_t scans = 2, settings = 2, law = 0, budget = 17;
    const uint32_t rates[] = {10, 4, 8, 3, 9, 5};
    const uint32_t distortions[] = {2, 7, 3, 6, 4, 10};
    /* one for each scan: all 1, so that no scan counts more than another */
    const uint8_t weights[] = {1, 1};
    /* what is lent holds values, also where a call only writes it */
    uint8_t answer[QPL_READ_ANSWER] = {0};
    uint8_t file[1536] = {0};
    uint8_t *plan, *scratch;
    uint64_t given, cells, scratch_bytes, weighted = 0, k;

    given = qpl_room(1, scans, settings, answer, sizeof answer);
    if (given != 0) stop("qpl_room", given);
    cells = qpl_value(answer, QPL_ROOM_CELLS);
    scratch_bytes = qpl_value(answer, QPL_ROOM_SCRATCH);
    plan = lend(scans);
    scratch = lend(scratch_bytes);

    given = qpl_average(scans, settings, law, budget, rates, (size_t)cells, distortions, (size_t)cells, weights, (size_t)scans, plan,
                        (size_t)scans, scratch, (size_t)scratch_bytes, answer, sizeof answer);
    if (given != 0) stop("qpl_average", given);

    /* n, d, rate, distortion, peak and floor go into the file as they came, and of the weights whether any differs from 1. */
    for (k = 0; k < scans; k++)
        if (weights[k] != 1) weighted = 1;
    given = qpl_write(scans, settings, law, QPL_KIND_AVERAGE, budget, qpl_value(answer, QPL_AVERAGE_N), qpl_value(answer, QPL_AVERAGE_D),
                      qpl_value(answer, QPL_AVERAGE_RATE), qpl_value(answer, QPL_AVERAGE_DISTORTION), qpl_value(answer, QPL_AVERAGE_PEAK),
                      qpl_value(answer, QPL_AVERAGE_FLOOR), weighted, plan, (size_t)scans, file, sizeof file);
    if (given != 0) stop("qpl_write", given);

    given = qpl_read(file, 1024, plan, (size_t)scans, answer, sizeof answer);
    if (given != 0) stop("qpl_read", given);

    printf("multiplier %lu/%lu rate %lu distortion %lu peak %lu floor %lu settings", (unsigned long)qpl_value(answer, QPL_READ_N),
           (unsigned long)qpl_value(answer, QPL_READ_D), (unsigned long)qpl_value(answer, QPL_READ_RATE),
           (unsigned long)qpl_value(answer, QPL_READ_DISTORTION), (unsigned long)qpl_value(answer, QPL_READ_PEAK),
           (unsigned long)qpl_value(answer, QPL_READ_FLOOR));
    for (k = 0; k < scans; k++) printf(" %u", (unsigned)plan[k]);
    printf("\n");
    free(plan);
    free(scratch);
    return 0;
}
