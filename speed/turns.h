/* What the programs that take times share: a clock, random numbers, and the median of the turns. The clock asks for _POSIX_C_SOURCE, which the
 * program sets before its first header. */
#ifndef TURNS_H
#define TURNS_H

#include <stdint.h>
#include <stdlib.h>
#include <time.h>

#define TURNS 31

/* In microseconds. */
static double now(void) {
    struct timespec t;
    clock_gettime(CLOCK_MONOTONIC, &t);
    return (double)t.tv_sec * 1e6 + (double)t.tv_nsec / 1e3;
}

static uint64_t state = 1;
static uint32_t drawn(uint32_t below) {
    state = state * 6364136223846793005u + 1442695040888963407u;
    return (uint32_t)((state >> 33) % below);
}

static int compare(const void *a, const void *b) {
    double x = *(const double *)a, y = *(const double *)b;
    return (x > y) - (x < y);
}

static double median(double *took) {
    qsort(took, TURNS, sizeof(double), compare);
    return took[TURNS / 2];
}

#endif
