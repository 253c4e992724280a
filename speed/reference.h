/* The planner as it would be written by hand in C, for comparison: the same passes, backward over the scans with two keys for each setting
 * before, and the same searches over them. REFERENCE names the file's functions, LOOP is the inner loop over the settings of a row.
 * It checks nothing but what it is told to: `checked` asks for the walk that finds an illegal cell. */
#include "cells.h"
#include "qpl.h"

#include <stddef.h>
#include <stdint.h>
#include <string.h>

#define NONE UINT64_MAX

typedef struct {
    const uint32_t *rates, *distortions;
    const uint8_t *weights;
    size_t scans, settings, law;
    uint8_t *scratch;
} job;

typedef struct {
    uint64_t rate, distortion, peak;
} sums;

/* A cell's first and second key: cost and rate at a multiplier, rate and distortion under a ceiling. Both take the distortion times the weight
 * of the scan, of which `worth` is the d-fold, found once for each scan; the ceiling is held against the cell as it stands. */
typedef struct {
    uint64_t n, d;
    uint32_t ceiling;
    int thrifty;
} rule;

#define OPEN(r, x) ((r) != FORBIDDEN && (x) <= w->ceiling)
#define FIRST(r, x) (w->thrifty ? (uint64_t)(r) : worth * (x) + w->n * (r))
#define SECOND(r, x) (w->thrifty ? (uint64_t)(weight * (x)) : (uint64_t)(r))

/* The straightforward loop: each candidate against the best so far. */
#define STRAIGHTFORWARD                                                                                                                     \
    for (size_t q = from; q < to; q++) {                                                                                                    \
        if (!OPEN(r[q], x[q]) || first[q] == NONE) continue;                                                                                \
        uint64_t a = FIRST(r[q], x[q]) + first[q], b = SECOND(r[q], x[q]) + second[q];                                                      \
        if (a < best || (a == best && b < tie)) best = a, tie = b, at = (uint8_t)q;                                                         \
    }

/* Least key first, then ties. */
#define LEAST_FIRST                                                                                                                         \
    uint64_t keys[16];                                                                                                                      \
    for (size_t q = from; q < to; q++) {                                                                                                    \
        uint64_t a = OPEN(r[q], x[q]) && first[q] != NONE ? FIRST(r[q], x[q]) + first[q] : NONE;                                            \
        keys[q] = a;                                                                                                                        \
        best = a < best ? a : best;                                                                                                         \
    }                                                                                                                                       \
    if (best != NONE)                                                                                                                       \
        for (size_t q = from; q < to; q++)                                                                                                  \
            if (keys[q] == best) {                                                                                                          \
                uint64_t b = SECOND(r[q], x[q]) + second[q];                                                                                \
                if (b < tie) tie = b, at = (uint8_t)q;                                                                                      \
            }

#define REFERENCE(name, LOOP)                                                                                                               \
    static inline int name##_pass_of(const job *j, const rule *w) {                                                                         \
        size_t k = j->settings;                                                                                                             \
        uint64_t first[16] = {0}, second[16] = {0}, next[16], next_second[16];                                                              \
        for (size_t i = j->scans - 1;; i--) {                                                                                               \
            size_t rows = i ? k : 1, start = i ? k + (i - 1) * k * k : 0;                                                                   \
            uint32_t weight = j->weights[i];                                                                                                \
            uint64_t worth = w->d * weight;                                                                                                 \
            for (size_t p = 0; p < rows; p++) {                                                                                             \
                const uint32_t *r = j->rates + start + p * k, *x = j->distortions + start + p * k;                                          \
                size_t from = i && j->law == 1 && p > 2 ? p - 2 : 0, to = i && j->law && p + 3 < k ? p + 3 : k;                             \
                uint64_t best = NONE, tie = NONE;                                                                                           \
                uint8_t at = 0;                                                                                                             \
                LOOP next[p] = best;                                                                                                        \
                next_second[p] = tie;                                                                                                       \
                j->scratch[i * k + p] = at;                                                                                                 \
            }                                                                                                                               \
            if (i == 0) return next[0] != NONE;                                                                                             \
            memcpy(first, next, sizeof first);                                                                                              \
            memcpy(second, next_second, sizeof second);                                                                                     \
        }                                                                                                                                   \
    }                                                                                                                                       \
    /* one function for each kind of key, so that the compiler need not ask in the loop */                                                  \
    static int name##_cost(const job *j, uint64_t n, uint64_t d) {                                                                          \
        rule w = {n, d, FORBIDDEN, 0};                                                                                                      \
        return name##_pass_of(j, &w);                                                                                                       \
    }                                                                                                                                       \
    static int name##_thrifty(const job *j, uint32_t ceiling) {                                                                             \
        rule w = {0, 0, ceiling, 1};                                                                                                        \
        return name##_pass_of(j, &w);                                                                                                       \
    }

/* The walk along the choices: the totals, and the settings where a plan is lent. */
static sums walk(const job *j, uint8_t *plan) {
    size_t k = j->settings, p = 0;
    sums t = {0, 0, 0};
    for (size_t i = 0; i < j->scans; i++) {
        size_t q = j->scratch[i * k + p], cell = i ? k + (i - 1) * k * k + p * k + q : q;
        t.rate += j->rates[cell];
        t.distortion += (uint64_t)j->weights[i] * j->distortions[cell];
        if (j->distortions[cell] > t.peak) t.peak = j->distortions[cell];
        if (plan) plan[i] = (uint8_t)q;
        p = q;
    }
    return t;
}

static int some_illegal(const job *j) { return illegal(j->rates, j->distortions, j->weights, j->scans, j->settings); }

static uint64_t divisor(uint64_t a, uint64_t b) { return b ? divisor(b, a % b) : a; }

/* Whole calls over a pass. Each puts its values in the places that the proved call answers them in, and gives back how many; 0 where there is
 * no plan. */
#define CALLS(name)                                                                                                                         \
    static size_t name##_multiplier(const job *j, uint64_t n, uint64_t d, int checked, uint8_t *plan, uint64_t *v) {                        \
        if ((checked && some_illegal(j)) || !name##_cost(j, n, d)) return 0;                                                                \
        sums t = walk(j, plan);                                                                                                             \
        v[QPL_MULTIPLIER_RATE] = t.rate, v[QPL_MULTIPLIER_DISTORTION] = t.distortion, v[QPL_MULTIPLIER_PEAK] = t.peak;                      \
        return 3;                                                                                                                           \
    }                                                                                                                                       \
    static size_t name##_average(const job *j, uint64_t budget, int checked, uint8_t *plan, uint64_t *v) {                                  \
        if ((checked && some_illegal(j)) || !name##_thrifty(j, FORBIDDEN)) return 0;                                                        \
        sums lo = walk(j, NULL);                                                                                                            \
        if (lo.rate > budget) return 0;                                                                                                     \
        uint64_t n = 0, d = 1;                                                                                                              \
        name##_cost(j, n, d);                                                                                                               \
        sums hi = walk(j, NULL);                                                                                                            \
        if (hi.rate > budget)                                                                                                               \
            for (;;) {                                                                                                                      \
                n = lo.distortion - hi.distortion, d = hi.rate - lo.rate;                                                                   \
                name##_cost(j, n, d);                                                                                                       \
                sums t = walk(j, NULL);                                                                                                     \
                if (d * t.distortion + n * t.rate == d * lo.distortion + n * lo.rate) break;                                                \
                if (t.rate <= budget)                                                                                                       \
                    lo = t;                                                                                                                 \
                else                                                                                                                        \
                    hi = t;                                                                                                                 \
            }                                                                                                                               \
        sums t = walk(j, plan);                                                                                                             \
        uint64_t g = divisor(n, d);                                                                                                         \
        n /= g, d /= g;                                                                                                                     \
        uint64_t cost = d * t.distortion + n * t.rate, bought = n * budget;                                                                 \
        v[QPL_AVERAGE_N] = n, v[QPL_AVERAGE_D] = d;                                                                                         \
        v[QPL_AVERAGE_RATE] = t.rate, v[QPL_AVERAGE_DISTORTION] = t.distortion, v[QPL_AVERAGE_PEAK] = t.peak;                               \
        v[QPL_AVERAGE_FLOOR] = cost < bought ? 0 : (cost - bought + d - 1) / d;                                                             \
        return 6;                                                                                                                           \
    }                                                                                                                                       \
    static size_t name##_minmax(const job *j, uint64_t budget, int checked, uint8_t *plan, uint64_t *v) {                                   \
        if ((checked && some_illegal(j)) || !name##_thrifty(j, FORBIDDEN)) return 0;                                                        \
        sums t = walk(j, NULL);                                                                                                             \
        if (t.rate > budget) return 0;                                                                                                      \
        /* the least-rate plan fits, so that no ceiling over its peak is the least: the proved call starts there too */                     \
        uint32_t low = 0, high = (uint32_t)t.peak;                                                                                          \
        while (low < high) {                                                                                                                \
            uint32_t middle = (low + high) / 2;                                                                                             \
            if (name##_thrifty(j, middle) && walk(j, NULL).rate <= budget)                                                                  \
                high = middle;                                                                                                              \
            else                                                                                                                            \
                low = middle + 1;                                                                                                           \
        }                                                                                                                                   \
        name##_thrifty(j, low);                                                                                                             \
        t = walk(j, plan);                                                                                                                  \
        v[QPL_MINMAX_CEILING] = low;                                                                                                        \
        v[QPL_MINMAX_RATE] = t.rate, v[QPL_MINMAX_DISTORTION] = t.distortion, v[QPL_MINMAX_PEAK] = t.peak;                                  \
        return 4;                                                                                                                           \
    }

REFERENCE(straight, STRAIGHTFORWARD)
REFERENCE(least, LEAST_FIRST)
CALLS(straight)
CALLS(least)
