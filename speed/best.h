/* The true best within a budget as it would be written by hand in C, three times, for comparison. Each goes backward over the scans and
 * finds, for each setting before and each budget left, the least distortion from there on, and the lowest setting that begins it.
 *
 *   plain    carries distortions alone, in the order in which one would say it: scan, setting before, budget left, setting
 *   turned   the same, with the budget left innermost, so that the compiler can take several budgets in a turn
 *   pairs    carries distortion and rate, in four tables, for which document 02, [6], leaves room, and is otherwise as plain
 *
 * All check the cells first and leave zero what is needed of both lent buffers, as the call does. They make none of the checks before that
 * of the cells, and where nothing fits they do not ask whether anything is allowed at all. */
#include "cells.h"
#include "qpl.h"

#include <stddef.h>
#include <stdint.h>
#include <string.h>

#define MOST_WIDE 4096

/* Over every total, also where it is held times 16, and a cell more does not wrap. */
#define NOWHERE 0xf0000000u

typedef struct {
    const uint32_t *rates, *distortions;
    const uint8_t *weights;
    size_t scans, settings, law, budget;
    uint8_t *choices;
    uint32_t *totals;
} task;

static inline size_t budgets(const task *t) { return t->budget + 1; }

/* Scan i: how many settings stand before it, where the row of cells of one of them starts, and which settings the law lets follow it. */
static inline size_t befores(const task *t, size_t i) { return i ? t->settings : 1; }
static inline size_t row_of(const task *t, size_t i, size_t p) {
    return i ? t->settings + ((i - 1) * t->settings + p) * t->settings : 0;
}
static inline size_t lowest(const task *t, size_t i, size_t p) { return i && t->law == 1 && p > 2 ? p - 2 : 0; }
static inline size_t end_of(const task *t, size_t i, size_t p) { return i && t->law && p + 3 < t->settings ? p + 3 : t->settings; }

/* The choices of a row, one for each budget left. */
static inline uint8_t *chosen(const task *t, size_t i, size_t p) { return t->choices + (i * t->settings + p) * budgets(t); }

static int no_legal_table(const task *t) { return illegal(t->rates, t->distortions, t->weights, t->scans, t->settings); }

/* The walk along the choices from this budget: the settings and the totals. */
static void follow(const task *t, size_t left, uint8_t *plan, uint64_t *v) {
    uint64_t rate = 0, distortion = 0, peak = 0;
    for (size_t i = 0, p = 0; i < t->scans; i++) {
        size_t q = chosen(t, i, p)[left], cell = row_of(t, i, p) + q;
        uint32_t plain = t->distortions[cell];
        left -= t->rates[cell];
        rate += t->rates[cell];
        distortion += (uint64_t)t->weights[i] * plain;
        if (plain > peak) peak = plain;
        plan[i] = (uint8_t)q;
        p = q;
    }
    v[QPL_BEST_RATE] = rate, v[QPL_BEST_DISTORTION] = distortion, v[QPL_BEST_PEAK] = peak;
}

/* The end of each program. `least` has the least distortion for each budget; `left` is the budget to walk from. How many values there
 * are: 0 where nothing fits. */
static size_t ended(const task *t, const uint32_t *least, size_t left, uint8_t *plan, uint64_t *v) {
    int found = least[t->budget] != NOWHERE;
    if (found) follow(t, left, plan, v);
    memset(t->choices, 0, t->scans * t->settings * budgets(t));
    memset(t->totals, 0, 4 * t->settings * budgets(t) * sizeof *t->totals);
    return found ? 3 : 0;
}

/* The least budget that gives what the whole budget gives. It is the rate of the best plan: no plan of that distortion takes less. */
static size_t least_budget(const task *t, const uint32_t *least) {
    size_t left = 0;
    while (least[left] != least[t->budget]) left++;
    return left;
}

static void exchange(uint32_t **a, uint32_t **b) {
    uint32_t *kept = *a;
    *a = *b;
    *b = kept;
}

/* The plain program. A forbidden rate is over every budget. The product stands in the loop: found before it, once for each setting, it
 * makes what gcc 12 compiles slower. */
static const uint32_t *plain_totals(const task *t) {
    size_t wide = budgets(t);
    uint32_t *after = t->totals, *total = after + t->settings * wide;
    memset(after, 0, t->settings * wide * sizeof *after);
    for (size_t i = t->scans; i-- > 0;) {
        uint32_t weight = t->weights[i];
        for (size_t p = 0; p < befores(t, i); p++) {
            const uint32_t *r = t->rates + row_of(t, i, p), *x = t->distortions + row_of(t, i, p);
            size_t from = lowest(t, i, p), to = end_of(t, i, p);
            uint8_t *choice = chosen(t, i, p);
            for (size_t left = 0; left < wide; left++) {
                uint32_t best = NOWHERE;
                uint8_t at = 0;
                for (size_t q = from; q < to; q++) {
                    if (r[q] > left) continue;
                    uint32_t sum = weight * x[q] + after[q * wide + left - r[q]];
                    if (sum < best) best = sum, at = (uint8_t)q;
                }
                total[p * wide + left] = best;
                choice[left] = at;
            }
        }
        exchange(&after, &total);
    }
    return after;
}

static size_t plain_best(const task *t, uint8_t *plan, uint64_t *v) {
    if (no_legal_table(t)) return 0;
    const uint32_t *least = plain_totals(t);
    return ended(t, least, least_budget(t, least), plan, v);
}

/* The turned program. What it holds is 16 times the distortion, and a candidate has its setting in the four bits below: the least of them
 * is then the least distortion and the lowest setting at once, and a candidate costs an addition and a minimum. Each row of totals has as
 * many cells before it, which are NOWHERE, so that a rate over the budget left finds that there, and every loop starts at 0. Four settings
 * in a turn load and store the best so far once for all four. */
static inline uint32_t lesser(uint32_t a, uint32_t b) { return a < b ? a : b; }

static void four(uint32_t *restrict best, const uint32_t *const *after, const uint32_t *worth, size_t wide) {
    const uint32_t *a = after[0], *b = after[1], *c = after[2], *d = after[3];
    uint32_t e = worth[0], f = worth[1], g = worth[2], h = worth[3];
    for (size_t left = 0; left < wide; left++)
        best[left] = lesser(best[left], lesser(lesser(e + a[left], f + b[left]), lesser(g + c[left], h + d[left])));
}

static void one(uint32_t *restrict best, const uint32_t *restrict after, uint32_t worth, size_t wide) {
    for (size_t left = 0; left < wide; left++) best[left] = lesser(best[left], worth + after[left]);
}

static void part(const uint32_t *restrict best, uint32_t *restrict total, uint8_t *restrict choice, size_t wide) {
    for (size_t left = 0; left < wide; left++) {
        choice[left] = best[left] & 15;
        total[left] = best[left] & ~15u;
    }
}

static void turned_row(const task *t, size_t i, size_t p, const uint32_t *after, uint32_t *total) {
    const uint32_t *r = t->rates + row_of(t, i, p), *x = t->distortions + row_of(t, i, p), *rows[16];
    uint32_t best[MOST_WIDE], worth[16];
    size_t wide = budgets(t), count = 0, k = 0;
    for (size_t q = lowest(t, i, p); q < end_of(t, i, p); q++)
        if (r[q] < wide) {
            worth[count] = t->weights[i] * x[q] << 4 | (uint32_t)q;
            rows[count++] = after + (2 * q + 1) * wide - r[q];
        }
    for (size_t left = 0; left < wide; left++) best[left] = NOWHERE;
    for (; k + 4 <= count; k += 4) four(best, rows + k, worth + k, wide);
    for (; k < count; k++) one(best, rows[k], worth[k], wide);
    part(best, total + (2 * p + 1) * wide, chosen(t, i, p), wide);
}

static const uint32_t *turned_totals(const task *t) {
    size_t wide = budgets(t);
    uint32_t *after = t->totals, *total = after + 2 * t->settings * wide;
    for (size_t k = 0; k < 4 * t->settings * wide; k++) t->totals[k] = NOWHERE;
    for (size_t q = 0; q < t->settings; q++) memset(after + (2 * q + 1) * wide, 0, wide * sizeof *after);
    for (size_t i = t->scans; i-- > 0;) {
        for (size_t p = 0; p < befores(t, i); p++) turned_row(t, i, p, after, total);
        exchange(&after, &total);
    }
    return after + wide;
}

static size_t turned_best(const task *t, uint8_t *plan, uint64_t *v) {
    if (no_legal_table(t)) return 0;
    const uint32_t *least = turned_totals(t);
    return ended(t, least, least_budget(t, least), plan, v);
}

/* The program with pairs: its choices are right from the whole budget on, since ties go by the rate. */
static const uint32_t *pairs_totals(const task *t) {
    size_t wide = budgets(t), table = t->settings * wide;
    uint32_t *after = t->totals, *after_rate = after + table, *total = after_rate + table, *total_rate = total + table;
    memset(after, 0, 2 * table * sizeof *after);
    for (size_t i = t->scans; i-- > 0;) {
        uint32_t weight = t->weights[i];
        for (size_t p = 0; p < befores(t, i); p++) {
            const uint32_t *r = t->rates + row_of(t, i, p), *x = t->distortions + row_of(t, i, p);
            size_t from = lowest(t, i, p), to = end_of(t, i, p);
            uint8_t *choice = chosen(t, i, p);
            for (size_t left = 0; left < wide; left++) {
                uint32_t best = NOWHERE, tie = NOWHERE;
                uint8_t at = 0;
                for (size_t q = from; q < to; q++) {
                    if (r[q] > left) continue;
                    size_t next = q * wide + left - r[q];
                    uint32_t sum = weight * x[q] + after[next], rate = r[q] + after_rate[next];
                    if (sum < best || (sum == best && rate < tie)) best = sum, tie = rate, at = (uint8_t)q;
                }
                total[p * wide + left] = best;
                total_rate[p * wide + left] = tie;
                choice[left] = at;
            }
        }
        exchange(&after, &total);
        exchange(&after_rate, &total_rate);
    }
    return after;
}

static size_t pairs_best(const task *t, uint8_t *plan, uint64_t *v) {
    if (no_legal_table(t)) return 0;
    return ended(t, pairs_totals(t), t->budget, plan, v);
}
