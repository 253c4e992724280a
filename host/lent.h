/* Lent buffers and tables for tests: exactly as long as asked, between guard bytes or guard cells, and filled with a pattern, so that
 * whatever is written shows. */
#ifndef LENT_H
#define LENT_H

#include <stddef.h>
#include <stdint.h>
#include <stdlib.h>

#define GUARD 32

typedef struct {
    uint8_t *whole;
    uint8_t *bytes;
    size_t length;
} lent;

static inline uint8_t lent_pattern(size_t i, unsigned from) { return (uint8_t)((7 * (i % 251) + from) % 251 + 1); }

/* A buffer of no bytes is lent as a null pointer. */
static inline lent lend(size_t length, unsigned from) {
    lent l;
    size_t i;
    l.whole = (uint8_t *)malloc(length + 2 * GUARD);
    if (l.whole == NULL) exit(2);
    l.bytes = length == 0 ? NULL : l.whole + GUARD;
    l.length = length;
    for (i = 0; i < GUARD; i++) l.whole[i] = l.whole[GUARD + length + i] = 0xa5;
    for (i = 0; i < length; i++) l.whole[GUARD + i] = lent_pattern(i, from);
    return l;
}

/* 0 where a guard byte was written. */
static inline int lent_guarded(const lent *l) {
    size_t i;
    for (i = 0; i < GUARD; i++)
        if (l->whole[i] != 0xa5 || l->whole[GUARD + l->length + i] != 0xa5) return 0;
    return 1;
}

static inline void give_back(lent *l) {
    free(l->whole);
    l->whole = l->bytes = NULL;
}

#define GUARD_CELLS 8
#define GUARD_CELL 0xa5a5a5a5u

typedef struct {
    uint32_t *whole;
    uint32_t *cells;
    size_t length;
} lent_table;

/* Where the cells of the two tables start: over every legal distortion and rate, and never that of a forbidden one, so that an import writes
 * no such cell. */
#define RATES_FROM 2000000000u
#define DISTORTIONS_FROM 3000000000u

static inline uint32_t lent_cell(size_t i, uint32_t from) { return from + (uint32_t)i; }

/* A table of no cells is lent as a null pointer. */
static inline lent_table lend_table(size_t length, uint32_t from) {
    lent_table l;
    size_t i;
    l.whole = (uint32_t *)malloc((length + 2 * GUARD_CELLS) * sizeof *l.whole);
    if (l.whole == NULL) exit(2);
    l.cells = length == 0 ? NULL : l.whole + GUARD_CELLS;
    l.length = length;
    for (i = 0; i < GUARD_CELLS; i++) l.whole[i] = l.whole[GUARD_CELLS + length + i] = GUARD_CELL;
    for (i = 0; i < length; i++) l.whole[GUARD_CELLS + i] = lent_cell(i, from);
    return l;
}

/* 0 where a guard cell was written. */
static inline int table_guarded(const lent_table *l) {
    size_t i;
    for (i = 0; i < GUARD_CELLS; i++)
        if (l->whole[i] != GUARD_CELL || l->whole[GUARD_CELLS + l->length + i] != GUARD_CELL) return 0;
    return 1;
}

static inline void give_table_back(lent_table *l) {
    free(l->whole);
    l->whole = l->cells = NULL;
}

#endif
