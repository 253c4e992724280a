/* The checks of plan files, by document 01 ("Plan file") and document 02, [4]: for tests that make a file by hand, or change one and make
 * its checks right again. */
#ifndef SEAL_H
#define SEAL_H

#include <stddef.h>
#include <stdint.h>
#include <string.h>

#define BLOCK 512
/* Of a block so many bytes are checked; the check takes the four behind them. */
#define CHECKED 508

/* The check of QPL1, and of letters that are unknown. */
static inline uint32_t old_check(const uint8_t *block) {
    uint32_t sum = 0;
    size_t k;
    for (k = 0; k < CHECKED; k++) sum += block[k];
    return sum;
}

/* The check of QPL2. */
static inline uint32_t new_check(const uint8_t *block) {
    uint32_t sum = 1, k;
    for (k = 0; k < CHECKED; k++) sum += (CHECKED - k) * block[k];
    return sum;
}

static inline void put_check(uint8_t *block, uint32_t check) {
    size_t k;
    for (k = 0; k < 4; k++) block[CHECKED + k] = (uint8_t)(check >> 8 * k);
}

/* The check that the letters choose, in every block. */
static inline void seal(uint8_t *file, size_t length) {
    int is_new = memcmp(file + 4, "QPL2", 4) == 0;
    size_t at;
    for (at = 0; at < length; at += BLOCK) put_check(file + at, is_new ? new_check(file + at) : old_check(file + at));
}

/* The same plan as the file of another version, 1 or 2. */
static inline void seal_as(uint8_t *file, size_t length, int version) {
    file[7] = (uint8_t)('0' + version);
    seal(file, length);
}

#endif
