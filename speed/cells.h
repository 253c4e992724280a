/* The limits of a cell, and the check of the cells by hand, which leaves at the first illegal one. How large a distortion its weight allows is
 * found once for each scan. */
#ifndef CELLS_H
#define CELLS_H

#include <stddef.h>
#include <stdint.h>

#define FORBIDDEN 4294967295u
#define MOST_CELL 1048575u

static inline int illegal(const uint32_t *rates, const uint32_t *distortions, const uint8_t *weights, size_t scans, size_t settings) {
    size_t cell = 0;
    for (size_t i = 0; i < scans; i++) {
        size_t end = settings + i * settings * settings;
        uint32_t most = weights[i] > 1 ? MOST_CELL / weights[i] : MOST_CELL;
        for (; cell < end; cell++)
            if (rates[cell] != FORBIDDEN && (rates[cell] > MOST_CELL || distortions[cell] > most)) return 1;
    }
    return 0;
}

#endif
