/* Import and export of lists as they would be written by hand in C, for comparison. They keep the same promise: all the checks in their
 * order, the whole text judged before a cell is written, scratch zero at the end, nothing written on a refusal.
 *
 * So an import walks over the text twice, and both walks read a line by the same function. A second walk that trusts the text and steps over
 * quotes without asking was tried, and is slower: there each field waits for the one before it, and here the processor guesses. */
#include "cells.h"
#include "qpl.h"

#include <stddef.h>
#include <stdint.h>
#include <string.h>

static uint64_t refused(uint64_t number, uint64_t carried) { return number | carried << 32; }

static size_t cells_of(uint64_t scans, uint64_t settings) { return (size_t)(settings + (scans - 1) * settings * settings); }

/* What a line says. */
typedef struct {
    uint32_t scan, before, setting, rate, distortion;
} measured;

static inline size_t cell_of(uint64_t settings, const measured *m) {
    return (size_t)(m->scan == 0 ? m->setting : settings + (m->scan - 1) * settings * settings + m->before * settings + m->setting);
}

/* Where the digits from p on end. The number of too many of them may wrap, and is not looked at. */
static inline const uint8_t *digits(const uint8_t *p, const uint8_t *end, uint32_t *value) {
    uint32_t x = 0, next;
    while (p < end && (next = (uint32_t)*p - '0') < 10) x = 10 * x + next, p++;
    *value = x;
    return p;
}

/* Each of these goes on in the text from *at. A field: how many digits it has, or -1 where it is malformed. */
static inline int field(const uint8_t **at, const uint8_t *end, uint32_t *value) {
    const uint8_t *first = *at, *last;
    if (first < end && *first == '"') {
        last = digits(++first, end, value);
        if (last == end || *last != '"') return -1;
        *at = last + 1;
    } else {
        *at = last = digits(first, end, value);
    }
    return last - first > 7 ? -1 : (int)(last - first);
}

static inline int byte(const uint8_t **at, const uint8_t *end, uint8_t right) { return *at < end && *(*at)++ == right; }

/* A line and its end, which is missing at most at the end of the text: 0 where it is malformed. */
static inline int line(const uint8_t **at, const uint8_t *end, measured *m) {
    int count;
    return field(at, end, &m->scan) > 0 && byte(at, end, ',') && (count = field(at, end, &m->before)) >= 0 &&
           (m->scan == 0) == (count == 0) && byte(at, end, ',') && field(at, end, &m->setting) > 0 && byte(at, end, ',') &&
           field(at, end, &m->rate) > 0 && byte(at, end, ',') && field(at, end, &m->distortion) > 0 &&
           (*at == end || (byte(at, end, '\r') && byte(at, end, '\n')));
}

static uint64_t judge(uint64_t scans, uint64_t settings, const uint8_t *at, const uint8_t *end, uint8_t *seen) {
    measured m;
    for (uint64_t number = 1; at < end; number++) {
        if (!line(&at, end, &m)) return refused(16, number);
        if (m.scan >= scans || m.before >= settings || m.setting >= settings || m.rate > MOST_CELL || m.distortion > MOST_CELL)
            return refused(17, number);
        size_t cell = cell_of(settings, &m);
        if (seen[cell]) return refused(18, number);
        seen[cell] = 1;
    }
    return 0;
}

static void store(uint64_t settings, const uint8_t *at, const uint8_t *end, uint32_t *rates, uint32_t *distortions) {
    measured m;
    while (at < end && line(&at, end, &m)) {
        size_t cell = cell_of(settings, &m);
        rates[cell] = m.rate;
        distortions[cell] = m.distortion;
    }
}

static uint64_t hand_import(uint64_t scans, uint64_t settings, const uint8_t *text, size_t text_length, uint32_t *rates,
                            size_t rates_length, uint32_t *distortions, size_t distortions_length, uint8_t *scratch,
                            size_t scratch_length) {
    if (scans == 0 || scans > 1024) return 1;
    if (settings == 0 || settings > 16) return 2;
    size_t cells = cells_of(scans, settings);
    if (rates_length < cells || distortions_length < cells || scratch_length < cells) return 6;
    memset(scratch, 0, cells);
    uint64_t given = judge(scans, settings, text, text + text_length, scratch);
    memset(scratch, 0, cells);
    if (given != 0) return given;
    for (size_t k = 0; k < cells; k++) rates[k] = QPL_FORBIDDEN;
    memset(distortions, 0, cells * sizeof *distortions);
    store(settings, text, text + text_length, rates, distortions);
    return 0;
}

/* The digits of a number below ten million. */
static inline size_t width(uint32_t x) {
    return x < 10 ? 1 : x < 100 ? 2 : x < 1000 ? 3 : x < 10000 ? 4 : x < 100000 ? 5 : x < 1000000 ? 6 : 7;
}

static inline uint8_t *put(uint8_t *to, uint32_t x, uint8_t behind) {
    size_t n = width(x);
    for (size_t k = n; k > 0; k--) to[k - 1] = (uint8_t)('0' + x % 10), x /= 10;
    to[n] = behind;
    return to + n + 1;
}

/* The bytes of all lines, and the lines. Scan 0 has one row of cells, and a later scan one for each previous setting. */
static size_t list_length(uint32_t scans, uint32_t settings, const uint32_t *rates, const uint32_t *distortions) {
    size_t length = 0, cell = 0;
    for (uint32_t i = 0; i < scans; i++)
        for (uint32_t p = 0; p < (i ? settings : 1); p++) {
            size_t row = width(i) + (i ? width(p) : 0) + 6;
            for (uint32_t q = 0; q < settings; q++, cell++)
                if (rates[cell] != QPL_FORBIDDEN) length += row + width(q) + width(rates[cell]) + width(distortions[cell]);
        }
    return length;
}

static void put_list(uint32_t scans, uint32_t settings, const uint32_t *rates, const uint32_t *distortions, uint8_t *to) {
    size_t cell = 0;
    for (uint32_t i = 0; i < scans; i++)
        for (uint32_t p = 0; p < (i ? settings : 1); p++)
            for (uint32_t q = 0; q < settings; q++, cell++) {
                if (rates[cell] == QPL_FORBIDDEN) continue;
                to = put(to, i, ',');
                if (i)
                    to = put(to, p, ',');
                else
                    *to++ = ',';
                to = put(to, q, ',');
                to = put(to, rates[cell], ',');
                to = put(to, distortions[cell], '\r');
                *to++ = '\n';
            }
}

static uint64_t hand_export(uint64_t scans, uint64_t settings, const uint32_t *rates, size_t rates_length, const uint32_t *distortions,
                            size_t distortions_length, uint8_t *text, size_t text_length, uint8_t *answer, size_t answer_length) {
    if (scans == 0 || scans > 1024) return 1;
    if (settings == 0 || settings > 16) return 2;
    size_t cells = cells_of(scans, settings);
    if (rates_length != cells || distortions_length != cells) return 5;
    for (size_t k = 0; k < cells; k++)
        if (rates[k] != QPL_FORBIDDEN && (rates[k] > MOST_CELL || distortions[k] > MOST_CELL)) return refused(7, k);
    size_t length = list_length((uint32_t)scans, (uint32_t)settings, rates, distortions);
    if (text_length < length || answer_length < QPL_EXPORT_ANSWER) return 6;
    put_list((uint32_t)scans, (uint32_t)settings, rates, distortions, text);
    for (int k = 0; k < 8; k++) answer[k] = (uint8_t)((uint64_t)length >> 8 * k);
    return 0;
}
