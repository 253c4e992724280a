/* Damaged plan files, by document 02, [4]: in a QPL2 file whose blocks are all right, one byte among a block's 508 changed to any other
 * value, or two unequal ones of a block exchanged, must be refused with 12 and that block, whatever the room, and leave plan and answer as
 * they were. The letters and the block numbers are among these bytes. Where the letters change they choose another check, and that the new
 * one is wrong then says nothing: so the fields hold the bytes '1' and '3', to be exchanged with the '2' of the letters.
 *
 * Tried are all changes of one byte, and of exchanges all of neighbours, all with one of the first eight bytes (the number, and in block 0
 * the letters), and others drawn at random. All changes in the four bytes of a check are tried too: it then is not the right one.
 *
 *   damage [STEP]     one in STEP of these alone, for a memory checker that is slow */
#include "lent.h"
#include "qpl.h"
#include "seal.h"

#include <stdio.h>

#define DRAWN 3000
#define MORE 9

/* A buffer that is lent, and all its bytes as they were before, the guards too. */
typedef struct {
    lent given;
    uint8_t *before;
} watched;

static size_t whole(const watched *w) { return w->given.length + 2 * GUARD; }

static watched watch(size_t length, unsigned from) {
    watched w;
    w.given = lend(length, from);
    w.before = (uint8_t *)malloc(whole(&w));
    if (w.before == NULL) exit(2);
    memcpy(w.before, w.given.whole, whole(&w));
    return w;
}

static int as_before(const watched *w) { return memcmp(w->given.whole, w->before, whole(w)) == 0; }

/* The first bytes are these, and all others as they were. The buffer is then made as it was. */
static int begins(watched *w, const uint8_t *bytes, size_t count) {
    int good = memcmp(w->given.whole + GUARD, bytes, count) == 0;
    memcpy(w->given.whole + GUARD, w->before + GUARD, count);
    good = good && as_before(w);
    memcpy(w->given.whole, w->before, whole(w));
    return good;
}

static void unwatch(watched *w) {
    give_back(&w->given);
    free(w->before);
}

/* What a reader may be lent: nothing for the settings; exactly what it needs; more; and too little of both. */
enum { NO_PLAN, EXACT, AMPLE, SHORT, ROOMS };
typedef struct {
    watched plan, answer;
} room;

/* The file, in memory of its own that ends where it does, what was written, what a reader must answer of it, and its settings. */
static uint8_t *file, written[3 * BLOCK], values[QPL_READ_ANSWER], settings[1024];
static size_t length, scans;
static room rooms[ROOMS];

static unsigned long step = 1, turn, tried, changed, exchanged, failed;

static void fault(const char *what) {
    failed++;
    if (failed <= 9) printf("FAILED: a file of %lu bytes: %s\n", (unsigned long)length, what);
}

static uint64_t read_in(room *r) {
    return qpl_read(file, length, r->plan.given.bytes, r->plan.given.length, r->answer.given.bytes, r->answer.given.length);
}

/* The file as it was written reads as good where there is room, and as 6 where there is not. */
static void undamaged(const char *what) {
    size_t k;
    int good = memcmp(file, written, length) == 0;
    for (k = 0; k < ROOMS; k++) {
        room *r = &rooms[k];
        int enough = k == EXACT || k == AMPLE;
        good = good && read_in(r) == (enough ? 0 : 6);
        good = good && begins(&r->plan, settings, enough ? scans : 0) && begins(&r->answer, values, enough ? sizeof values : 0);
    }
    if (!good) fault(what);
}

/* Reads the file as it is now, with damage at these places of a block (twice the same: one byte is changed), in the next of the rooms. 1
 * where it was its turn. */
static unsigned long refused(size_t block, size_t j, size_t k) {
    room *r = &rooms[tried % ROOMS];
    uint64_t given;
    char where[60], what[160];
    if (turn++ % step != 0) return 0;
    tried++;
    given = read_in(r);
    if (given == (12 | (uint64_t)block << 32) && as_before(&r->plan) && as_before(&r->answer)) return 1;
    if (j == k)
        sprintf(where, "byte %lu changed to %u", (unsigned long)k, (unsigned)file[BLOCK * block + k]);
    else
        sprintf(where, "bytes %lu and %lu exchanged", (unsigned long)j, (unsigned long)k);
    sprintf(what, "block %lu, %s: gave back %lu, carried %lu, or a buffer changed", (unsigned long)block, where,
            (unsigned long)qpl_refusal(given), (unsigned long)qpl_carried(given));
    fault(what);
    /* what this call wrote is not held against the next ones */
    begins(&r->plan, settings, 0), begins(&r->answer, values, 0);
    return 1;
}

static void change_bytes(size_t block) {
    size_t k;
    for (k = 0; k < BLOCK; k++) {
        uint8_t *byte = file + BLOCK * block + k, right = *byte;
        unsigned by;
        for (by = 1; by < 256; by++) {
            *byte = (uint8_t)(right + by);
            changed += refused(block, k, k);
        }
        *byte = right;
    }
}

/* 0 where the two are equal, so that there is nothing to try. */
static int exchange(size_t block, size_t j, size_t k) {
    uint8_t *one = file + BLOCK * block + j, *other = file + BLOCK * block + k, byte = *one;
    if (*one == *other) return 0;
    *one = *other, *other = byte;
    exchanged += refused(block, j, k);
    *other = *one, *one = byte;
    return 1;
}

static uint64_t state = 1;
static uint32_t drawn(uint32_t below) {
    state = state * UINT64_C(6364136223846793005) + UINT64_C(1442695040888963407);
    return (uint32_t)((state >> 33) % below);
}

static void exchange_bytes(size_t block) {
    size_t j, k, count = 0;
    for (k = 1; k < CHECKED; k++) exchange(block, k - 1, k);
    for (j = 0; j < 8; j++)
        for (k = j + 2; k < CHECKED; k++) exchange(block, j, k);
    while (count < DRAWN) {
        j = drawn(CHECKED), k = drawn(CHECKED);
        count += (size_t)exchange(block, j, k);
    }
}

/* Rooms for a file of so many scans. */
static void lend_rooms(void) {
    size_t k;
    for (k = 0; k < ROOMS; k++) {
        rooms[k].plan = watch(k == NO_PLAN ? 0 : k == AMPLE ? scans + MORE : k == SHORT ? scans - 1 : scans, 13);
        rooms[k].answer = watch(k == AMPLE ? sizeof values + MORE : k == SHORT ? 0 : sizeof values, 50);
    }
}

/* Writes the file of these fields and of the settings, and lends rooms for reading it. 0 where it is no QPL2 file whose blocks are all
 * right, of which alone anything is said. */
static int write_file(const uint64_t *f) {
    size_t k;
    scans = (size_t)f[QPL_READ_SCANS], length = scans > 1008 ? 3 * BLOCK : 2 * BLOCK;
    lend_rooms();
    file = (uint8_t *)calloc(length, 1);
    if (file == NULL) exit(2);
    if (qpl_write(f[0], f[1], f[2], f[3], f[4], f[5], f[6], f[7], f[8], f[9], f[10], f[QPL_READ_WEIGHTED], settings, scans, file, length) != 0)
        return 0;
    for (k = 0; k < sizeof values; k++) values[k] = (uint8_t)(f[k / 8] >> 8 * (k % 8));
    memcpy(written, file, length);
    seal_as(written, length, 2);
    for (k = 0; k < length; k += BLOCK)
        if (written[k] != k / BLOCK || written[k + 1] != 0 || written[k + 2] != 0 || written[k + 3] != 0) return 0;
    return memcmp(file, written, length) == 0 && memcmp(file + 4, "QPL2", 4) == 0;
}

static void damage(const uint64_t *fields) {
    size_t block, k;
    if (!write_file(fields)) {
        fault("not written as QPL2, with all blocks right");
    } else {
        undamaged("not read as it was written");
        for (block = 0; block < length / BLOCK; block++) {
            change_bytes(block);
            exchange_bytes(block);
            undamaged("not read as it was written, after damage and repair");
        }
    }
    for (k = 0; k < ROOMS; k++) {
        unwatch(&rooms[k].plan);
        unwatch(&rooms[k].answer);
    }
    free(file);
}

/* Fields in the order in which the reader answers them, at the end the version, and the mark of weights, which lets the second file have a
 * peak over its distortion. */
static const uint64_t three_blocks[] = {1013,       16,         0,         QPL_KIND_AVERAGE, UINT64_C(0x80ff3331013200fe), 0x12345679,
                                        0x12345678, 0x01c3d1e2, 0x2a5b91f3, 0xfedcb,         0x21436587,                   QPL_VERSION_2,
                                        0};
static const uint64_t two_blocks[] = {601, 9, 1, QPL_KIND_MINMAX, 0x3332, 0, 0, 0x3031, 0x131, 0x3231, 0, QPL_VERSION_2, 1};

int main(int count, char **words) {
    size_t k;
    if (count > 1) step = strtoul(words[1], NULL, 10);
    if (step == 0) step = 1;
    /* 97 is odd, so of 256 packed bytes in a row none is like another */
    for (k = 0; k < sizeof settings; k++) settings[k] = (uint8_t)((97 * (k / 2) + 31) >> 4 * (k % 2) & 15);
    damage(three_blocks);
    /* any two of these keep law 1 */
    for (k = 0; k < sizeof settings; k++) settings[k] = (uint8_t)(6 + drawn(3));
    damage(two_blocks);
    printf("damage: %lu bytes changed and %lu pairs exchanged, %lu faults\n", changed, exchanged, failed);
    return failed != 0;
}
