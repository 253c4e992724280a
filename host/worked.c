/* The worked tables of document 01 ("Bench tables", the "Others" too) and its room figures, lists of table T by the rules of document 02,
 * [1], table V, of which each law has another plan, by those of [2], illegal cells at every place of a table, of which the walk of [3] must
 * lose none, plan files of both versions by the rules of [4], table T with scans of unequal weight, its illegal cells and its files, by those
 * of [5], and the true best of these tables and of the largest that it takes, by those of [6], through the archive: of planning calls and the
 * true best every value, every byte and cell of every buffer, and guards on both sides of each, the weights' too, which must be as they were;
 * of T's files every value and every byte, the checks as numbers, and guard bytes; of lists every cell and byte, and guards; of illegal cells
 * what goes back, and that a refusal leaves every buffer as it was. What is expected is written out by hand: of document 01 its own figures,
 * of the others what the rules give. Some files that are changed here (V's, those with other block numbers, and long ones) the library has
 * written first. All weights are 1 but in the parts of [5] and [6]. */
#include "lent.h"
#include "qpl.h"
#include "seal.h"

#include <stdio.h>
#include <string.h>

static int passed, failed;

static void expect(const char *what, int good) {
    if (good) {
        passed++;
    } else {
        failed++;
        printf("FAILED: %s\n", what);
    }
}

enum call { CEILING, MULTIPLIER, MINMAX, AVERAGE };

typedef struct {
    uint64_t scans, settings, law;
    const uint32_t *rates, *distortions;
    size_t cells;
    const uint8_t *weights;
} table;

/* A call, what it must give back, and on 0 the values and the settings that it must answer. */
typedef struct {
    const char *what;
    const table *t;
    enum call which;
    uint64_t limit, d;
    uint32_t refusal, carried;
    size_t count;
    uint64_t values[6];
    uint8_t plan[4];
} expected;

static uint64_t ask(const expected *e, const lent *weights, lent *plan, lent *scratch, lent *answer) {
    const table *t = e->t;
    switch (e->which) {
    case CEILING:
        return qpl_ceiling(t->scans, t->settings, t->law, (uint32_t)e->limit, t->rates, t->cells, t->distortions, t->cells, weights->bytes,
                           weights->length, plan->bytes, plan->length, scratch->bytes, scratch->length, answer->bytes, answer->length);
    case MULTIPLIER:
        return qpl_multiplier(t->scans, t->settings, t->law, e->limit, e->d, t->rates, t->cells, t->distortions, t->cells, weights->bytes,
                              weights->length, plan->bytes, plan->length, scratch->bytes, scratch->length, answer->bytes, answer->length);
    case MINMAX:
        return qpl_minmax(t->scans, t->settings, t->law, e->limit, t->rates, t->cells, t->distortions, t->cells, weights->bytes,
                          weights->length, plan->bytes, plan->length, scratch->bytes, scratch->length, answer->bytes, answer->length);
    default:
        return qpl_average(t->scans, t->settings, t->law, e->limit, t->rates, t->cells, t->distortions, t->cells, weights->bytes,
                           weights->length, plan->bytes, plan->length, scratch->bytes, scratch->length, answer->bytes, answer->length);
    }
}

/* These weights between guard bytes, and whether they are as they were. */
static lent lend_weights(const uint8_t *given, size_t length) {
    lent l = lend(length, 0);
    if (length > 0) memcpy(l.bytes, given, length);
    return l;
}

static int weights_hold(const lent *l, const uint8_t *given) {
    return lent_guarded(l) && (l->length == 0 || memcmp(l->bytes, given, l->length) == 0);
}

/* Every byte: as it was from `kept` on; before that the given bytes, or zeros where none are given. */
static int holds(const lent *l, size_t kept, const uint8_t *given, unsigned from) {
    size_t i;
    if (!lent_guarded(l)) return 0;
    for (i = 0; i < l->length; i++) {
        uint8_t right = i >= kept ? lent_pattern(i, from) : given == NULL ? 0 : given[i];
        if (l->bytes[i] != right) return 0;
    }
    return 1;
}

static const size_t answer_lengths[] = {QPL_CEILING_ANSWER, QPL_MULTIPLIER_ANSWER, QPL_MINMAX_ANSWER, QPL_AVERAGE_ANSWER};

/* With buffers that are longer than needed by `more` bytes. */
static int as_expected(const expected *e, size_t more) {
    size_t need = answer_lengths[e->which], k;
    size_t cells = (size_t)(e->t->scans * e->t->settings);
    lent plan = lend((size_t)e->t->scans + more, 13), scratch = lend(cells + more, 100), answer = lend(need + more, 50);
    lent weights = lend_weights(e->t->weights, (size_t)e->t->scans);
    uint64_t given = ask(e, &weights, &plan, &scratch, &answer);
    int good = qpl_refusal(given) == e->refusal && qpl_carried(given) == e->carried && weights_hold(&weights, e->t->weights);
    uint8_t values[48];
    for (k = 0; k < 8 * e->count; k++) values[k] = (uint8_t)(e->values[k / 8] >> 8 * (k % 8));
    good = good && holds(&plan, e->refusal == 0 ? (size_t)e->t->scans : 0, e->plan, 13);
    good = good && holds(&scratch, e->refusal == 0 || e->refusal == 8 || e->refusal == 9 ? cells : 0, NULL, 100);
    good = good && holds(&answer, e->refusal == 0 ? need : 0, values, 50);
    good = good && (e->refusal != 0 || 8 * e->count == need);
    give_back(&weights);
    give_back(&plan);
    give_back(&scratch);
    give_back(&answer);
    return good;
}

#define F QPL_FORBIDDEN
static const uint32_t t_rates[] = {10, 4, 8, 3, 9, 5}, t_distortions[] = {2, 7, 3, 6, 4, 10};
static const uint32_t u_rates[] = {9, 6, 2}, u_distortions[] = {0, 8, 10};
static const uint32_t blocked_rates[] = {10, 4, F, F, F, F};
static const uint32_t zero[] = {0}, top[] = {1048575}, over[] = {1048576};
/* N 2, Q 4, law 1: one way alone is open, 0 then 2; 3 then 1; 0 then 3. */
static const uint32_t zero_two[] = {1, F, F, F, F, F, 1, F, F, F, F, F, F, F, F, F, F, F, F, F};
static const uint32_t three_one[] = {F, F, F, 1, F, F, F, F, F, F, F, F, F, F, F, F, F, 1, F, F};
static const uint32_t zero_three[] = {1, F, F, F, F, F, F, 1, F, F, F, F, F, F, F, F, F, F, F, F};
static const uint32_t zeros[20] = {0};
/* N 2, Q 4: of scan 1 the steps from 0 to 3, from 3 to 0, from 0 to 2 and from 2 to 0 have rates of their own. */
static const uint32_t v_rates[] = {5, 5, 5, 5, 9, 9, 4, 1, 9, 9, 9, 9, 6, 9, 9, 9, 2, 9, 9, 9};
static const uint32_t v_distortions[] = {1, 1, 1, 1, 3, 3, 3, 3, 3, 3, 3, 3, 3, 3, 3, 3, 3, 3, 3, 3};

static const uint8_t ones[] = {1, 1};

static const table T = {2, 2, 0, t_rates, t_distortions, 6, ones};
static const table U = {1, 3, 0, u_rates, u_distortions, 3, ones};
static const table BLOCKED = {2, 2, 0, blocked_rates, t_distortions, 6, ones};
static const table TOP = {1, 1, 0, top, zero, 1, ones}, OVER = {1, 1, 0, over, zero, 1, ones}, SINGLE = {1, 1, 0, zero, zero, 1, ones};
static const table ZERO_TWO = {2, 4, 1, zero_two, zeros, 20, ones}, THREE_ONE = {2, 4, 1, three_one, zeros, 20, ones};
static const table ZERO_THREE = {2, 4, 1, zero_three, zeros, 20, ones};
static const table V0 = {2, 4, 0, v_rates, v_distortions, 20, ones}, V1 = {2, 4, 1, v_rates, v_distortions, 20, ones};
static const table V2 = {2, 4, 2, v_rates, v_distortions, 20, ones}, V3 = {2, 4, 3, v_rates, v_distortions, 20, ones};
/* A number of which the low 32 bits are a law. */
static const table WIDE = {2, 4, (UINT64_C(1) << 32) + 2, v_rates, v_distortions, 20, ones};

static const expected all[] = {
    {"P1 T, average 18", &T, AVERAGE, 18, 0, 0, 0, 6, {0, 1, 18, 5, 3, 5}, {0, 0}},
    {"P2 T, average 17", &T, AVERAGE, 17, 0, 0, 0, 6, {3, 5, 13, 8, 6, 6}, {0, 1}},
    {"P3 T, average 13", &T, AVERAGE, 13, 0, 0, 0, 6, {3, 5, 13, 8, 6, 8}, {0, 1}},
    {"P4 T, average 12", &T, AVERAGE, 12, 0, 0, 0, 6, {9, 4, 9, 17, 10, 11}, {1, 1}},
    {"P5 T, average 9", &T, AVERAGE, 9, 0, 0, 0, 6, {9, 4, 9, 17, 10, 17}, {1, 1}},
    {"P6 T, average 8", &T, AVERAGE, 8, 0, 9, 0, 0, {0}, {0}},
    {"P7 U, average 7", &U, AVERAGE, 7, 0, 0, 0, 6, {10, 7, 2, 10, 10, 3}, {2}},
    {"P8 T, ceiling 7", &T, CEILING, 7, 0, 0, 0, 3, {13, 8, 6}, {0, 1}},
    {"P9 T, ceiling 5", &T, CEILING, 5, 0, 0, 0, 3, {18, 5, 3}, {0, 0}},
    {"P10 T, ceiling 2", &T, CEILING, 2, 0, 9, 0, 0, {0}, {0}},
    {"P11 T, minmax 17", &T, MINMAX, 17, 0, 0, 0, 4, {6, 13, 8, 6}, {0, 1}},
    {"P12 T, minmax 12", &T, MINMAX, 12, 0, 0, 0, 4, {10, 9, 17, 10}, {1, 1}},
    {"P13 T, multiplier 9/4", &T, MULTIPLIER, 9, 4, 0, 0, 3, {9, 17, 10}, {1, 1}},
    {"P14 T, multiplier 3/5", &T, MULTIPLIER, 3, 5, 0, 0, 3, {13, 8, 6}, {0, 1}},
    {"T with scan 1 forbidden, average 0", &BLOCKED, AVERAGE, 0, 0, 8, 0, 0, {0}, {0}},
    {"T with scan 1 forbidden, average 2^64 - 1", &BLOCKED, AVERAGE, UINT64_MAX, 0, 8, 0, 0, {0}, {0}},
    {"T with scan 1 forbidden, minmax 17", &BLOCKED, MINMAX, 17, 0, 8, 0, 0, {0}, {0}},
    {"T with scan 1 forbidden, ceiling 2", &BLOCKED, CEILING, 2, 0, 8, 0, 0, {0}, {0}},
    {"T with scan 1 forbidden, multiplier 3/5", &BLOCKED, MULTIPLIER, 3, 5, 8, 0, 0, {0}, {0}},
    {"a rate of 1,048,575 passes", &TOP, AVERAGE, 1048575, 0, 0, 0, 6, {0, 1, 1048575, 0, 0, 0}, {0}},
    {"a rate of 1,048,576 gives 7", &OVER, AVERAGE, 1048576, 0, 7, 0, 0, {0}, {0}},
    {"law 1: 0 then 2", &ZERO_TWO, CEILING, 0, 0, 0, 0, 3, {2, 0, 0}, {0, 2}},
    {"law 1: 3 then 1", &THREE_ONE, CEILING, 0, 0, 0, 0, 3, {2, 0, 0}, {3, 1}},
    {"law 1: 0 then 3", &ZERO_THREE, CEILING, 0, 0, 8, 0, 0, {0}, {0}},
    {"N 1, Q 1, both cells 0, average 0", &SINGLE, AVERAGE, 0, 0, 0, 0, 6, {0, 1, 0, 0, 0, 0}, {0}},
    {"T, multiplier 0/0", &T, MULTIPLIER, 0, 0, 4, 0, 0, {0}, {0}},
    {"V, law 0, ceiling 4,294,967,295", &V0, CEILING, 4294967295, 0, 0, 0, 3, {6, 4, 3}, {0, 3}},
    {"V, law 1, ceiling 4,294,967,295", &V1, CEILING, 4294967295, 0, 0, 0, 3, {9, 4, 3}, {0, 2}},
    {"V, law 2, ceiling 4,294,967,295", &V2, CEILING, 4294967295, 0, 0, 0, 3, {7, 4, 3}, {3, 0}},
    {"V, law 0, minmax 6", &V0, MINMAX, 6, 0, 0, 0, 4, {3, 6, 4, 3}, {0, 3}},
    {"V, law 1, minmax 6", &V1, MINMAX, 6, 0, 9, 0, 0, {0}, {0}},
    {"V, law 2, minmax 6", &V2, MINMAX, 6, 0, 9, 0, 0, {0}, {0}},
    {"V, law 0, minmax 7", &V0, MINMAX, 7, 0, 0, 0, 4, {3, 6, 4, 3}, {0, 3}},
    {"V, law 1, minmax 7", &V1, MINMAX, 7, 0, 9, 0, 0, {0}, {0}},
    {"V, law 2, minmax 7", &V2, MINMAX, 7, 0, 0, 0, 4, {3, 7, 4, 3}, {3, 0}},
    {"V, law 2, ceiling 2", &V2, CEILING, 2, 0, 9, 0, 0, {0}, {0}},
    {"V, law 2, multiplier 1/1", &V2, MULTIPLIER, 1, 1, 0, 0, 3, {7, 4, 3}, {3, 0}},
    {"V, law 2, average 6", &V2, AVERAGE, 6, 0, 9, 0, 0, {0}, {0}},
    {"V, law 2, average 7", &V2, AVERAGE, 7, 0, 0, 0, 6, {0, 1, 7, 4, 3, 4}, {3, 0}},
    {"V, law 3, ceiling 4,294,967,295", &V3, CEILING, 4294967295, 0, 3, 0, 0, {0}, {0}},
    {"V, law 3, multiplier 0/0", &V3, MULTIPLIER, 0, 0, 3, 0, 0, {0}, {0}},
    {"V, law 3, minmax 7", &V3, MINMAX, 7, 0, 3, 0, 0, {0}, {0}},
    {"V, law 3, average 7", &V3, AVERAGE, 7, 0, 3, 0, 0, {0}, {0}},
    {"V, law 2^32 + 2, average 7", &WIDE, AVERAGE, 7, 0, 3, 0, 0, {0}, {0}},
};

/* Table T with two of its rates and a distortion changed (a change to what stands there changes nothing), its weights, and what every planning
 * call must give back: 7 at the lowest illegal cell of both tables, or 0 where all are legal; and what an export must, which has no weights. */
typedef struct {
    const char *what;
    size_t rate_at, second_at, distortion_at;
    uint32_t rate, second, distortion;
    uint64_t right;
    uint8_t weights[2];
    uint64_t listed;
} changed_cells;

#define SEVEN(cell) (7 | (uint64_t)(cell) << 32)
static const changed_cells changes[] = {
    {"rate 3 and distortion 2 over the range: 7, at 2", 3, 4, 2, 1048576, 9, 1048576, SEVEN(2), {1, 1}, SEVEN(2)},
    {"a distortion of any value beside forbidden rate 2, rate 5 nearly the marker: 7, at 5", 2, 5, 2, F, F - 1, F, SEVEN(5), {1, 1}, SEVEN(5)},
    {"rate and distortion 4 over the range: 7, at 4", 4, 5, 4, 1048576, 5, 1048576, SEVEN(4), {1, 1}, SEVEN(4)},
    {"distortion 5 over the range: 7, at 5", 0, 1, 5, 10, 4, 1048576, SEVEN(5), {1, 1}, SEVEN(5)},
    {"rate 0 and distortion 0 over the range: 7, at 0", 0, 1, 0, 1048576, 4, 1048576, SEVEN(0), {1, 1}, SEVEN(0)},
    {"rates 1 and 4 over the range, distortion 5 too: 7, at 1", 1, 4, 5, 1048576, F - 1, F, SEVEN(1), {1, 1}, SEVEN(1)},
    {"a distortion of any value beside forbidden rate 0: all legal", 0, 1, 0, F, 4, F, 0, {1, 1}, 0},
    {"cells at the top of their range: all legal", 3, 4, 5, 1048575, 1048575, 1048575, 0, {1, 1}, 0},
};

static int named_by_every_call(const changed_cells *c) {
    uint32_t rates[6], distortions[6];
    table t = {2, 2, 0, rates, distortions, 6, c->weights};
    lent text = lend(128, 13), length = lend(QPL_EXPORT_ANSWER, 50);
    int which, good = 1;
    memcpy(rates, t_rates, sizeof rates);
    memcpy(distortions, t_distortions, sizeof distortions);
    rates[c->rate_at] = c->rate, rates[c->second_at] = c->second, distortions[c->distortion_at] = c->distortion;
    for (which = CEILING; which <= AVERAGE; which++) {
        lent plan = lend(2, 13), scratch = lend(4, 100), answer = lend(answer_lengths[which], 50), weights = lend_weights(t.weights, 2);
        expected e = {c->what, &t, (enum call)which, 4294967295, 1, 0, 0, 0, {0}, {0}};
        e.limit = which == MULTIPLIER ? 1 : e.limit;
        good = good && ask(&e, &weights, &plan, &scratch, &answer) == c->right && weights_hold(&weights, t.weights);
        good = good && (c->right == 0 || (holds(&plan, 0, NULL, 13) && holds(&scratch, 0, NULL, 100) && holds(&answer, 0, NULL, 50)));
        give_back(&weights);
        give_back(&plan);
        give_back(&scratch);
        give_back(&answer);
    }
    good = good && qpl_export(2, 2, rates, 6, distortions, 6, text.bytes, text.length, length.bytes, length.length) == c->listed;
    good = good && (c->listed == 0 || (holds(&text, 0, NULL, 13) && holds(&length, 0, NULL, 50)));
    give_back(&text);
    give_back(&length);
    return good;
}

/* Every cell of tables of this size in turn, its rate, its distortion, or one of these and the other of the cell behind it over the range: 7 at
 * that cell. The tables stand in memory of their own that ends where they do. */
static int every_cell(uint64_t scans, uint64_t settings) {
    size_t cells = (size_t)(settings + (scans - 1) * settings * settings), k;
    uint32_t *rates = (uint32_t *)malloc(4 * cells), *distortions = (uint32_t *)malloc(4 * cells);
    lent plan = lend((size_t)scans, 13), scratch = lend((size_t)(scans * settings), 100), answer = lend(QPL_CEILING_ANSWER, 50);
    lent weights = lend((size_t)scans, 0);
    int turn, good = rates != NULL && distortions != NULL;
    memset(weights.bytes, 1, weights.length);
    for (k = 0; good && k < cells; k++) rates[k] = 1048575 - (uint32_t)k, distortions[k] = (uint32_t)k % 7;
    for (k = 0; good && k < cells; k++)
        for (turn = 0; turn < 4; turn++) {
            uint32_t *here = turn % 2 ? distortions + k : rates + k, *behind = turn % 2 ? rates : distortions;
            uint32_t cell = *here, next = 0;
            behind = turn >= 2 && k + 1 < cells ? behind + k + 1 : &next;
            next = *behind;
            *here = 1048576 + (uint32_t)k, *behind = 1048576;
            good = good && qpl_ceiling(scans, settings, 1, 9, rates, cells, distortions, cells, weights.bytes, weights.length, plan.bytes,
                                       plan.length, scratch.bytes, scratch.length, answer.bytes, answer.length) == SEVEN(k);
            *behind = next, *here = cell;
        }
    good = good && holds(&plan, 0, NULL, 13) && holds(&scratch, 0, NULL, 100) && holds(&answer, 0, NULL, 50) && lent_guarded(&weights);
    good = good && qpl_ceiling(scans, settings, 1, 9, rates, cells, distortions, cells, weights.bytes, weights.length, plan.bytes, plan.length,
                               scratch.bytes, scratch.length, answer.bytes, answer.length) == 0;
    give_back(&weights);
    give_back(&plan);
    give_back(&scratch);
    give_back(&answer);
    free(rates);
    free(distortions);
    return good;
}

static void illegal_cells(void) {
    uint64_t scans;
    int good = 1;
    size_t k;
    for (k = 0; k < sizeof changes / sizeof changes[0]; k++) expect(changes[k].what, named_by_every_call(&changes[k]));
    for (scans = 1; scans <= 40; scans++) good = good && every_cell(scans, 1);
    expect("every cell of tables of 1 to 40 cells", good);
    expect("every cell of a table of 84 cells", every_cell(10, 3));
    expect("every cell of a table of 4,112 cells", every_cell(17, 16));
}

/* How many of the 16 sequences of 2 scans and 4 settings the law allows: each in turn is the only one whose cells are open. -1 where they
 * are not those with a 'y' in `right`, which has 0 0, 0 1 and so on to 3 3: law 2 turned round allows as many, but others. */
static int allowed_by(uint64_t law, const char *right) {
    uint32_t rates[20];
    uint8_t plan[2] = {0}, scratch[8] = {0}, answer[QPL_CEILING_ANSWER] = {0};
    int p, q, k, allowed = 0;
    for (p = 0; p < 4; p++)
        for (q = 0; q < 4; q++) {
            uint64_t given;
            for (k = 0; k < 20; k++) rates[k] = k == p || k == 4 + 4 * p + q ? 1 : F;
            given = qpl_ceiling(2, 4, law, UINT32_MAX, rates, 20, zeros, 20, ones, 2, plan, 2, scratch, 8, answer, sizeof answer);
            if (right[4 * p + q] != 'y') {
                if (given != 8) return -1;
            } else {
                if (given != 0 || plan[0] != p || plan[1] != q) return -1;
                allowed++;
            }
        }
    return allowed;
}

static int room_is(uint64_t channels, uint64_t scans, uint64_t settings, uint64_t cells, uint64_t bytes, uint64_t scratch) {
    lent answer = lend(QPL_ROOM_ANSWER, 50);
    uint64_t given = qpl_room(channels, scans, settings, answer.bytes, answer.length);
    int good = given == 0 && lent_guarded(&answer) && qpl_value(answer.bytes, QPL_ROOM_CELLS) == cells &&
               qpl_value(answer.bytes, QPL_ROOM_BYTES) == bytes && qpl_value(answer.bytes, QPL_ROOM_SCRATCH) == scratch;
    give_back(&answer);
    return good;
}

static int room_refused(uint64_t channels, uint64_t scans, uint64_t settings, size_t length, uint64_t number) {
    lent answer = lend(length, 50);
    int good = qpl_room(channels, scans, settings, answer.bytes, answer.length) == number && holds(&answer, 0, NULL, 50);
    give_back(&answer);
    return good;
}

/* Named values: the last of each answer ends where the answer does, and T's answers stand under their names. */
static void named(void) {
    uint8_t plan[2] = {0}, scratch[4] = {0}, choices[72] = {0}, answer[QPL_AVERAGE_ANSWER] = {0};
    uint32_t totals[144] = {0};
    expect("the names end where the answers do",
           8 * (QPL_ROOM_SCRATCH + 1) == QPL_ROOM_ANSWER && 8 * (QPL_READ_WEIGHTED + 1) == QPL_READ_ANSWER &&
               8 * (QPL_CEILING_PEAK + 1) == QPL_CEILING_ANSWER && 8 * (QPL_MULTIPLIER_PEAK + 1) == QPL_MULTIPLIER_ANSWER &&
               8 * (QPL_MINMAX_PEAK + 1) == QPL_MINMAX_ANSWER && 8 * (QPL_AVERAGE_FLOOR + 1) == QPL_AVERAGE_ANSWER &&
               8 * (QPL_EXPORT_LENGTH + 1) == QPL_EXPORT_ANSWER && 8 * (QPL_BEST_PEAK + 1) == QPL_BEST_ANSWER);
    qpl_ceiling(2, 2, 0, 7, t_rates, 6, t_distortions, 6, ones, 2, plan, 2, scratch, 4, answer, sizeof answer);
    expect("T, ceiling 7, by name", qpl_value(answer, QPL_CEILING_RATE) == 13 && qpl_value(answer, QPL_CEILING_DISTORTION) == 8 &&
                                        qpl_value(answer, QPL_CEILING_PEAK) == 6);
    qpl_multiplier(2, 2, 0, 9, 4, t_rates, 6, t_distortions, 6, ones, 2, plan, 2, scratch, 4, answer, sizeof answer);
    expect("T, multiplier 9/4, by name", qpl_value(answer, QPL_MULTIPLIER_RATE) == 9 && qpl_value(answer, QPL_MULTIPLIER_DISTORTION) == 17 &&
                                             qpl_value(answer, QPL_MULTIPLIER_PEAK) == 10);
    qpl_minmax(2, 2, 0, 17, t_rates, 6, t_distortions, 6, ones, 2, plan, 2, scratch, 4, answer, sizeof answer);
    expect("T, minmax 17, by name", qpl_value(answer, QPL_MINMAX_CEILING) == 6 && qpl_value(answer, QPL_MINMAX_RATE) == 13 &&
                                        qpl_value(answer, QPL_MINMAX_DISTORTION) == 8 && qpl_value(answer, QPL_MINMAX_PEAK) == 6);
    qpl_average(2, 2, 0, 12, t_rates, 6, t_distortions, 6, ones, 2, plan, 2, scratch, 4, answer, sizeof answer);
    expect("T, average 12, by name", qpl_value(answer, QPL_AVERAGE_N) == 9 && qpl_value(answer, QPL_AVERAGE_D) == 4 &&
                                         qpl_value(answer, QPL_AVERAGE_RATE) == 9 && qpl_value(answer, QPL_AVERAGE_DISTORTION) == 17 &&
                                         qpl_value(answer, QPL_AVERAGE_PEAK) == 10 && qpl_value(answer, QPL_AVERAGE_FLOOR) == 11);
    qpl_best(2, 2, 0, 17, t_rates, 6, t_distortions, 6, ones, 2, plan, 2, choices, 72, totals, 144, answer, sizeof answer);
    expect("T, best 17, by name", qpl_value(answer, QPL_BEST_RATE) == 13 && qpl_value(answer, QPL_BEST_DISTORTION) == 8 &&
                                      qpl_value(answer, QPL_BEST_PEAK) == 6);
}

/* T's average plan for 17 to a file and back, with buffers of exactly the needed size; and a changed byte. */
static void files(void) {
    static const uint8_t settings[] = {0, 1};
    static const uint64_t fields[] = {2, 2, 0, 0, 17, 3, 5, 13, 8, 6, 6, QPL_VERSION_2, 0};
    lent file = lend(1024, 13), plan = lend(2, 13), answer = lend(QPL_READ_ANSWER, 50);
    int k, good = 1;
    expect("T, average 17: written",
           qpl_write(2, 2, 0, QPL_KIND_AVERAGE, 17, 3, 5, 13, 8, 6, 6, 0, settings, 2, file.bytes, file.length) == 0 && lent_guarded(&file) &&
               memcmp(file.bytes + 4, "QPL2", 4) == 0 && file.bytes[516] == 0x10);
    expect("T, average 17: read", qpl_read(file.bytes, file.length, plan.bytes, plan.length, answer.bytes, answer.length) == 0 &&
                                      holds(&plan, 2, settings, 13) && lent_guarded(&answer));
    for (k = 0; k < 13; k++) good = good && qpl_value(answer.bytes, (size_t)k) == fields[k];
    expect("T, average 17: the fields that were written, the version, and no mark", good);
    give_back(&plan);
    give_back(&answer);
    plan = lend(2, 13);
    answer = lend(QPL_READ_ANSWER, 50);
    file.bytes[600]++;
    expect("a changed byte of block 1: refused 12, at 1",
           qpl_read(file.bytes, file.length, plan.bytes, plan.length, answer.bytes, answer.length) == (12 | (uint64_t)1 << 32) &&
               holds(&plan, 0, NULL, 13) && holds(&answer, 0, NULL, 50));
    file.bytes[600]--;
    expect("a plan buffer of one byte: refused 6",
           qpl_read(file.bytes, file.length, plan.bytes, 1, answer.bytes, answer.length) == 6 && holds(&plan, 0, NULL, 13));
    expect("an answer buffer of 103 bytes, or of the 96 of before: refused 6",
           qpl_read(file.bytes, file.length, plan.bytes, plan.length, answer.bytes, 103) == 6 &&
               qpl_read(file.bytes, file.length, plan.bytes, plan.length, answer.bytes, 96) == 6 && holds(&plan, 0, NULL, 13) &&
               holds(&answer, 0, NULL, 50));
    expect("no file: refused 11", qpl_read(NULL, 0, plan.bytes, plan.length, answer.bytes, answer.length) == 11);
    give_back(&file);
    file = lend(1024, 13);
    expect("a rate above B: refused 13, at 32",
           qpl_write(2, 2, 0, QPL_KIND_AVERAGE, 12, 3, 5, 13, 8, 6, 6, 0, settings, 2, file.bytes, file.length) ==
                   (13 | (uint64_t)32 << 32) &&
               holds(&file, 0, NULL, 13));
    expect("a file buffer of 1,023 bytes: refused 6",
           qpl_write(2, 2, 0, QPL_KIND_AVERAGE, 17, 3, 5, 13, 8, 6, 6, 0, settings, 2, file.bytes, 1023) == 6 && holds(&file, 0, NULL, 13));
    give_back(&file);
    give_back(&plan);
    give_back(&answer);
}

/* A file of T's average plan for 17, or of the same fields with more scans, by hand: its letters, law and scans, the first two bytes of
 * settings, and the checks of both blocks. What a read of it must give back, and on 0 the settings. */
typedef struct {
    const char *what, *letters;
    uint8_t law, scans, packed[2];
    uint32_t checks[2];
    uint64_t right;
    uint8_t plan[4];
} expected_file;

#define TWELVE(block) (12 | (uint64_t)(block) << 32)
#define LETTERS (13 | UINT64_C(4) << 32)
static const expected_file by_hand[] = {
    {"T as QPL2, law 1", "QPL2", 1, 2, {0x10, 0}, {174532, 8573}, 0, {0, 1}},
    {"T as QPL2, law 0", "QPL2", 0, 2, {0x10, 0}, {174035, 8573}, 0, {0, 1}},
    {"T as QPL2, law 2", "QPL2", 2, 2, {0x10, 0}, {175029, 8573}, 0, {0, 1}},
    {"T as QPL1, law 1", "QPL1", 1, 2, {0x10, 0}, {349, 17}, 0, {0, 1}},
    {"T as QPL1, law 0", "QPL1", 0, 2, {0x10, 0}, {348, 17}, 0, {0, 1}},
    {"T as QPL1, law 2", "QPL1", 2, 2, {0x10, 0}, {350, 17}, 0, {0, 1}},
    {"four scans as QPL1", "QPL1", 1, 4, {0x10, 0x11}, {351, 34}, 0, {0, 1, 1, 1}},
    {"four scans as QPL1, two bytes exchanged: read as good", "QPL1", 1, 4, {0x11, 0x10}, {351, 34}, 0, {1, 1, 0, 1}},
    {"four scans as QPL2", "QPL2", 1, 4, {0x10, 0x11}, {175532, 17124}, 0, {0, 1, 1, 1}},
    {"four scans as QPL2, two bytes exchanged: refused 12, at 1", "QPL2", 1, 4, {0x11, 0x10}, {175532, 17124}, TWELVE(1), {0}},
    {"four scans as QPL2, two bytes exchanged before the check is made", "QPL2", 1, 4, {0x11, 0x10}, {175532, 17125}, 0, {1, 1, 0, 1}},
    {"T as QPL2, its letters changed to QPL1: refused 12, at 0", "QPL1", 1, 2, {0x10, 0}, {174532, 8573}, TWELVE(0), {0}},
    {"T as QPL2, its letters changed to QPL3: refused 12, at 0", "QPL3", 1, 2, {0x10, 0}, {174532, 8573}, TWELVE(0), {0}},
    {"T as QPL1, its letters changed to QPL2: refused 12, at 0", "QPL2", 1, 2, {0x10, 0}, {349, 17}, TWELVE(0), {0}},
    {"QPL3 with the old checks: refused 13, at 4", "QPL3", 1, 2, {0x10, 0}, {351, 17}, LETTERS, {0}},
    {"QPL3 with the new check in block 0: refused 12, at 0", "QPL3", 1, 2, {0x10, 0}, {175033, 17}, TWELVE(0), {0}},
    {"QPL3 with the new check in block 1: refused 12, at 1", "QPL3", 1, 2, {0x10, 0}, {351, 8573}, TWELVE(1), {0}},
    {"QPL3 with the new checks: refused 12, at 0", "QPL3", 1, 2, {0x10, 0}, {175033, 8573}, TWELVE(0), {0}},
    {"QPL3 and law 3, with the old checks: refused 13, at 4", "QPL3", 3, 2, {0x10, 0}, {353, 17}, LETTERS, {0}},
    {"QPL2 with the old checks: refused 12, at 0", "QPL2", 1, 2, {0x10, 0}, {350, 17}, TWELVE(0), {0}},
    {"QPL2 with the old check in block 0: refused 12, at 0", "QPL2", 1, 2, {0x10, 0}, {350, 8573}, TWELVE(0), {0}},
    {"QPL2 with the old check in block 1: refused 12, at 1", "QPL2", 1, 2, {0x10, 0}, {174532, 17}, TWELVE(1), {0}},
    {"QPL1 with the new checks: refused 12, at 0", "QPL1", 1, 2, {0x10, 0}, {174031, 8573}, TWELVE(0), {0}},
    {"QPL1 with the new check in block 0: refused 12, at 0", "QPL1", 1, 2, {0x10, 0}, {174031, 17}, TWELVE(0), {0}},
    {"QPL1 with the new check in block 1: refused 12, at 1", "QPL1", 1, 2, {0x10, 0}, {349, 8573}, TWELVE(1), {0}},
    {"QPL2 without the 1 of the check in block 0", "QPL2", 1, 2, {0x10, 0}, {174531, 8573}, TWELVE(0), {0}},
    {"QPL2 without the 1 of the check in block 1", "QPL2", 1, 2, {0x10, 0}, {174532, 8572}, TWELVE(1), {0}},
    {"QPL2, a check of which 16 bits are right", "QPL2", 1, 2, {0x10, 0}, {174532 - 131072, 8573}, TWELVE(0), {0}},
    {"QPL2, a check of which 24 bits are right", "QPL2", 1, 2, {0x10, 0}, {174532, 8573 + 16777216}, TWELVE(1), {0}},
    {"QPL1, a check of which 24 bits are right", "QPL1", 1, 2, {0x10, 0}, {349 + 16777216, 17}, TWELVE(0), {0}},
};

static void make(const expected_file *e, uint8_t *file) {
    memset(file, 0, 2 * BLOCK);
    memcpy(file + 4, e->letters, 4);
    file[8] = e->scans, file[10] = 2, file[11] = e->law, file[16] = 17, file[24] = 3, file[28] = 5;
    file[32] = 13, file[36] = 8, file[40] = 6, file[44] = 6;
    file[BLOCK] = 1, file[BLOCK + 4] = e->packed[0], file[BLOCK + 5] = e->packed[1];
    put_check(file, e->checks[0]), put_check(file + BLOCK, e->checks[1]);
}

/* Where there is no room, what is right otherwise is refused with 6; what is not keeps its refusal. */
static int reads(const expected_file *e, size_t plan_length, size_t answer_length) {
    uint64_t fields[13] = {0, 2, 0, QPL_KIND_AVERAGE, 17, 3, 5, 13, 8, 6, 6, 0, 0};
    uint64_t right = e->right == 0 && (plan_length < e->scans || answer_length < QPL_READ_ANSWER) ? 6 : e->right;
    uint8_t file[2 * BLOCK], values[QPL_READ_ANSWER];
    lent plan = lend(plan_length, 13), answer = lend(answer_length, 50);
    size_t k;
    int good;
    fields[QPL_READ_SCANS] = e->scans, fields[QPL_READ_LAW] = e->law;
    fields[QPL_READ_VERSION] = e->letters[3] == '2' ? QPL_VERSION_2 : QPL_VERSION_1;
    for (k = 0; k < sizeof values; k++) values[k] = (uint8_t)(fields[k / 8] >> 8 * (k % 8));
    make(e, file);
    good = qpl_read(file, sizeof file, plan.bytes, plan.length, answer.bytes, answer.length) == right;
    good = good && holds(&plan, right == 0 ? e->scans : 0, e->plan, 13) && holds(&answer, right == 0 ? sizeof values : 0, values, 50);
    give_back(&plan);
    give_back(&answer);
    return good;
}

/* What is written is the file by hand, to the byte, in a buffer that is longer by `more` bytes. */
static int writes(const expected_file *e, size_t more) {
    uint8_t file[2 * BLOCK];
    lent written = lend(sizeof file + more, 13);
    int good = qpl_write(e->scans, 2, e->law, QPL_KIND_AVERAGE, 17, 3, 5, 13, 8, 6, 6, 0, e->plan, e->scans, written.bytes,
                         written.length) == 0;
    make(e, file);
    good = good && holds(&written, sizeof file, file, 13);
    give_back(&written);
    return good;
}

/* What the tests make right again (seal.h) is what is right by hand. */
static int sealed(const expected_file *e) {
    uint8_t file[2 * BLOCK], again[2 * BLOCK];
    make(e, file);
    memcpy(again, file, sizeof again);
    seal(again, sizeof again);
    return memcmp(file, again, sizeof file) == 0;
}

/* T's file with every other byte at every place of its letters, under the old checks and under the new: none of these letters takes the new,
 * and but for QPL1 none is taken under the old. */
static int all_letters(void) {
    lent plan = lend(2, 13), answer = lend(QPL_READ_ANSWER, 50);
    uint8_t file[2 * BLOCK];
    int at, by, good = 1;
    make(&by_hand[0], file);
    for (at = 4; at < 8; at++)
        for (by = 1; by < 256; by++) {
            uint8_t right = file[at];
            file[at] = (uint8_t)(right + by);
            put_check(file, new_check(file)), put_check(file + BLOCK, new_check(file + BLOCK));
            good = good && qpl_read(file, sizeof file, plan.bytes, 2, answer.bytes, answer.length) == TWELVE(0);
            put_check(file, old_check(file)), put_check(file + BLOCK, old_check(file + BLOCK));
            /* QPL1 is good under the old, and is read elsewhere */
            if (memcmp(file + 4, "QPL1", 4) != 0)
                good = good && qpl_read(file, sizeof file, plan.bytes, 2, answer.bytes, answer.length) == LETTERS;
            file[at] = right;
        }
    good = good && holds(&plan, 0, NULL, 13) && holds(&answer, 0, NULL, 50);
    give_back(&plan);
    give_back(&answer);
    return good;
}

/* So many scans of 16 settings under law 0: written, with these checks in the blocks behind block 0, read as both versions. */
static int both_read(uint64_t scans, const uint8_t *settings, const uint32_t *checks) {
    size_t length = scans > 1008 ? 3 * BLOCK : 2 * BLOCK, at;
    lent file = lend(length, 13);
    int version, good = qpl_write(scans, 16, 0, QPL_KIND_MINMAX, 7, 0, 0, 7, 4, 3, 0, 0, settings, (size_t)scans, file.bytes, length) == 0;
    good = good && lent_guarded(&file);
    for (at = BLOCK; at < length; at += BLOCK) {
        uint8_t block[BLOCK];
        memcpy(block, file.bytes + at, BLOCK);
        put_check(block, checks[at / BLOCK - 1]);
        good = good && memcmp(block, file.bytes + at, BLOCK) == 0;
    }
    for (version = 2; version >= 1; version--) {
        lent plan = lend((size_t)scans + 3, 13), answer = lend(QPL_READ_ANSWER, 50);
        if (version == 1) seal_as(file.bytes, length, 1);
        good = good && qpl_read(file.bytes, length, plan.bytes, plan.length, answer.bytes, answer.length) == 0;
        good = good && holds(&plan, (size_t)scans, settings, 13) && qpl_value(answer.bytes, QPL_READ_VERSION) == (uint64_t)version;
        give_back(&plan);
        give_back(&answer);
    }
    give_back(&file);
    return good;
}

/* Every other number of each block of the file of these settings, as far as one byte of it goes, with checks that are right: 12 at that
 * block in both versions. The check shows a changed number, but not a block with another number from the start. */
static int all_numbers(const uint8_t *settings) {
    lent file = lend(3 * BLOCK, 13), plan = lend(1024, 13), answer = lend(QPL_READ_ANSWER, 50);
    int version, by, good = qpl_write(1024, 16, 0, QPL_KIND_MINMAX, 7, 0, 0, 7, 4, 3, 0, 0, settings, 1024, file.bytes, file.length) == 0;
    size_t at;
    for (version = 1; version <= 2; version++)
        for (at = 0; at < file.length; at += at % BLOCK == 3 ? BLOCK - 3 : 1)
            for (by = 1; by < 256; by++) {
                uint8_t right = file.bytes[at];
                file.bytes[at] = (uint8_t)(right + by);
                seal_as(file.bytes, file.length, version);
                good = good && qpl_read(file.bytes, file.length, plan.bytes, 1024, answer.bytes, answer.length) == TWELVE(at / BLOCK);
                file.bytes[at] = right;
            }
    good = good && holds(&plan, 0, NULL, 13) && holds(&answer, 0, NULL, 50);
    give_back(&file);
    give_back(&plan);
    give_back(&answer);
    return good;
}

/* The first bytes of a file, in memory of their own that ends where they do: 11 where no file is so long, before any letter is read. */
static int other_lengths(const expected_file *e) {
    static const size_t lengths[] = {0, 1, 3, 4, 5, 6, 7, 8, 507, 508, 511, 512, 513, 1023, 1025, 1535, 1537, 2048};
    lent plan = lend(e->scans, 13), answer = lend(QPL_READ_ANSWER, 50);
    uint8_t whole[4 * BLOCK] = {0};
    size_t k;
    int good = 1;
    make(e, whole);
    for (k = 0; k < sizeof lengths / sizeof lengths[0]; k++) {
        uint8_t *file = (uint8_t *)malloc(lengths[k] + 1);
        if (file == NULL) exit(2);
        /* the byte more is in front, so that there is memory for no bytes too */
        memcpy(file + 1, whole, lengths[k]);
        good = good && qpl_read(file + 1, lengths[k], plan.bytes, plan.length, answer.bytes, answer.length) == 11;
        free(file);
    }
    good = good && holds(&plan, 0, NULL, 13) && holds(&answer, 0, NULL, 50);
    give_back(&plan);
    give_back(&answer);
    return good;
}

/* Plan files of both versions. */
static void versions(void) {
    /* in a data block these settings are the letters QPL1 and QPL2, which choose nothing there */
    static const uint8_t one[] = {1, 5, 0, 5, 12, 4, 1, 3}, two[] = {1, 5, 0, 5, 12, 4, 2, 3};
    static const uint32_t one_check[] = {144274}, two_check[] = {144775}, full_checks[] = {32451809, 1022037};
    uint8_t full[1024];
    size_t k;
    for (k = 0; k < sizeof by_hand / sizeof by_hand[0]; k++) {
        const expected_file *e = &by_hand[k];
        expect(e->what, reads(e, e->scans, QPL_READ_ANSWER));
        expect(e->what, reads(e, e->scans + 7, QPL_READ_ANSWER + 9));
        expect(e->what, reads(e, 0, 0) && reads(e, e->scans - 1, QPL_READ_ANSWER) && reads(e, e->scans, QPL_READ_ANSWER - 1));
        if (e->right == 0) expect(e->what, sealed(e) && other_lengths(e));
        if (e->right == 0 && e->letters[3] == '2') expect(e->what, writes(e, 0) && writes(e, 17));
    }
    expect("all changes of a letter", all_letters());
    expect("letters among the settings", both_read(8, one, one_check) && both_read(8, two, two_check));
    memset(full, 15, sizeof full);
    expect("checks of over 24 bits, in two blocks and in three", both_read(1008, full, full_checks) && both_read(1024, full, full_checks));
    expect("other block numbers", all_numbers(full));
}

/* A byte of block 0 changed, and the checks made right again. */
static void put(lent *file, size_t at, uint8_t byte) {
    file->bytes[at] = byte;
    seal(file->bytes, file->length);
}

/* A read of a plan of two scans, in either version of its file: what it must give back, and on 0 the settings and the law. */
static int read_in_both(lent *file, const uint8_t *settings, uint64_t law, uint64_t right) {
    int version, good = 1;
    for (version = 1; version <= 2; version++) {
        lent plan = lend(2, 13), answer = lend(QPL_READ_ANSWER, 50);
        seal_as(file->bytes, file->length, version);
        good = good && qpl_read(file->bytes, file->length, plan.bytes, plan.length, answer.bytes, answer.length) == right;
        good = good && holds(&plan, right == 0 ? 2 : 0, settings, 13);
        good = good && (right != 0 ? holds(&answer, 0, NULL, 50)
                                   : lent_guarded(&answer) && qpl_value(answer.bytes, QPL_READ_LAW) == law &&
                                         qpl_value(answer.bytes, QPL_READ_VERSION) == (uint64_t)version);
        give_back(&plan);
        give_back(&answer);
    }
    return good;
}

/* A minmax plan of V under a law, written, and read in both versions: what all must give back. What is read, and what a write that is not
 * refused must write, is the plan's file under law 0, which any two settings keep, with the law changed. */
static int filed(uint64_t law, uint8_t first, uint8_t second, uint64_t rate, uint64_t right) {
    uint8_t settings[2];
    lent file = lend(1024, 13), written = lend(1024, 13);
    int good;
    settings[0] = first, settings[1] = second;
    good = qpl_write(2, 4, 0, QPL_KIND_MINMAX, 7, 0, 0, rate, 4, 3, 0, 0, settings, 2, file.bytes, file.length) == 0 && lent_guarded(&file);
    put(&file, 11, (uint8_t)law);
    good = good && qpl_write(2, 4, law, QPL_KIND_MINMAX, 7, 0, 0, rate, 4, 3, 0, 0, settings, 2, written.bytes, written.length) == right;
    good = good && holds(&written, right == 0 ? 1024 : 0, file.bytes, 13);
    good = good && read_in_both(&file, settings, law, right);
    give_back(&file);
    give_back(&written);
    return good;
}

static void laws(void) {
    static const uint8_t settings[] = {3, 0};
    const uint64_t at_1 = 14 | UINT64_C(1) << 32, at_law = 13 | UINT64_C(11) << 32, at_kind = 13 | UINT64_C(12) << 32;
    lent file = lend(1024, 13);
    expect("law 0 allows 16 sequences", allowed_by(0, "yyyy" "yyyy" "yyyy" "yyyy") == 16);
    expect("law 1 allows 14 sequences, not 0 3 and 3 0", allowed_by(1, "yyyn" "yyyy" "yyyy" "nyyy") == 14);
    expect("law 2 allows 15 sequences, not 0 3", allowed_by(2, "yyyn" "yyyy" "yyyy" "yyyy") == 15);
    expect("law 0, a file of 3 0", filed(0, 3, 0, 7, 0));
    expect("law 0, a file of 0 3", filed(0, 0, 3, 6, 0));
    expect("law 1, a file of 3 0: refused 14, at 1", filed(1, 3, 0, 7, at_1));
    expect("law 1, a file of 0 3: refused 14, at 1", filed(1, 0, 3, 6, at_1));
    expect("law 2, a file of 3 0", filed(2, 3, 0, 7, 0));
    expect("law 2, a file of 0 3: refused 14, at 1", filed(2, 0, 3, 6, at_1));
    expect("law 3, a file of 3 0: refused 13, at 11", filed(3, 3, 0, 7, at_law));
    expect("law 255, a file of 3 0: refused 13, at 11", filed(255, 3, 0, 7, at_law));
    expect("law 2^32 + 2: not written",
           qpl_write(2, 4, (UINT64_C(1) << 32) + 2, QPL_KIND_MINMAX, 7, 0, 0, 7, 4, 3, 0, 0, settings, 2, file.bytes, file.length) == at_law &&
               holds(&file, 0, NULL, 13));
    expect("law 2, kind 2: not written", qpl_write(2, 4, 2, 2, 7, 0, 0, 7, 4, 3, 0, 0, settings, 2, file.bytes, file.length) == at_kind &&
                                             holds(&file, 0, NULL, 13));
    expect("law 2, kind 1: written",
           qpl_write(2, 4, 2, QPL_KIND_MINMAX, 7, 0, 0, 7, 4, 3, 0, 0, settings, 2, file.bytes, file.length) == 0 && lent_guarded(&file));
    put(&file, 12, 2);
    expect("law 2, kind 2: refused 13, at 12", read_in_both(&file, settings, 2, at_kind));
    give_back(&file);
}

/* Table T under law 1, with weights. */
static const uint8_t w_21[] = {2, 1}, w_12[] = {1, 2}, w_01[] = {0, 1}, w_10[] = {1, 0}, w_00[] = {0, 0}, w_most[] = {255, 255};
static const table T_11 = {2, 2, 1, t_rates, t_distortions, 6, ones}, T_21 = {2, 2, 1, t_rates, t_distortions, 6, w_21};
static const table T_12 = {2, 2, 1, t_rates, t_distortions, 6, w_12}, T_01 = {2, 2, 1, t_rates, t_distortions, 6, w_01};
static const table T_10 = {2, 2, 1, t_rates, t_distortions, 6, w_10}, T_00 = {2, 2, 1, t_rates, t_distortions, 6, w_00};
static const table T_MOST = {2, 2, 1, t_rates, t_distortions, 6, w_most};
/* Distortion 3 changed: the most that weight 2 allows; over that, where the weight is 1; the most that a cell can have, where it is 0; and any
 * value, beside a forbidden rate, where the weight is the greatest. */
static const uint32_t half[] = {2, 7, 3, 524287, 4, 10}, large[] = {2, 7, 3, 600000, 4, 10}, largest[] = {2, 7, 3, 1048575, 4, 10};
static const uint32_t any[] = {2, 7, 3, F, 4, 10}, without_3[] = {10, 4, 8, F, 9, 5};
static const table HALF = {2, 2, 1, t_rates, half, 6, w_12}, LARGE = {2, 2, 1, t_rates, large, 6, w_21};
static const table LARGEST = {2, 2, 1, t_rates, largest, 6, w_10}, ANY = {2, 2, 1, without_3, any, 6, w_most};

static const expected weighed[] = {
    {"T, weights 1 1, law 1, average 17", &T_11, AVERAGE, 17, 0, 0, 0, 6, {3, 5, 13, 8, 6, 6}, {0, 1}},
    {"T, weights 1 1, law 1, average 12", &T_11, AVERAGE, 12, 0, 0, 0, 6, {9, 4, 9, 17, 10, 11}, {1, 1}},
    {"T, weights 2 1, average 18", &T_21, AVERAGE, 18, 0, 0, 0, 6, {0, 1, 18, 7, 3, 7}, {0, 0}},
    {"T, weights 2 1, average 17", &T_21, AVERAGE, 17, 0, 0, 0, 6, {3, 5, 13, 10, 6, 8}, {0, 1}},
    {"T, weights 2 1, average 13", &T_21, AVERAGE, 13, 0, 0, 0, 6, {3, 5, 13, 10, 6, 10}, {0, 1}},
    {"T, weights 2 1, average 12", &T_21, AVERAGE, 12, 0, 0, 0, 6, {7, 2, 9, 24, 10, 14}, {1, 1}},
    {"T, weights 2 1, average 9", &T_21, AVERAGE, 9, 0, 0, 0, 6, {7, 2, 9, 24, 10, 24}, {1, 1}},
    {"T, weights 2 1, average 8", &T_21, AVERAGE, 8, 0, 9, 0, 0, {0}, {0}},
    {"T, weights 2 1, ceiling 7", &T_21, CEILING, 7, 0, 0, 0, 3, {13, 10, 6}, {0, 1}},
    {"T, weights 2 1, ceiling 2", &T_21, CEILING, 2, 0, 9, 0, 0, {0}, {0}},
    {"T, weights 2 1, minmax 13", &T_21, MINMAX, 13, 0, 0, 0, 4, {6, 13, 10, 6}, {0, 1}},
    {"T, weights 2 1, minmax 12", &T_21, MINMAX, 12, 0, 0, 0, 4, {10, 9, 24, 10}, {1, 1}},
    {"T, weights 2 1, multiplier 9/4", &T_21, MULTIPLIER, 9, 4, 0, 0, 3, {13, 10, 6}, {0, 1}},
    {"T, weights 2 1, multiplier 7/2", &T_21, MULTIPLIER, 7, 2, 0, 0, 3, {9, 24, 10}, {1, 1}},
    {"T, weights 1 2, average 17", &T_12, AVERAGE, 17, 0, 0, 0, 6, {6, 5, 13, 14, 6, 10}, {0, 1}},
    {"T, weights 1 2, average 12", &T_12, AVERAGE, 12, 0, 0, 0, 6, {13, 4, 9, 27, 10, 18}, {1, 1}},
    {"T, weights 0 1, average 18", &T_01, AVERAGE, 18, 0, 0, 0, 6, {0, 1, 18, 3, 3, 3}, {0, 0}},
    {"T, weights 0 1, average 17", &T_01, AVERAGE, 17, 0, 0, 0, 6, {1, 5, 13, 4, 7, 4}, {1, 0}},
    {"T, weights 0 1, average 13", &T_01, AVERAGE, 13, 0, 0, 0, 6, {1, 5, 13, 4, 7, 4}, {1, 0}},
    {"T, weights 0 1, average 12", &T_01, AVERAGE, 12, 0, 0, 0, 6, {3, 2, 9, 10, 10, 6}, {1, 1}},
    {"T, weights 0 1, ceiling 7", &T_01, CEILING, 7, 0, 0, 0, 3, {13, 4, 7}, {1, 0}},
    {"T, weights 0 1, ceiling 6", &T_01, CEILING, 6, 0, 0, 0, 3, {13, 6, 6}, {0, 1}},
    {"T, weights 0 1, minmax 13", &T_01, MINMAX, 13, 0, 0, 0, 4, {6, 13, 6, 6}, {0, 1}},
    {"T, weights 0 1, multiplier 1/5", &T_01, MULTIPLIER, 1, 5, 0, 0, 3, {13, 4, 7}, {1, 0}},
    {"T, weights 0 1, multiplier 0/1", &T_01, MULTIPLIER, 0, 1, 0, 0, 3, {18, 3, 3}, {0, 0}},
    {"T, weights 1 0, average 18", &T_10, AVERAGE, 18, 0, 0, 0, 6, {0, 1, 13, 2, 6, 2}, {0, 1}},
    {"T, weights 1 0, average 13", &T_10, AVERAGE, 13, 0, 0, 0, 6, {0, 1, 13, 2, 6, 2}, {0, 1}},
    {"T, weights 1 0, average 12", &T_10, AVERAGE, 12, 0, 0, 0, 6, {5, 4, 9, 7, 10, 4}, {1, 1}},
    {"T, weights 1 0, average 9", &T_10, AVERAGE, 9, 0, 0, 0, 6, {5, 4, 9, 7, 10, 7}, {1, 1}},
    {"T, weights 1 0, ceiling 5", &T_10, CEILING, 5, 0, 0, 0, 3, {18, 2, 3}, {0, 0}},
    {"T, weights 1 0, minmax 18", &T_10, MINMAX, 18, 0, 0, 0, 4, {3, 18, 2, 3}, {0, 0}},
    {"T, weights 1 0, multiplier 0/1", &T_10, MULTIPLIER, 0, 1, 0, 0, 3, {13, 2, 6}, {0, 1}},
    {"T, weights 0 0, average 2^64 - 1", &T_00, AVERAGE, UINT64_MAX, 0, 0, 0, 6, {0, 1, 9, 0, 10, 0}, {1, 1}},
    {"T, weights 0 0, average 18", &T_00, AVERAGE, 18, 0, 0, 0, 6, {0, 1, 9, 0, 10, 0}, {1, 1}},
    {"T, weights 0 0, average 13", &T_00, AVERAGE, 13, 0, 0, 0, 6, {0, 1, 9, 0, 10, 0}, {1, 1}},
    {"T, weights 0 0, average 9", &T_00, AVERAGE, 9, 0, 0, 0, 6, {0, 1, 9, 0, 10, 0}, {1, 1}},
    {"T, weights 0 0, average 8", &T_00, AVERAGE, 8, 0, 9, 0, 0, {0}, {0}},
    {"T, weights 0 0, ceiling 7", &T_00, CEILING, 7, 0, 0, 0, 3, {13, 0, 6}, {0, 1}},
    {"T, weights 0 0, ceiling 2", &T_00, CEILING, 2, 0, 9, 0, 0, {0}, {0}},
    {"T, weights 0 0, minmax 18", &T_00, MINMAX, 18, 0, 0, 0, 4, {3, 18, 0, 3}, {0, 0}},
    {"T, weights 0 0, minmax 9", &T_00, MINMAX, 9, 0, 0, 0, 4, {10, 9, 0, 10}, {1, 1}},
    {"T, weights 0 0, multiplier 0/1", &T_00, MULTIPLIER, 0, 1, 0, 0, 3, {9, 0, 10}, {1, 1}},
    {"T, weights 255 255, average 17", &T_MOST, AVERAGE, 17, 0, 0, 0, 6, {153, 1, 13, 2040, 6, 1428}, {0, 1}},
    {"T, weights 255 255, average 12", &T_MOST, AVERAGE, 12, 0, 0, 0, 6, {2295, 4, 9, 4335, 10, 2614}, {1, 1}},
    {"T, weights 255 255, ceiling 7", &T_MOST, CEILING, 7, 0, 0, 0, 3, {13, 2040, 6}, {0, 1}},
    {"T, weights 1 2, distortion 3 at 524,287: average 13", &HALF, AVERAGE, 13, 0, 0, 0, 6, {7, 5, 13, 15, 7, 15}, {1, 0}},
    {"T, weights 2 1, distortion 3 at 600,000: average 12", &LARGE, AVERAGE, 12, 0, 0, 0, 6, {17, 9, 9, 24, 10, 19}, {1, 1}},
    {"T, weights 2 1, distortion 3 at 600,000: minmax 13", &LARGE, MINMAX, 13, 0, 0, 0, 4, {7, 13, 18, 7}, {1, 0}},
    {"T, weights 1 0, distortion 3 at 1,048,575: average 13", &LARGEST, AVERAGE, 13, 0, 0, 0, 6, {0, 1, 13, 2, 1048575, 2}, {0, 1}},
    {"T, weights 1 0, distortion 3 at 1,048,575: minmax 13", &LARGEST, MINMAX, 13, 0, 0, 0, 4, {7, 13, 7, 7}, {1, 0}},
    {"T, weights 255 255, cell 3 forbidden, with 4,294,967,295 beside it: average 17", &ANY, AVERAGE, 17, 0, 0, 0, 6,
     {306, 1, 13, 2805, 7, 1581}, {1, 0}},
    {"T, weights 255 255, cell 3 forbidden, with 4,294,967,295 beside it: minmax 13", &ANY, MINMAX, 13, 0, 0, 0, 4, {7, 13, 2805, 7}, {1, 0}},
};

static const changed_cells weighed_changes[] = {
    {"weights 1 2, distortion 3 at 600,000: 7, at 3", 0, 1, 3, 10, 4, 600000, SEVEN(3), {1, 2}, 0},
    {"weights 2 1, distortion 3 at 600,000: all legal", 0, 1, 3, 10, 4, 600000, 0, {2, 1}, 0},
    {"weights 1 2, distortion 3 at 524,287: all legal", 0, 1, 3, 10, 4, 524287, 0, {1, 2}, 0},
    {"weights 1 2, distortion 3 at 524,288: 7, at 3", 0, 1, 3, 10, 4, 524288, SEVEN(3), {1, 2}, 0},
    {"weights 2 1, distortion 1 at 524,287: all legal", 0, 1, 1, 10, 4, 524287, 0, {2, 1}, 0},
    {"weights 2 1, distortion 1 at 524,288: 7, at 1", 0, 1, 1, 10, 4, 524288, SEVEN(1), {2, 1}, 0},
    {"weights 2 1, distortion 2 at 1,048,575: all legal", 0, 1, 2, 10, 4, 1048575, 0, {2, 1}, 0},
    {"weights 3 1, distortion 0 at 349,525, three times which is 1,048,575: all legal", 0, 1, 0, 10, 4, 349525, 0, {3, 1}, 0},
    {"weights 3 1, distortion 0 at 349,526: 7, at 0", 0, 1, 0, 10, 4, 349526, SEVEN(0), {3, 1}, 0},
    {"weights 1 255, distortion 5 at 4,112: all legal", 0, 1, 5, 10, 4, 4112, 0, {1, 255}, 0},
    {"weights 1 255, distortion 5 at 4,113: 7, at 5", 0, 1, 5, 10, 4, 4113, SEVEN(5), {1, 255}, 0},
    {"weights 0 1, distortion 0 at 1,048,575: all legal", 0, 1, 0, 10, 4, 1048575, 0, {0, 1}, 0},
    {"weights 0 1, distortion 0 at 1,048,576: 7, at 0", 0, 1, 0, 10, 4, 1048576, SEVEN(0), {0, 1}, SEVEN(0)},
    {"weights 1 0, distortion 5 at 1,048,576: 7, at 5", 0, 1, 5, 10, 4, 1048576, SEVEN(5), {1, 0}, SEVEN(5)},
    {"weights 0 0, distortion 3 at 4,294,967,295: 7, at 3", 0, 1, 3, 10, 4, F, SEVEN(3), {0, 0}, SEVEN(3)},
    {"weights 2 1, distortion 0 at 2^31, twice which has 32 low bits of 0: 7, at 0", 0, 1, 0, 10, 4, UINT32_C(1) << 31, SEVEN(0), {2, 1},
     SEVEN(0)},
    {"weights 1 255, distortion 4 at 16,843,010, 255 times which is 2^32 + 254: 7, at 4", 0, 1, 4, 10, 4, 16843010, SEVEN(4), {1, 255},
     SEVEN(4)},
    {"weights 255 255, 4,294,967,295 beside forbidden rate 3: all legal", 3, 1, 3, F, 4, F, 0, {255, 255}, 0},
    {"weights 255 255, 4,294,967,295 beside forbidden rate 0: all legal", 0, 1, 0, F, 4, F, 0, {255, 255}, 0},
    {"weights 255 255, 4,113 beside forbidden rate 5: all legal", 5, 1, 5, F, 4, 4113, 0, {255, 255}, 0},
    {"weights 1 2, distortion 3 at 524,288 before rate 4 over the range: 7, at 3", 4, 1, 3, 1048576, 4, 524288, SEVEN(3), {1, 2}, SEVEN(4)},
    {"weights 1 2, distortion 3 at 524,288 behind rate 2 over the range: 7, at 2", 2, 1, 3, 1048576, 4, 524288, SEVEN(2), {1, 2}, SEVEN(2)},
};

/* Every cell of tables of this size in turn, with weights of all sorts: the largest distortion that the weight of its scan allows is legal, and
 * one more is 7 at that cell. */
static int every_weight(uint64_t scans, uint64_t settings) {
    static const uint8_t some[] = {255, 0, 2, 1, 3, 128, 17, 254, 64, 100};
    size_t cells = (size_t)(settings + (scans - 1) * settings * settings), k;
    uint32_t *rates = (uint32_t *)malloc(4 * cells), *distortions = (uint32_t *)malloc(4 * cells);
    lent plan = lend((size_t)scans, 13), scratch = lend((size_t)(scans * settings), 100), answer = lend(QPL_CEILING_ANSWER, 50);
    lent weights = lend((size_t)scans, 0);
    int good = rates != NULL && distortions != NULL;
    for (k = 0; k < weights.length; k++) weights.bytes[k] = some[k % sizeof some];
    for (k = 0; good && k < cells; k++) rates[k] = (uint32_t)k % 11, distortions[k] = (uint32_t)k % 7;
    for (k = 0; good && k < cells; k++) {
        size_t scan = k < settings ? 0 : (size_t)(1 + (k - settings) / (settings * settings));
        uint32_t weight = some[scan % sizeof some], most = weight > 1 ? 1048575 / weight : 1048575, cell = distortions[k], by;
        for (by = 0; by < 2; by++) {
            distortions[k] = most + by;
            good = good && qpl_ceiling(scans, settings, 1, UINT32_MAX, rates, cells, distortions, cells, weights.bytes, weights.length,
                                       plan.bytes, plan.length, scratch.bytes, scratch.length, answer.bytes, answer.length) ==
                               (by == 0 ? 0 : SEVEN(k));
        }
        distortions[k] = cell;
    }
    good = good && lent_guarded(&weights) && lent_guarded(&plan) && lent_guarded(&scratch) && lent_guarded(&answer);
    for (k = 0; k < weights.length; k++) good = good && weights.bytes[k] == some[k % sizeof some];
    give_back(&weights);
    give_back(&plan);
    give_back(&scratch);
    give_back(&answer);
    free(rates);
    free(distortions);
    return good;
}

/* So many weights for this table (none: a null pointer), by every call: what each must give back, with every buffer as it was. The buffers are
 * short by `less` bytes. */
static int with_weights(const table *t, size_t length, size_t less, uint64_t right) {
    static const uint8_t many[] = {1, 1, 1, 1};
    int which, good = 1;
    for (which = CEILING; which <= AVERAGE; which++) {
        lent plan = lend((size_t)t->scans - less, 13), scratch = lend((size_t)(t->scans * t->settings) - less, 100);
        lent answer = lend(answer_lengths[which] - less, 50), weights = lend_weights(many, length);
        expected e = {"", t, (enum call)which, 17, 1, 0, 0, 0, {0}, {0}};
        good = good && ask(&e, &weights, &plan, &scratch, &answer) == right && weights_hold(&weights, many);
        good = good && holds(&plan, 0, NULL, 13) && holds(&scratch, 0, NULL, 100) && holds(&answer, 0, NULL, 50);
        give_back(&weights);
        give_back(&plan);
        give_back(&scratch);
        give_back(&answer);
    }
    return good;
}

static void other_weights(void) {
    static const uint32_t illegal[] = {1048576, 4, 8, 3, 9, 5};
    const table wrong = {2, 2, 1, illegal, t_distortions, 6, ones}, law_3 = {2, 2, 3, t_rates, t_distortions, 6, ones};
    const expected four = {"", &T_11, MULTIPLIER, 0, 0, 0, 0, 0, {0}, {0}};
    lent plan = lend(2, 13), scratch = lend(4, 100), answer = lend(QPL_MULTIPLIER_ANSWER, 50), weights = lend(1, 0);
    expect("2 scans and no weights, at a null pointer: refused 5", with_weights(&T_11, 0, 0, 5));
    expect("2 scans and one weight: refused 5", with_weights(&T_11, 1, 0, 5));
    expect("2 scans and three weights: refused 5", with_weights(&T_11, 3, 0, 5));
    expect("1 scan and no weights, or two: refused 5", with_weights(&SINGLE, 0, 0, 5) && with_weights(&SINGLE, 2, 0, 5));
    expect("one weight, before 6 and 7", with_weights(&T_11, 1, 1, 5) && with_weights(&wrong, 1, 0, 5) && with_weights(&wrong, 3, 1, 5));
    expect("two weights: 6 and 7", with_weights(&wrong, 2, 1, 6) && with_weights(&wrong, 2, 0, SEVEN(0)));
    expect("one weight, behind 3", with_weights(&law_3, 1, 0, 3) && with_weights(&law_3, 0, 1, 3));
    expect("one weight, behind 4", ask(&four, &weights, &plan, &scratch, &answer) == 4 && holds(&plan, 0, NULL, 13) &&
                                       holds(&scratch, 0, NULL, 100) && holds(&answer, 0, NULL, 50));
    give_back(&weights);
    give_back(&plan);
    give_back(&scratch);
    give_back(&answer);
}

/* A plan file of two scans by hand: the eleven fields in the order of the writer, the mark behind them, the settings, and the checks of both
 * blocks. What a write and a read of it must give back; where that is a refusal, the checks are made right by seal.h. */
typedef struct {
    const char *what;
    uint64_t fields[12];
    uint8_t plan[2];
    uint32_t checks[2];
    uint64_t right;
} marked_file;

#define THIRTEEN(byte) (13 | (uint64_t)(byte) << 32)
static const marked_file marked[] = {
    {"T, weights 0 1, average 13, as a file", {2, 2, 1, 0, 13, 1, 5, 13, 4, 7, 4, 1}, {1, 0}, {169743, 1013}, 0},
    {"T, weights 0 1, average 13, mark 0: refused 13, at 40", {2, 2, 1, 0, 13, 1, 5, 13, 4, 7, 4, 0}, {1, 0}, {0, 0}, THIRTEEN(40)},
    {"T, weights 0 1, average 13, mark 2: refused 13, at 13", {2, 2, 1, 0, 13, 1, 5, 13, 4, 7, 4, 2}, {1, 0}, {0, 0}, THIRTEEN(13)},
    {"T, weights 0 1, average 13, mark 255: refused 13, at 13", {2, 2, 1, 0, 13, 1, 5, 13, 4, 7, 4, 255}, {1, 0}, {0, 0}, THIRTEEN(13)},
    {"mark 2 and kind 2: refused 13, at 12", {2, 2, 1, 2, 13, 1, 5, 13, 4, 7, 4, 2}, {1, 0}, {0, 0}, THIRTEEN(12)},
    {"mark 2 and n/d 5/5: refused 13, at 13", {2, 2, 1, 0, 13, 5, 5, 13, 4, 7, 4, 2}, {1, 0}, {0, 0}, THIRTEEN(13)},
    {"mark 1 and n/d 5/5: refused 13, at 24", {2, 2, 1, 0, 13, 5, 5, 13, 4, 7, 4, 1}, {1, 0}, {0, 0}, THIRTEEN(24)},
    {"mark 1 and a peak of 1,048,575 over distortion 0", {2, 2, 1, 0, 13, 1, 5, 13, 0, 1048575, 0, 1}, {1, 0}, {408138, 1013}, 0},
    {"mark 1 and a peak of 1,048,576: refused 13, at 40", {2, 2, 1, 0, 13, 1, 5, 13, 4, 1048576, 4, 1}, {1, 0}, {0, 0}, THIRTEEN(40)},
    {"mark 1 and a floor over the distortion: refused 13, at 44", {2, 2, 1, 0, 13, 1, 5, 13, 4, 7, 5, 1}, {1, 0}, {0, 0}, THIRTEEN(44)},
    {"mark 1 and a peak within the distortion", {2, 2, 1, 0, 17, 3, 5, 13, 8, 6, 6, 1}, {0, 1}, {175027, 8573}, 0},
    {"mark 0 and a peak that is the distortion", {2, 2, 1, 0, 13, 1, 5, 13, 4, 4, 4, 0}, {1, 0}, {167844, 1013}, 0},
    {"T, weights 0 0, minmax 9, as a file", {2, 2, 1, 1, 9, 0, 0, 9, 0, 10, 0, 1}, {1, 1}, {161143, 9077}, 0},
    {"T, weights 0 0, minmax 9, mark 0: refused 13, at 40", {2, 2, 1, 1, 9, 0, 0, 9, 0, 10, 0, 0}, {1, 1}, {0, 0}, THIRTEEN(40)},
};

static void make_marked(const marked_file *m, uint8_t *file) {
    /* where each field starts, and how many bytes it has */
    static const size_t places[12][2] = {{8, 2},  {10, 1}, {11, 1}, {12, 1}, {16, 8}, {24, 4},
                                         {28, 4}, {32, 4}, {36, 4}, {40, 4}, {44, 4}, {13, 1}};
    size_t f, k;
    memset(file, 0, 2 * BLOCK);
    memcpy(file + 4, "QPL2", 4);
    for (f = 0; f < 12; f++)
        for (k = 0; k < places[f][1]; k++) file[places[f][0] + k] = (uint8_t)(m->fields[f] >> 8 * k);
    file[BLOCK] = 1, file[BLOCK + 4] = (uint8_t)(m->plan[0] | m->plan[1] << 4);
    if (m->right == 0)
        put_check(file, m->checks[0]), put_check(file + BLOCK, m->checks[1]);
    else
        seal(file, 2 * BLOCK);
}

static uint64_t write_marked(const marked_file *m, uint64_t mark, lent *file) {
    const uint64_t *f = m->fields;
    return qpl_write(f[0], f[1], f[2], f[3], f[4], f[5], f[6], f[7], f[8], f[9], f[10], mark, m->plan, 2, file->bytes, file->length);
}

static int writes_marked(const marked_file *m, size_t more) {
    uint8_t file[2 * BLOCK];
    lent written = lend(sizeof file + more, 13);
    int good = write_marked(m, m->fields[11], &written) == m->right;
    make_marked(m, file);
    good = good && holds(&written, m->right == 0 ? sizeof file : 0, file, 13);
    give_back(&written);
    return good;
}

/* A read of this file, which is m's but for what may have been changed in it: what it must give back, and on 0 m's settings and thirteen values,
 * of this version and with this mark. */
static int reads_marked(const marked_file *m, const uint8_t *file, uint64_t version, uint64_t mark, uint64_t right) {
    lent plan = lend(2, 13), answer = lend(QPL_READ_ANSWER, 50);
    uint8_t values[QPL_READ_ANSWER];
    uint64_t fields[13];
    size_t k;
    int good = qpl_read(file, 2 * BLOCK, plan.bytes, plan.length, answer.bytes, answer.length) == right;
    for (k = 0; k < 11; k++) fields[k] = m->fields[k];
    fields[QPL_READ_VERSION] = version, fields[QPL_READ_WEIGHTED] = mark;
    for (k = 0; k < sizeof values; k++) values[k] = (uint8_t)(fields[k / 8] >> 8 * (k % 8));
    good = good && holds(&plan, right == 0 ? 2 : 0, m->plan, 13) && holds(&answer, right == 0 ? sizeof values : 0, values, 50);
    give_back(&plan);
    give_back(&answer);
    return good;
}

/* One of these files, read as this version, with two of its bytes changed (a change to what stands there changes nothing) and its checks made
 * right again: what a read must give back, which on 0 finds no mark. */
typedef struct {
    const char *what;
    size_t which;
    int version;
    size_t at;
    uint8_t byte;
    size_t second_at;
    uint8_t second;
    uint64_t right;
} changed_file;

/* Of `marked`: the file with the mark, and one without it, whose peak is its distortion. */
enum { WITH_MARK = 0, WITHOUT_MARK = 11 };

static const changed_file changed_marks[] = {
    {"QPL2, byte 13 from 1 to 0, the peak over the distortion: refused 13, at 40", WITH_MARK, 2, 13, 0, 12, 0, THIRTEEN(40)},
    {"QPL2, byte 13 from 1 to 2: refused 13, at 13", WITH_MARK, 2, 13, 2, 12, 0, THIRTEEN(13)},
    {"QPL2, byte 13 from 1 to 128: refused 13, at 13", WITH_MARK, 2, 13, 128, 12, 0, THIRTEEN(13)},
    {"QPL2 with the mark, byte 14 not zero: refused 13, at 14", WITH_MARK, 2, 14, 1, 12, 0, THIRTEEN(14)},
    {"QPL2 with the mark, byte 15 not zero: refused 13, at 14", WITH_MARK, 2, 15, 1, 12, 0, THIRTEEN(14)},
    {"QPL2 without the mark, byte 14 not zero: refused 13, at 14", WITHOUT_MARK, 2, 14, 255, 12, 0, THIRTEEN(14)},
    {"QPL2 without the mark, byte 15 not zero: refused 13, at 14", WITHOUT_MARK, 2, 15, 255, 12, 0, THIRTEEN(14)},
    {"QPL2, byte 13 at 2 and byte 14 not zero: refused 13, at 13", WITH_MARK, 2, 13, 2, 14, 1, THIRTEEN(13)},
    {"QPL2, byte 13 at 0, byte 15 not zero, the peak over the distortion: refused 13, at 14", WITH_MARK, 2, 13, 0, 15, 1, THIRTEEN(14)},
    {"QPL2, byte 14 not zero and n/d 5/5: refused 13, at 14", WITH_MARK, 2, 14, 1, 24, 5, THIRTEEN(14)},
    {"QPL2, byte 13 at 2 and kind 2: refused 13, at 12", WITH_MARK, 2, 13, 2, 12, 2, THIRTEEN(12)},
    {"QPL2 without the mark: read", WITHOUT_MARK, 2, 13, 0, 12, 0, 0},
    {"QPL1, byte 13 at 1: refused 13, at 13", WITH_MARK, 1, 13, 1, 12, 0, THIRTEEN(13)},
    {"QPL1, byte 13 at 1, the peak within the distortion: refused 13, at 13", WITHOUT_MARK, 1, 13, 1, 12, 0, THIRTEEN(13)},
    {"QPL1, byte 14 not zero: refused 13, at 13", WITHOUT_MARK, 1, 14, 1, 12, 0, THIRTEEN(13)},
    {"QPL1, byte 15 not zero: refused 13, at 13", WITHOUT_MARK, 1, 15, 1, 12, 0, THIRTEEN(13)},
    {"QPL1, byte 13 at 0, the peak over the distortion: refused 13, at 40", WITH_MARK, 1, 13, 0, 12, 0, THIRTEEN(40)},
    {"QPL1 without the mark: read", WITHOUT_MARK, 1, 13, 0, 12, 0, 0},
};

static int reads_changed(const changed_file *c) {
    const marked_file *m = &marked[c->which];
    uint8_t file[2 * BLOCK];
    make_marked(m, file);
    file[c->at] = c->byte, file[c->second_at] = c->second;
    seal_as(file, sizeof file, c->version);
    return reads_marked(m, file, (uint64_t)c->version, 0, c->right);
}

/* T's average plan for 13 with weights 0 1 from the call to its file, as a host has it: what is answered goes into the file, with the mark. */
static int planned_to_file(void) {
    static const uint64_t wide[] = {2, 255, 256, UINT64_C(1) << 32, (UINT64_C(1) << 32) + 1, UINT64_MAX};
    const marked_file *m = &marked[WITH_MARK];
    uint8_t plan[2] = {0}, scratch[4] = {0}, answer[QPL_AVERAGE_ANSWER] = {0}, file[2 * BLOCK];
    lent written = lend(sizeof file, 13), refused = lend(sizeof file, 13);
    size_t k;
    int good = qpl_average(2, 2, 1, 13, t_rates, 6, t_distortions, 6, w_01, 2, plan, 2, scratch, 4, answer, sizeof answer) == 0;
    make_marked(m, file);
    good = good && qpl_write(2, 2, 1, QPL_KIND_AVERAGE, 13, qpl_value(answer, QPL_AVERAGE_N), qpl_value(answer, QPL_AVERAGE_D),
                             qpl_value(answer, QPL_AVERAGE_RATE), qpl_value(answer, QPL_AVERAGE_DISTORTION),
                             qpl_value(answer, QPL_AVERAGE_PEAK), qpl_value(answer, QPL_AVERAGE_FLOOR), 1, plan, 2, written.bytes,
                             written.length) == 0;
    good = good && holds(&written, sizeof file, file, 13) && reads_marked(m, written.bytes, QPL_VERSION_2, 1, 0);
    for (k = 0; k < sizeof wide / sizeof wide[0]; k++) good = good && write_marked(m, wide[k], &refused) == THIRTEEN(13);
    good = good && write_marked(m, 0, &refused) == THIRTEEN(40) && holds(&refused, 0, NULL, 13);
    give_back(&written);
    give_back(&refused);
    return good;
}

/* Scans of unequal weight: plans, illegal cells, weights of another length, and files. */
static void unequal_weights(void) {
    uint64_t scans;
    int good = 1;
    size_t k;
    for (k = 0; k < sizeof weighed / sizeof weighed[0]; k++) {
        expect(weighed[k].what, as_expected(&weighed[k], 0));
        expect(weighed[k].what, as_expected(&weighed[k], 9));
    }
    for (k = 0; k < sizeof weighed_changes / sizeof weighed_changes[0]; k++)
        expect(weighed_changes[k].what, named_by_every_call(&weighed_changes[k]));
    for (scans = 1; scans <= 40; scans++) good = good && every_weight(scans, 1);
    expect("the most that a weight allows, in every cell of tables of 1 to 40 cells", good);
    expect("the most that a weight allows, in every cell of a table of 84 cells", every_weight(10, 3));
    expect("the most that a weight allows, in every cell of a table of 1,296 cells", every_weight(6, 16));
    other_weights();
    for (k = 0; k < sizeof marked / sizeof marked[0]; k++) {
        const marked_file *m = &marked[k];
        uint8_t file[2 * BLOCK], again[2 * BLOCK];
        make_marked(m, file);
        memcpy(again, file, sizeof again);
        seal(again, sizeof again);
        expect(m->what, writes_marked(m, 0) && writes_marked(m, 17));
        expect(m->what, reads_marked(m, file, QPL_VERSION_2, m->fields[11], m->right) && memcmp(file, again, sizeof file) == 0);
    }
    for (k = 0; k < sizeof changed_marks / sizeof changed_marks[0]; k++) expect(changed_marks[k].what, reads_changed(&changed_marks[k]));
    expect("T, weights 0 1, average 13: from the call to the file and back", planned_to_file());
}

/* A list for 2 scans and 2 settings (NULL: no bytes, lent as a null pointer), what its import must give back, and on 0 the six cells of each
 * table. */
typedef struct {
    const char *what, *text;
    uint32_t refusal, line;
    uint32_t rates[6], distortions[6];
} expected_list;

#define T_LIST "0,,0,10,2\r\n0,,1,4,7\r\n1,0,0,8,3\r\n1,0,1,3,6\r\n1,1,0,9,4\r\n1,1,1,5,10\r\n"
#define T_WITHOUT "0,,0,10,2\r\n0,,1,4,7\r\n1,0,0,8,3\r\n1,1,0,9,4\r\n1,1,1,5,10\r\n"

static const expected_list lists[] = {
    {"T's list", T_LIST, 0, 0, {10, 4, 8, 3, 9, 5}, {2, 7, 3, 6, 4, 10}},
    {"T's list without cell 3", T_WITHOUT, 0, 0, {10, 4, 8, F, 9, 5}, {2, 7, 3, 0, 4, 10}},
    {"one line without its end", "0,,0,10,2", 0, 0, {10, F, F, F, F, F}, {2}},
    {"every field in quotes, and leading zeros", "\"0\",\"\",\"1\",\"0000004\",\"7\"\r\n", 0, 0, {F, 4, F, F, F, F}, {0, 7}},
    {"no lines", "", 0, 0, {F, F, F, F, F, F}, {0}},
    {"no lines, at a null pointer", NULL, 0, 0, {F, F, F, F, F, F}, {0}},
    {"an LF by itself", "0,,0,10,2\n", 16, 1, {0}, {0}},
    {"scan 0 with a previous setting", "0,0,0,10,2\r\n", 16, 1, {0}, {0}},
    {"scan 1 without one", "1,,0,8,3\r\n", 16, 1, {0}, {0}},
    {"a scan that is out of range without one", "2,,0,1,1\r\n", 16, 1, {0}, {0}},
    {"a sixth field", "0,,0,10,2,\r\n", 16, 1, {0}, {0}},
    {"a scan out of range", "2,0,0,1,1\r\n", 17, 1, {0}, {0}},
    {"a rate out of range", "0,,0,1048576,0\r\n", 17, 1, {0}, {0}},
    {"a setting out of range, before a malformed line", "0,,2,1,1\r\nx", 17, 1, {0}, {0}},
    {"a second line for a cell", "0,,0,10,2\r\n0,,00,10,2\r\n", 18, 2, {0}, {0}},
    {"a second line for a cell, with a rate out of range", "0,,0,10,2\r\n0,,00,1048576,2\r\n", 17, 2, {0}, {0}},
    {"an empty line at the end", "0,,0,10,2\r\n\r\n", 16, 2, {0}, {0}},
};

/* Every cell: as it was from `kept` on; before that the given cells, or zeros where none are given. */
static int holds_cells(const lent_table *l, size_t kept, const uint32_t *given, uint32_t from) {
    size_t i;
    if (!table_guarded(l)) return 0;
    for (i = 0; i < l->length; i++)
        if (l->cells[i] != (i >= kept ? lent_cell(i, from) : given == NULL ? 0 : given[i])) return 0;
    return 1;
}

/* An import into tables and scratch of these lengths. */
static int imports(const expected_list *e, uint64_t scans, uint64_t settings, size_t r, size_t d, size_t s) {
    lent_table rates = lend_table(r, RATES_FROM), distortions = lend_table(d, DISTORTIONS_FROM);
    lent scratch = lend(s, 100);
    uint64_t given = qpl_import(scans, settings, (const uint8_t *)e->text, e->text == NULL ? 0 : strlen(e->text), rates.cells, rates.length,
                                distortions.cells, distortions.length, scratch.bytes, scratch.length);
    int good = qpl_refusal(given) == e->refusal && qpl_carried(given) == e->line;
    good = good && holds_cells(&rates, e->refusal == 0 ? 6 : 0, e->rates, RATES_FROM);
    good = good && holds_cells(&distortions, e->refusal == 0 ? 6 : 0, e->distortions, DISTORTIONS_FROM);
    good = good && holds(&scratch, e->refusal == 0 || e->refusal >= 16 ? 6 : 0, NULL, 100);
    give_table_back(&rates);
    give_table_back(&distortions);
    give_back(&scratch);
    return good;
}

/* An export into a text of so many bytes, which must be this list; or a refusal, after which text and answer are as they were. */
static int exports(const uint32_t *rates, size_t r, const uint32_t *distortions, size_t d, size_t length, size_t answer_length,
                   uint64_t right, const char *list) {
    lent text = lend(length, 13), answer = lend(answer_length, 50);
    uint64_t given = qpl_export(2, 2, rates, r, distortions, d, text.bytes, text.length, answer.bytes, answer.length);
    uint8_t value[QPL_EXPORT_ANSWER];
    size_t k, n = strlen(list);
    int good = given == right;
    for (k = 0; k < sizeof value; k++) value[k] = (uint8_t)((uint64_t)n >> 8 * k);
    good = good && holds(&text, right == 0 ? n : 0, (const uint8_t *)list, 13);
    good = good && holds(&answer, right == 0 ? sizeof value : 0, value, 50);
    give_back(&text);
    give_back(&answer);
    return good;
}

static void import_export(void) {
    static const uint32_t without[] = {10, 4, 8, F, 9, 5}, beside[] = {2, 7, 3, 777, 4, 10}, none[] = {F, F, F, F, F, F};
    static const uint32_t illegal[] = {10, 4, 8, 3, 1048576, F - 1};
    static const expected_list one = {"", T_LIST, 1, 0, {0}, {0}}, two = {"", T_LIST, 2, 0, {0}, {0}}, six = {"", "x", 6, 0, {0}, {0}};
    uint8_t answer[QPL_EXPORT_ANSWER] = {0}, text[66] = {0};
    size_t k;
    for (k = 0; k < sizeof lists / sizeof lists[0]; k++) {
        expect(lists[k].what, imports(&lists[k], 2, 2, 6, 6, 6));
        expect(lists[k].what, imports(&lists[k], 2, 2, 7, 8, 15));
    }
    expect("import: N out of range", imports(&one, 0, 0, 6, 6, 6) && imports(&one, 1025, 2, 6, 6, 6) &&
                                         imports(&one, (UINT64_C(1) << 32) + 2, 2, 6, 6, 6) && imports(&one, UINT64_MAX, 17, 0, 0, 0));
    expect("import: Q out of range", imports(&two, 2, 0, 6, 6, 6) && imports(&two, 2, 17, 0, 6, 6) &&
                                         imports(&two, 2, (UINT64_C(1) << 32) + 2, 6, 6, 6) && imports(&two, 1, UINT64_MAX, 6, 6, 6));
    expect("import: a short table or scratch", imports(&six, 2, 2, 5, 6, 6) && imports(&six, 2, 2, 6, 5, 6) &&
                                                   imports(&six, 2, 2, 6, 6, 5) && imports(&six, 2, 2, 0, 0, 0) &&
                                                   imports(&six, 1024, 16, 6, 6, 6));
    expect("export: T", exports(t_rates, 6, t_distortions, 6, 66, 8, 0, T_LIST) && exports(t_rates, 6, t_distortions, 6, 90, 17, 0, T_LIST));
    expect("export: T into 65 bytes", exports(t_rates, 6, t_distortions, 6, 65, 8, 6, ""));
    expect("export: T with cell 3 forbidden, and 777 beside it",
           exports(without, 6, beside, 6, 55, 8, 0, T_WITHOUT) && exports(without, 6, beside, 6, 60, 8, 0, T_WITHOUT) &&
               exports(without, 6, beside, 6, 54, 8, 6, ""));
    expect("export: all forbidden, into no bytes", exports(none, 6, beside, 6, 0, 8, 0, "") && exports(none, 6, none, 6, 3, 8, 0, ""));
    expect("export: an answer buffer of 7 bytes or none",
           exports(t_rates, 6, t_distortions, 6, 66, 7, 6, "") && exports(t_rates, 6, t_distortions, 6, 66, 0, 6, "") &&
               exports(none, 6, beside, 6, 0, 7, 6, "") && exports(none, 6, beside, 6, 0, 0, 6, ""));
    expect("export: the lowest illegal cell, before 6",
           exports(illegal, 6, t_distortions, 6, 90, 8, 7 | UINT64_C(4) << 32, "") &&
               exports(illegal, 6, t_distortions, 6, 0, 0, 7 | UINT64_C(4) << 32, "") &&
               exports(t_rates, 6, none, 6, 66, 8, 7, ""));
    expect("export: tables of another length, before 7", exports(illegal, 5, t_distortions, 6, 90, 8, 5, "") &&
                                                             exports(illegal, 6, t_distortions, 5, 0, 0, 5, "") &&
                                                             exports(NULL, 0, NULL, 0, 0, 0, 5, ""));
    expect("export: N out of range", qpl_export(0, 17, illegal, 6, t_distortions, 5, text, 66, answer, 8) == 1 &&
                                         qpl_export((UINT64_C(1) << 32) + 2, 2, t_rates, 6, t_distortions, 6, text, 66, answer, 8) == 1);
    expect("export: Q out of range", qpl_export(2, 17, illegal, 6, t_distortions, 5, text, 66, answer, 8) == 2 &&
                                         qpl_export(2, (UINT64_C(1) << 32) + 2, t_rates, 6, t_distortions, 6, text, 66, answer, 8) == 2);
    expect("export: nothing was answered", answer[0] == 0 && text[0] == 0);
    qpl_export(2, 2, t_rates, 6, t_distortions, 6, text, sizeof text, answer, sizeof answer);
    expect("T's list, its length by name", qpl_value(answer, QPL_EXPORT_LENGTH) == sizeof text && memcmp(text, T_LIST, sizeof text) == 0);
    /* the answer holds T's length before it, so that a 0 was written */
    expect("export: all forbidden, into no bytes at a null pointer",
           qpl_export(2, 2, none, 6, beside, 6, NULL, 0, answer, sizeof answer) == 0 && qpl_value(answer, QPL_EXPORT_LENGTH) == 0);
    expect("import: text, tables and scratch at null pointers: refused 6", qpl_import(2, 2, NULL, 0, NULL, 0, NULL, 0, NULL, 0) == 6);
}

/* A call of the true best, what it must give back, and on 0 the values and the settings that it must answer. */
typedef struct {
    const char *what;
    const table *t;
    uint64_t budget;
    uint32_t refusal, carried;
    uint64_t values[3];
    const uint8_t *plan;
} expected_best;

static const uint8_t p_0[] = {0, 0}, p_01[] = {0, 1}, p_10[] = {1, 0}, p_11[] = {1, 1}, p_2[] = {2}, p_02[] = {0, 2}, p_03[] = {0, 3};
static const uint8_t p_30[] = {3, 0};
/* N 2, Q 2, law 0: 01 and 10 have rate 4 and distortion 3, 11 has rate 3 and distortion 3, 00 more of both: the rate decides, and with 11
 * forbidden the first. */
static const uint32_t tied_distortions[] = {1, 2, 4, 2, 1, 1}, tied_rates[] = {2, 1, 3, 2, 3, 2}, first_rates[] = {2, 1, 3, 2, 3, F};
static const table TIED = {2, 2, 0, tied_rates, tied_distortions, 6, ones}, FIRST = {2, 2, 0, first_rates, tied_distortions, 6, ones};

static const expected_best bests[] = {
    {"U, best 7", &U, 7, 0, 0, {6, 8, 8}, p_10},
    {"U, best 6", &U, 6, 0, 0, {6, 8, 8}, p_10},
    {"U, best 5", &U, 5, 0, 0, {2, 10, 10}, p_2},
    {"U, best 1", &U, 1, 9, 0, {0}, NULL},
    {"U, best 0", &U, 0, 9, 0, {0}, NULL},
    {"T, best 4,095", &T, 4095, 0, 0, {18, 5, 3}, p_0},
    {"T, best 18", &T, 18, 0, 0, {18, 5, 3}, p_0},
    {"T, best 17", &T, 17, 0, 0, {13, 8, 6}, p_01},
    {"T, best 13", &T, 13, 0, 0, {13, 8, 6}, p_01},
    {"T, best 12", &T, 12, 0, 0, {9, 17, 10}, p_11},
    {"T, best 9", &T, 9, 0, 0, {9, 17, 10}, p_11},
    {"T, best 8", &T, 8, 9, 0, {0}, NULL},
    {"T, weights 1 1, law 1, best 13", &T_11, 13, 0, 0, {13, 8, 6}, p_01},
    {"T, weights 0 1, best 13", &T_01, 13, 0, 0, {13, 4, 7}, p_10},
    {"T, weights 0 1, best 12", &T_01, 12, 0, 0, {9, 10, 10}, p_11},
    {"T, weights 0 0, best 4,095", &T_00, 4095, 0, 0, {9, 0, 10}, p_11},
    {"T, weights 255 255, best 17", &T_MOST, 17, 0, 0, {13, 2040, 6}, p_01},
    {"T with scan 1 forbidden, best 4,095", &BLOCKED, 4095, 8, 0, {0}, NULL},
    {"T with scan 1 forbidden, best 0", &BLOCKED, 0, 8, 0, {0}, NULL},
    {"N 1, Q 1, both cells 0, best 0", &SINGLE, 0, 0, 0, {0, 0, 0}, p_0},
    {"N 1, Q 1, both cells 0, best 4,095", &SINGLE, 4095, 0, 0, {0, 0, 0}, p_0},
    {"N 1, Q 1, both cells 0, best 4,096", &SINGLE, 4096, 19, 0, {0}, NULL},
    {"a rate of 1,048,575, best 4,095", &TOP, 4095, 9, 0, {0}, NULL},
    {"a rate of 1,048,576, best 4,095", &OVER, 4095, 7, 0, {0}, NULL},
    {"equal distortions, best 4: the rate decides", &TIED, 4, 0, 0, {3, 3, 2}, p_11},
    {"all is equal, best 4: the first", &FIRST, 4, 0, 0, {4, 3, 2}, p_01},
    {"law 1: 0 then 2, best 2", &ZERO_TWO, 2, 0, 0, {2, 0, 0}, p_02},
    {"law 1: 0 then 2, best 1", &ZERO_TWO, 1, 9, 0, {0}, NULL},
    {"law 1: 0 then 3, best 4,095", &ZERO_THREE, 4095, 8, 0, {0}, NULL},
    {"V, law 0, best 6", &V0, 6, 0, 0, {6, 4, 3}, p_03},
    {"V, law 1, best 8", &V1, 8, 9, 0, {0}, NULL},
    {"V, law 1, best 9", &V1, 9, 0, 0, {9, 4, 3}, p_02},
    {"V, law 2, best 7", &V2, 7, 0, 0, {7, 4, 3}, p_30},
    {"V, law 3, best 7", &V3, 7, 3, 0, {0}, NULL},
    {"V, law 2^32 + 2, best 7", &WIDE, 7, 3, 0, {0}, NULL},
};

/* What a call of the true best is lent, in cells and bytes. */
typedef struct {
    size_t rates, distortions, weights, plan, choices, totals, answer;
} best_lengths;

/* Exactly what it needs, and so much more of what it writes. */
static best_lengths best_needs(const table *t, uint64_t budget, size_t more) {
    best_lengths l;
    l.rates = l.distortions = t->cells;
    l.weights = (size_t)t->scans;
    l.plan = (size_t)t->scans + more;
    l.choices = (size_t)(t->scans * t->settings * (budget + 1)) + more;
    l.totals = (size_t)(4 * t->settings * (budget + 1)) + more;
    l.answer = QPL_BEST_ANSWER + more;
    return l;
}

static int best_is(const expected_best *e, best_lengths l) {
    const table *t = e->t;
    lent plan = lend(l.plan, 13), choices = lend(l.choices, 100), answer = lend(l.answer, 50), weights = lend_weights(t->weights, l.weights);
    lent_table totals = lend_table(l.totals, RATES_FROM);
    uint64_t given = qpl_best(t->scans, t->settings, t->law, e->budget, t->rates, l.rates, t->distortions, l.distortions, weights.bytes,
                              weights.length, plan.bytes, plan.length, choices.bytes, choices.length, totals.cells, totals.length,
                              answer.bytes, answer.length);
    int planned = e->refusal == 0, wiped = planned || e->refusal == 8 || e->refusal == 9;
    best_lengths need = best_needs(t, e->budget, 0);
    uint8_t values[QPL_BEST_ANSWER];
    size_t k;
    int good = qpl_refusal(given) == e->refusal && qpl_carried(given) == e->carried && weights_hold(&weights, t->weights);
    for (k = 0; k < sizeof values; k++) values[k] = (uint8_t)(e->values[k / 8] >> 8 * (k % 8));
    good = good && holds(&plan, planned ? need.plan : 0, e->plan, 13) && holds(&answer, planned ? need.answer : 0, values, 50);
    good = good && holds(&choices, wiped ? need.choices : 0, NULL, 100) && holds_cells(&totals, wiped ? need.totals : 0, NULL, RATES_FROM);
    give_back(&weights);
    give_back(&plan);
    give_back(&choices);
    give_back(&answer);
    give_table_back(&totals);
    return good;
}

/* This call with its lengths changed must be refused with this number. */
static int best_refused(const table *t, uint64_t budget, best_lengths l, uint32_t refusal) {
    expected_best e = {"", NULL, 0, 0, 0, {0}, NULL};
    e.t = t, e.budget = budget, e.refusal = refusal;
    return best_is(&e, l);
}

/* Lengths one off, alone and beside what comes before and after: 19, 5, 6, 7. */
static void best_order(void) {
    static const uint32_t illegal[] = {10, 4, 8, 3, 1048576, 5}, zeros_65[65] = {0};
    static const table ILLEGAL = {2, 2, 0, illegal, t_distortions, 6, ones};
    uint8_t ones_65[65];
    table many = {65, 1, 0, zeros_65, zeros_65, 65, NULL}, few;
    static const uint64_t large[] = {4096, UINT64_C(1) << 32, (UINT64_C(1) << 32) + 17, UINT64_MAX - 4095, UINT64_MAX};
    best_lengths right = best_needs(&T, 17, 0), l;
    size_t k;
    int good = 1;
    memset(ones_65, 1, sizeof ones_65);
    many.weights = ones_65;
    expect("best, N 65: refused 1, also with budget 4,096", best_refused(&many, 9, best_needs(&many, 9, 0), 1) &&
                                                                best_refused(&many, 4096, best_needs(&many, 9, 0), 1));
    few = many, few.scans = few.cells = 64;
    l = best_needs(&few, 4095, 1);
    good = best_refused(&few, 4096, l, 19);
    for (k = 0; k < sizeof large / sizeof large[0]; k++) {
        l = right;
        good = good && best_refused(&T, large[k], l, 19);
        l.rates = 5, l.weights = 1, l.plan = l.choices = l.totals = l.answer = 0;
        good = good && best_refused(&ILLEGAL, large[k], l, 19) && best_refused(&V3, large[k], l, 3);
    }
    expect("best, budgets over 4,095, with tables of any length: refused 19", good);
    l = right, l.rates = 5, l.plan = l.choices = l.totals = l.answer = 0;
    good = best_refused(&ILLEGAL, 17, l, 5);
    l.rates = 6, l.distortions = 5;
    good = good && best_refused(&ILLEGAL, 17, l, 5);
    l.distortions = 6, l.weights = 1;
    expect("best, tables and weights of another length, before 6: refused 5", good && best_refused(&ILLEGAL, 17, l, 5));
    l = right, l.plan--;
    good = best_refused(&T, 17, l, 6) && best_refused(&ILLEGAL, 17, l, 6);
    l = right, l.choices--;
    good = good && best_refused(&T, 17, l, 6) && best_refused(&ILLEGAL, 17, l, 6) && best_refused(&BLOCKED, 17, l, 6);
    l = right, l.totals--;
    good = good && best_refused(&T, 17, l, 6) && best_refused(&ILLEGAL, 17, l, 6);
    l = right, l.answer--;
    good = good && best_refused(&T, 17, l, 6) && best_refused(&ILLEGAL, 17, l, 6) && best_refused(&T, 8, l, 6);
    l.plan = l.choices = l.totals = l.answer = 0;
    expect("best, a buffer one short, or none at all, before 7: refused 6", good && best_refused(&T, 17, l, 6));
    expect("best, a rate over the range: refused 7, at 4", best_is(&(expected_best){"", &ILLEGAL, 17, 7, 4, {0}, NULL}, right));
}

/* The largest call that is taken: 64 scans, 16 settings, law 0, budget 4,095. Whatever the setting before it, setting q has rate 3 + 8 q and
 * distortion 1,048,575 - q. A sequence whose settings have the sum S has then rate 192 + 8 S and distortion 67,108,800 - S. Within 4,095 S is
 * at most 487, so that 67,108,313 is the least distortion, at rate 4,088, whichever settings they are; with a sum of 488 the rate is 4,096.
 * The first sequence of that sum has the lowest settings in front: the last 32 scans take 15 each, which is 480, the one before them takes 7,
 * and the 31 before that take 0. One of these has the peak. */
static void largest_best(void) {
    static uint32_t rates[16144], distortions[16144];
    uint8_t settings[64], many_ones[64];
    table t = {64, 16, 0, rates, distortions, 16144, NULL};
    expected_best e = {"", NULL, 4095, 0, 0, {4088, 67108313, 1048575}, NULL};
    best_lengths need;
    size_t k;
    for (k = 0; k < 16144; k++) rates[k] = 3 + 8 * (uint32_t)(k % 16), distortions[k] = 1048575 - (uint32_t)(k % 16);
    for (k = 0; k < 64; k++) settings[k] = k < 31 ? 0 : k == 31 ? 7 : 15, many_ones[k] = 1;
    t.weights = many_ones, e.t = &t, e.plan = settings;
    need = best_needs(&t, 4095, 0);
    expect("the largest needs", need.choices == 4194304 && need.totals == 262144);
    expect("the largest call, with exactly what it needs", best_is(&e, need));
    expect("the largest call, with more", best_is(&e, best_needs(&t, 4095, 9)));
    need.choices--;
    expect("the largest call, a byte of choices short: refused 6", best_refused(&t, 4095, need, 6));
    need.choices++, need.totals--;
    expect("the largest call, a cell of totals short: refused 6", best_refused(&t, 4095, need, 6));
    expect("64 scans of rate 3, best 191", best_refused(&t, 191, best_needs(&t, 191, 9), 9));
}

/* The true best of short series. Each call has its buffers as long as needed, and longer, of which the rest is as it was. */
static void true_best(void) {
    size_t k;
    for (k = 0; k < sizeof bests / sizeof bests[0]; k++) {
        expect(bests[k].what, best_is(&bests[k], best_needs(bests[k].t, bests[k].budget, 0)));
        expect(bests[k].what, best_is(&bests[k], best_needs(bests[k].t, bests[k].budget, 9)));
    }
    best_order();
    largest_best();
}

int main(void) {
    size_t k;
    for (k = 0; k < sizeof all / sizeof all[0]; k++) {
        expect(all[k].what, as_expected(&all[k], 0));
        expect(all[k].what, as_expected(&all[k], 9));
    }
    expect("4,099 channels", room_is(4099, 1024, 16, 261904, UINT64_C(4294177984), 16384));
    expect("4,100 channels", room_is(4100, 1024, 16, 261904, UINT64_C(4295225600), 16384));
    expect("1,048,576 channels", room_is(1048576, 1024, 16, 261904, UINT64_C(1098504994816), 16384));
    expect("no channels", room_refused(0, 0, 0, 24, 10) && room_refused(1048577, 1, 1, 24, 10));
    expect("no scans", room_refused(1, 0, 0, 24, 1) && room_refused(1, 1025, 1, 24, 1));
    expect("no settings", room_refused(1, 1, 0, 24, 2) && room_refused(1, 1, 17, 24, 2));
    expect("2^32 + 1 channels, scans, settings", room_refused((UINT64_C(1) << 32) + 1, 1, 1, 24, 10) &&
                                                     room_refused(1, (UINT64_C(1) << 32) + 1, 1, 24, 1) &&
                                                     room_refused(1, 1, (UINT64_C(1) << 32) + 1, 24, 2));
    expect("an answer buffer of 23 bytes", room_refused(1, 1, 1, 23, 6) && room_refused(1, 1, 1, 0, 6) && room_refused(1, 1, 0, 23, 2));
    named();
    files();
    versions();
    laws();
    illegal_cells();
    unequal_weights();
    import_export();
    true_best();
    printf("%d passed, %d failed\n", passed, failed);
    return failed != 0;
}
