/* The stack that each call takes: the call runs on a stack of its own, painted before, and the deepest byte that changed is found after.
 * A depth is counted from the caller's stack pointer at the call: the return address is in it, what the caller itself pushes (arguments from
 * the seventh on) is not. Each must be within QPL_STACK.
 *
 * The calls run on the largest tables, on small ones, with all weights 1 and with others, on refusals, and on n and d that are consecutive
 * Fibonacci numbers, on which the remainder rule of Euclid goes deepest: two functions of the library call themselves by it. Files are read
 * in both versions, and as QPL2 with the mark of weights too. Import and export run on the longest list, on short ones, and on refusals. The
 * true best runs on the largest series that it takes, on small ones, and on refusals.
 *
 * So that the measurement is not fooled: a byte that is written with the paint's own value shows under a second paint; a function that takes
 * no stack, and one that fills a known room of it, must come out so; and each call must give back what it should, and an import must leave
 * the tables that were exported, so that it did its work. What a frame reserves and does not touch is not seen here. */
#include "qpl.h"
#include "seal.h"

#include <stdio.h>
#include <string.h>

#ifndef __x86_64__
#error "the archive is for x86-64, and so is the stack that is measured"
#endif

#define STACK 65536
#define ARGUMENTS 18
#define ROOM 4000
#define SCANS 1024
/* Of a plan file, as the writer takes them, with the mark of weights behind them; the reader answers the version and then the mark. */
#define FIELDS 11
#define CELLS (16 + 1023 * 256)
/* The two greatest Fibonacci numbers that a multiplier can have. */
#define FIBONACCI 701408733
#define FIBONACCI_BEFORE 433494437

/* Calls f with these eighteen numbers, as C passes them, on the stack that ends at `top`. Where f takes fewer, it looks at the first ones. */
uint64_t called(void (*f)(void), const uint64_t *arguments, uint8_t *top);
__asm__(".text\n"
        "called:\n"
        "    pushq %rbp\n"
        "    movq %rsp, %rbp\n"
        "    movq %rdi, %rax\n"
        "    movq %rsi, %r10\n"
        "    movq %rdx, %rsp\n"
        "    pushq 136(%r10)\n"
        "    pushq 128(%r10)\n"
        "    pushq 120(%r10)\n"
        "    pushq 112(%r10)\n"
        "    pushq 104(%r10)\n"
        "    pushq 96(%r10)\n"
        "    pushq 88(%r10)\n"
        "    pushq 80(%r10)\n"
        "    pushq 72(%r10)\n"
        "    pushq 64(%r10)\n"
        "    pushq 56(%r10)\n"
        "    pushq 48(%r10)\n"
        "    movq 40(%r10), %r9\n"
        "    movq 32(%r10), %r8\n"
        "    movq 24(%r10), %rcx\n"
        "    movq 16(%r10), %rdx\n"
        "    movq 8(%r10), %rsi\n"
        "    movq (%r10), %rdi\n"
        "    callq *%rax\n"
        "    movq %rbp, %rsp\n"
        "    popq %rbp\n"
        "    retq\n");
/* What is pushed there before the call: twelve numbers, after which the stack is aligned. */
#define PUSHED 96

static const uint8_t paints[] = {0xa5, 0x3c};

static uint8_t stack[STACK + 16];
static uint32_t rates[CELLS], distortions[CELLS];
static uint8_t weights[SCANS], plan[SCANS], scratch[16 * SCANS], answer[QPL_READ_ANSWER], file[1536];
/* Of the true best: the most scans and the largest budget that it takes, and what it borrows for them. */
#define SHORT_SCANS 64
#define SHORT_BUDGET 4095
static uint8_t choices[SHORT_SCANS * 16 * (SHORT_BUDGET + 1)];
static uint32_t totals[4 * 16 * (SHORT_BUDGET + 1)];
/* Of a list: the longest that there is, with room for one line more; scratch, a byte for each cell; and the tables that an import fills. */
#define LONGEST 6722470
#define LINE 32
static uint8_t text[LONGEST + LINE], marks[CELLS];
static uint32_t taken_rates[CELLS], taken_distortions[CELLS];

static int passed, failed;

static void expect(const char *what, int good) {
    if (good) {
        passed++;
    } else {
        failed++;
        printf("FAILED: %s\n", what);
    }
}

/* The depth of a call under this paint; what it gives back goes to `given`. The first call is not measured: on it a loader may bind what the
 * archive takes from the C library, on this stack. */
static size_t depth_under(uint8_t paint, void (*f)(void), const uint64_t *arguments, uint64_t *given) {
    uint8_t *top = (uint8_t *)((uintptr_t)(stack + STACK) & ~(uintptr_t)15);
    size_t k = 0;
    called(f, arguments, top);
    memset(stack, paint, sizeof stack);
    *given = called(f, arguments, top);
    while (stack + k < top && stack[k] == paint) k++;
    return (size_t)(top - PUSHED - (stack + k));
}

/* The deeper of the two paints. */
static size_t depth(void (*f)(void), const uint64_t *arguments, uint64_t *given) {
    size_t first = depth_under(paints[0], f, arguments, given), second = depth_under(paints[1], f, arguments, given);
    return first > second ? first : second;
}

/* The calls, the greatest depth of each so far, and how many runs it is of. */
enum call { CALL_ROOM, CALL_READ, CALL_WRITE, CALL_CEILING, CALL_MULTIPLIER, CALL_MINMAX, CALL_AVERAGE, CALL_IMPORT, CALL_EXPORT, CALL_BEST, CALLS };
static const char *const names[] = {"qpl_room",   "qpl_read",    "qpl_write",  "qpl_ceiling", "qpl_multiplier",
                                    "qpl_minmax", "qpl_average", "qpl_import", "qpl_export",  "qpl_best"};
static void (*const functions[])(void) = {(void (*)(void))qpl_room,    (void (*)(void))qpl_read,       (void (*)(void))qpl_write,
                                          (void (*)(void))qpl_ceiling, (void (*)(void))qpl_multiplier, (void (*)(void))qpl_minmax,
                                          (void (*)(void))qpl_average, (void (*)(void))qpl_import,     (void (*)(void))qpl_export,
                                          (void (*)(void))qpl_best};
static size_t deepest[CALLS], runs[CALLS];

static void run(enum call which, const uint64_t *arguments, uint64_t right) {
    uint64_t given;
    size_t found = depth(functions[which], arguments, &given);
    char what[80];
    sprintf(what, "%s gives back %lu", names[which], (unsigned long)right);
    expect(what, given == right);
    if (found > deepest[which]) deepest[which] = found;
    runs[which]++;
}

#define AT(pointer) ((uint64_t)(uintptr_t)(pointer))

/* `limit` is the ceiling, the budget or n; d is looked at in a multiplier call alone. */
static void run_plan(enum call which, uint64_t scans, uint64_t settings, uint64_t law, uint64_t limit, uint64_t d, uint64_t right) {
    uint64_t cells = settings + (scans - 1) * settings * settings;
    uint64_t arguments[ARGUMENTS] = {scans, settings, law, limit};
    uint64_t slices[12];
    size_t from = which == CALL_MULTIPLIER ? 5 : 4;
    slices[0] = AT(rates), slices[1] = cells;
    slices[2] = AT(distortions), slices[3] = cells;
    /* where 5 is right there is a weight too few */
    slices[4] = AT(weights), slices[5] = right == 5 ? scans - 1 : scans;
    slices[6] = AT(plan), slices[7] = sizeof plan;
    slices[8] = AT(scratch), slices[9] = sizeof scratch;
    slices[10] = AT(answer), slices[11] = sizeof answer;
    if (which == CALL_MULTIPLIER) arguments[4] = d;
    memcpy(arguments + from, slices, sizeof slices);
    run(which, arguments, right);
}

static uint64_t state = 1;
static uint32_t drawn(uint32_t below) {
    state = state * UINT64_C(6364136223846793005) + UINT64_C(1442695040888963407);
    return (uint32_t)((state >> 33) % below);
}

/* Random cells, of which one in `closed` is forbidden (none where it is 0), and all weights 1. */
static void fill(uint32_t closed) {
    size_t k;
    memset(weights, 1, sizeof weights);
    for (k = 0; k < CELLS; k++) {
        rates[k] = closed != 0 && drawn(closed) == 0 ? QPL_FORBIDDEN : drawn(1048576);
        distortions[k] = drawn(1048576);
    }
}

/* Random weights for the tables as they are, of which the distortions are made so much smaller that they are legal. */
static void weigh(uint64_t scans, uint64_t settings) {
    uint64_t i, k = 0;
    for (i = 0; i < scans; i++) {
        weights[i] = (uint8_t)drawn(256);
        for (; k < settings + i * settings * settings; k++) distortions[k] %= 1048575 / (weights[i] > 1 ? weights[i] : 1) + 1;
    }
}

/* The four calls on the tables as they are: with a limit that only a search can meet, with none, and with one that nothing meets. */
static void run_plans(uint64_t scans, uint64_t settings, uint64_t law) {
    uint64_t least, most;
    run_plan(CALL_CEILING, scans, settings, law, 1048575, 0, 0);
    least = qpl_value(answer, QPL_CEILING_RATE);
    run_plan(CALL_MULTIPLIER, scans, settings, law, 0, 1, 0);
    most = qpl_value(answer, QPL_MULTIPLIER_RATE);
    run_plan(CALL_MULTIPLIER, scans, settings, law, FIBONACCI, FIBONACCI_BEFORE, 0);
    run_plan(CALL_MULTIPLIER, scans, settings, law, FIBONACCI_BEFORE, FIBONACCI, 0);
    run_plan(CALL_MULTIPLIER, scans, settings, law, 1, 0, 4);
    run_plan(CALL_MINMAX, scans, settings, law, (least + most) / 2, 0, 0);
    run_plan(CALL_CEILING, scans, settings, law, (uint32_t)qpl_value(answer, QPL_MINMAX_CEILING), 0, 0);
    run_plan(CALL_MINMAX, scans, settings, law, UINT64_MAX, 0, 0);
    run_plan(CALL_AVERAGE, scans, settings, law, (least + most) / 2, 0, 0);
    run_plan(CALL_AVERAGE, scans, settings, law, UINT64_MAX, 0, 0);
    if (least > 0) {
        run_plan(CALL_MINMAX, scans, settings, law, least - 1, 0, 9);
        run_plan(CALL_AVERAGE, scans, settings, law, least - 1, 0, 9);
    }
}

/* An average call whose slope is n/d: there are two ways alone through 1,024 scans, setting 0 with all the distortion, n, and setting 1 with
 * all the rate, d. */
static void run_slope(uint32_t n, uint32_t d) {
    size_t i, q, p;
    for (i = 0; i < SCANS; i++) {
        /* as even as whole numbers are: what is left goes to scan 0 */
        uint32_t x = n / SCANS + (i == 0 ? n % SCANS : 0), r = d / SCANS + (i == 0 ? d % SCANS : 0);
        for (p = 0; p < (i == 0 ? 1 : 2); p++)
            for (q = 0; q < 2; q++) {
                size_t cell = i == 0 ? q : 2 + (i - 1) * 4 + p * 2 + q;
                rates[cell] = i > 0 && p != q ? QPL_FORBIDDEN : q == 1 ? r : 0;
                distortions[cell] = q == 0 ? x : 0;
            }
    }
    run_plan(CALL_AVERAGE, SCANS, 2, 0, 0, 0, 0);
    expect("the slope is n/d", qpl_value(answer, QPL_AVERAGE_N) == n && qpl_value(answer, QPL_AVERAGE_D) == d);
}

/* Reads the file, which has these fields, is of this version and has this mark; then refused: an answer that is short, a length that no file
 * has, a changed byte of block 1. */
static void run_reads(uint64_t length, const uint64_t *fields, uint64_t version, uint64_t weighted) {
    uint64_t reading[ARGUMENTS] = {0};
    size_t k;
    int good = 1;
    reading[0] = AT(file), reading[1] = length, reading[2] = AT(plan), reading[3] = fields[QPL_READ_SCANS];
    reading[4] = AT(answer), reading[5] = sizeof answer;
    memset(answer, 0, sizeof answer), memset(plan, 255, sizeof plan);
    run(CALL_READ, reading, 0);
    for (k = 0; k < FIELDS; k++) good = good && qpl_value(answer, k) == fields[k];
    for (k = 0; k < fields[QPL_READ_SCANS]; k++) good = good && plan[k] == k % 16;
    expect("a file reads back as it was written", good);
    expect("a file reads back in its version", qpl_value(answer, QPL_READ_VERSION) == version);
    expect("a file reads back with its mark", qpl_value(answer, QPL_READ_WEIGHTED) == weighted);
    reading[5] = sizeof answer - 1;
    run(CALL_READ, reading, 6);
    reading[1] = length - 1;
    run(CALL_READ, reading, 11);
    reading[1] = length;
    file[700]++;
    run(CALL_READ, reading, 12 | UINT64_C(1) << 32);
    file[700]--;
}

/* The settings go up by one and from 15 to 0, which law 0 and law 2 allow. Where the mark is 1 the peak is over the distortion. */
static void run_files(uint64_t scans, uint64_t law, uint64_t kind, uint64_t n, uint64_t d, uint64_t weighted) {
    uint64_t length = scans > 1008 ? 1536 : 1024, k;
    uint64_t writing[ARGUMENTS] = {0};
    uint64_t fields[FIELDS] = {0};
    /* the writer takes its fields in the order in which the reader answers them */
    fields[QPL_READ_SCANS] = scans, fields[QPL_READ_SETTINGS] = 16, fields[QPL_READ_LAW] = law, fields[QPL_READ_KIND] = kind;
    fields[QPL_READ_BUDGET] = UINT64_MAX, fields[QPL_READ_N] = n, fields[QPL_READ_D] = d;
    fields[QPL_READ_RATE] = 1073740800, fields[QPL_READ_DISTORTION] = weighted ? 1000 : 1073740800;
    fields[QPL_READ_PEAK] = 1048575, fields[QPL_READ_FLOOR] = kind == QPL_KIND_AVERAGE ? fields[QPL_READ_DISTORTION] : 0;
    for (k = 0; k < scans; k++) plan[k] = (uint8_t)(k % 16);
    memcpy(writing, fields, sizeof fields);
    writing[11] = weighted, writing[12] = AT(plan), writing[13] = scans, writing[14] = AT(file), writing[15] = length;
    run(CALL_WRITE, writing, 0);
    run_reads(length, fields, QPL_VERSION_2, weighted);
    seal_as(file, (size_t)length, 1);
    if (weighted) {
        uint64_t reading[ARGUMENTS] = {AT(file), length, AT(plan), scans, AT(answer), sizeof answer};
        run(CALL_READ, reading, 13 | UINT64_C(13) << 32);
    } else {
        run_reads(length, fields, QPL_VERSION_1, 0);
    }
    /* refused: a mark that is none, a peak over its limit, a setting that is none */
    writing[11] = 2;
    run(CALL_WRITE, writing, 13 | UINT64_C(13) << 32);
    writing[11] = weighted;
    writing[QPL_READ_PEAK] = 1048576;
    run(CALL_WRITE, writing, 13 | UINT64_C(40) << 32);
    writing[QPL_READ_PEAK] = 0;
    plan[0] = 16;
    run(CALL_WRITE, writing, 14);
}

#define QUOTED "\"0\",\"\",\"0\",\"1\",\"2\""
#define QUOTED_FAULT "\"0\",\"\",\"0\",\"1\",\"x\""

/* An export of the tables as they are, which have no forbidden cell, and an import of the list into other tables, which must then hold the
 * same cells and are exported again. Then both refused, and an import of lines in quotes. */
static void run_lists(uint64_t scans, uint64_t settings) {
    uint64_t cells = settings + (scans - 1) * settings * settings, length, first = 1, line = cells + 1, k;
    uint64_t writing[ARGUMENTS] = {scans, settings}, reading[ARGUMENTS] = {scans, settings};
    /* bytes and cells that no list has, so that a call that does nothing shows */
    memset(text, 0, sizeof text), memset(answer, 0, sizeof answer);
    memset(taken_rates, 0xa5, sizeof taken_rates), memset(taken_distortions, 0xa5, sizeof taken_distortions);
    writing[2] = AT(rates), writing[3] = cells, writing[4] = AT(distortions), writing[5] = cells;
    writing[6] = AT(text), writing[7] = sizeof text, writing[8] = AT(answer), writing[9] = sizeof answer;
    run(CALL_EXPORT, writing, 0);
    length = qpl_value(answer, QPL_EXPORT_LENGTH);
    reading[2] = AT(text), reading[3] = length, reading[4] = AT(taken_rates), reading[5] = cells;
    reading[6] = AT(taken_distortions), reading[7] = cells, reading[8] = AT(marks), reading[9] = sizeof marks;
    run(CALL_IMPORT, reading, 0);
    expect("an import fills the tables that were exported", memcmp(taken_rates, rates, cells * sizeof *rates) == 0 &&
                                                                memcmp(taken_distortions, distortions, cells * sizeof *distortions) == 0);
    memset(text, 0, sizeof text), memset(answer, 0, sizeof answer);
    writing[2] = AT(taken_rates), writing[4] = AT(taken_distortions), writing[7] = length;
    run(CALL_EXPORT, writing, 0);
    expect("a list that is imported is exported again", qpl_value(answer, QPL_EXPORT_LENGTH) == length);
    /* one line more: malformed, out of range, and the first line once again */
    memcpy(text + length, "x", 1), reading[3] = length + 1;
    run(CALL_IMPORT, reading, 16 | line << 32);
    memcpy(text + length, "0,,16,0,0", 9), reading[3] = length + 9;
    run(CALL_IMPORT, reading, 17 | line << 32);
    while (first < LINE && text[first - 1] != '\n') first++;
    for (k = 0; k < first; k++) text[length + k] = text[k];
    reading[3] = length + first;
    run(CALL_IMPORT, reading, 18 | line << 32);
    /* scratch, text and a table too short, and an illegal cell */
    reading[9] = cells - 1;
    run(CALL_IMPORT, reading, 6);
    writing[7] = length - 1;
    run(CALL_EXPORT, writing, 6);
    taken_rates[cells - 1] = 1048576;
    run(CALL_EXPORT, writing, 7 | (cells - 1) << 32);
    writing[3] = cells - 1;
    run(CALL_EXPORT, writing, 5);
    /* a line in quotes, which is read in another way than a plain one, and behind it such a line with a fault */
    memcpy(text, QUOTED "\r\n" QUOTED_FAULT, sizeof QUOTED - 1 + 2 + sizeof QUOTED_FAULT - 1);
    reading[3] = sizeof QUOTED - 1, reading[9] = sizeof marks;
    run(CALL_IMPORT, reading, 0);
    expect("an import takes a line in quotes", taken_rates[0] == 1 && taken_distortions[0] == 2);
    reading[3] = sizeof QUOTED - 1 + 2 + sizeof QUOTED_FAULT - 1;
    run(CALL_IMPORT, reading, 16 | UINT64_C(2) << 32);
}

/* The true best on the tables as they are, with the rates made small enough that budgets matter: within the largest budget and within one that
 * nothing meets, and refused. */
static void run_best(uint64_t scans, uint64_t settings, uint64_t law) {
    uint64_t cells = settings + (scans - 1) * settings * settings, least, k;
    uint64_t arguments[ARGUMENTS] = {scans, settings, law, SHORT_BUDGET};
    for (k = 0; k < cells; k++) rates[k] = 1 + rates[k] % 60;
    arguments[4] = AT(rates), arguments[5] = cells, arguments[6] = AT(distortions), arguments[7] = cells;
    arguments[8] = AT(weights), arguments[9] = scans, arguments[10] = AT(plan), arguments[11] = sizeof plan;
    arguments[12] = AT(choices), arguments[13] = sizeof choices;
    arguments[14] = AT(totals), arguments[15] = sizeof totals / sizeof *totals;
    arguments[16] = AT(answer), arguments[17] = sizeof answer;
    run(CALL_BEST, arguments, 0);
    run_plan(CALL_CEILING, scans, settings, law, 1048575, 0, 0);
    least = qpl_value(answer, QPL_CEILING_RATE);
    arguments[3] = least;
    run(CALL_BEST, arguments, 0);
    expect("the true best within the least rate has that rate", qpl_value(answer, QPL_BEST_RATE) == least);
    arguments[3] = least - 1;
    run(CALL_BEST, arguments, 9);
    arguments[3] = SHORT_BUDGET + 1;
    run(CALL_BEST, arguments, 19);
    arguments[3] = SHORT_BUDGET, arguments[9] = scans - 1;
    run(CALL_BEST, arguments, 5);
    arguments[9] = scans, arguments[15] = 4 * settings * (SHORT_BUDGET + 1) - 1;
    run(CALL_BEST, arguments, 6);
    arguments[15]++, rates[cells - 1] = 1048576;
    run(CALL_BEST, arguments, 7 | (cells - 1) << 32);
    for (k = 0; k < cells; k++) rates[k] = QPL_FORBIDDEN;
    run(CALL_BEST, arguments, 8);
    arguments[0] = SHORT_SCANS + 1;
    run(CALL_BEST, arguments, 1);
}

/* A function that takes no stack but its return address, and one that fills a room with a value. */
static uint64_t nothing(void) { return 7; }
static uint64_t fills(uint64_t value) {
    volatile uint8_t room[ROOM];
    size_t k;
    for (k = 0; k < ROOM; k++) room[k] = (uint8_t)value;
    return room[ROOM - 1];
}

static void guards(void) {
    uint64_t arguments[ARGUMENTS] = {0}, given;
    size_t k, found = depth((void (*)(void))nothing, arguments, &given);
    expect("a function that takes no stack comes out at its return address", found == 8 && given == 7);
    for (k = 0; k < 3; k++) {
        arguments[0] = k < 2 ? paints[k] : 0;
        found = depth((void (*)(void))fills, arguments, &given);
        expect("a function that fills a known stack comes out so", found >= ROOM + 8 && found <= ROOM + 256 && given == arguments[0]);
    }
}

int main(void) {
    static const uint64_t sizes[][2] = {{1, 1}, {1, 16}, {2, 2}, {5, 3}, {30, 5}, {100, 8}, {40, 15}};
    uint64_t arguments[ARGUMENTS] = {1048576, 1024, 16}, law;
    size_t k;
    guards();

    arguments[3] = AT(answer), arguments[4] = sizeof answer;
    run(CALL_ROOM, arguments, 0);
    arguments[4] = 0;
    run(CALL_ROOM, arguments, 6);
    arguments[0] = 0;
    run(CALL_ROOM, arguments, 10);

    run_files(1024, 0, QPL_KIND_AVERAGE, FIBONACCI, FIBONACCI_BEFORE, 0);
    run_files(1024, 0, QPL_KIND_AVERAGE, FIBONACCI_BEFORE, FIBONACCI, 0);
    run_files(1024, 2, QPL_KIND_AVERAGE, FIBONACCI, FIBONACCI_BEFORE, 1);
    run_files(1008, 0, QPL_KIND_AVERAGE, 0, 1, 0);
    run_files(1024, 0, QPL_KIND_MINMAX, 0, 0, 0);
    run_files(1024, 2, QPL_KIND_MINMAX, 0, 0, 1);

    fill(0);
    for (law = 0; law <= 2; law++) run_plans(1024, 16, law);
    for (k = 0; k < sizeof sizes / sizeof sizes[0]; k++) {
        for (law = 0; law <= 2; law++) run_plans(sizes[k][0], sizes[k][1], law);
        run_lists(sizes[k][0], sizes[k][1]);
    }
    for (k = 0; k < sizeof sizes / sizeof sizes[0]; k++) {
        fill(0);
        weigh(sizes[k][0], sizes[k][1]);
        for (law = 0; law <= 2; law++) run_plans(sizes[k][0], sizes[k][1], law);
    }
    for (k = 0; k < CELLS; k++) rates[k] = distortions[k] = 1048575;
    run_lists(1024, 16);
    expect("the longest list", qpl_value(answer, QPL_EXPORT_LENGTH) == LONGEST);
    fill(16);
    for (law = 0; law <= 2; law++) run_plans(1024, 16, law);
    weigh(1024, 16);
    for (law = 0; law <= 2; law++) run_plans(1024, 16, law);
    /* refused: a weight is missing; at the last cell, first by its weight alone; no sequence */
    for (k = CALL_CEILING; k <= CALL_AVERAGE; k++) run_plan((enum call)k, 1024, 16, 0, 1, 1, 5);
    weights[SCANS - 1] = 255;
    for (k = CELLS - 256; k < CELLS; k++) distortions[k] = 4112;
    distortions[CELLS - 1] = 4113;
    rates[CELLS - 1] = 0;
    for (k = CALL_CEILING; k <= CALL_AVERAGE; k++) run_plan((enum call)k, 1024, 16, 0, 1, 1, 7 | (uint64_t)(CELLS - 1) << 32);
    weights[SCANS - 1] = 0;
    distortions[CELLS - 1] = 1048576;
    for (k = CALL_CEILING; k <= CALL_AVERAGE; k++) run_plan((enum call)k, 1024, 16, 0, 1, 1, 7 | (uint64_t)(CELLS - 1) << 32);
    fill(1);
    for (k = CALL_CEILING; k <= CALL_AVERAGE; k++) run_plan((enum call)k, 1024, 16, 0, 1, 1, 8);

    for (law = 0; law <= 2; law++) {
        fill(0);
        run_best(SHORT_SCANS, 16, law);
        fill(0);
        weigh(SHORT_SCANS, 16);
        run_best(SHORT_SCANS, 16, law);
        fill(0);
        run_best(1, 1, law);
    }

    run_slope(FIBONACCI, FIBONACCI_BEFORE);
    run_slope(FIBONACCI_BEFORE, FIBONACCI);

    for (k = 0; k < CALLS; k++) {
        printf("%-14s %5lu bytes of stack, the most of %lu runs\n", names[k], (unsigned long)deepest[k], (unsigned long)runs[k]);
        expect("the stack of a call is within QPL_STACK", deepest[k] > 0 && deepest[k] <= QPL_STACK);
    }
    printf("%d passed, %d failed\n", passed, failed);
    return failed != 0;
}
