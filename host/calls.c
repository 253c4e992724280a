/* Calls of the archive from standard input, what each gives back and leaves on standard output: the tests from outside compare it with the
 * second program. Each lent buffer is exactly as long as asked, between guard bytes, and filled with a pattern before the call; so are the
 * tables of an import and the totals of the true best, between guard cells (lent.h). The tables of an export, of the true best and of the
 * question whether something fits stand between guard cells too, and the weights of a call between guard bytes, and must be as they were.
 *
 * A call is words parted by blanks. Numbers are decimal; bytes are hexadecimal, or "-" for none.
 *   room CHANNELS SCANS SETTINGS ANSWER
 *   ceiling SCANS SETTINGS LAW X PLAN SCRATCH ANSWER RATES DISTORTIONS WEIGHTS cells.. weights..
 *   multiplier SCANS SETTINGS LAW N D PLAN SCRATCH ANSWER RATES DISTORTIONS WEIGHTS cells.. weights..
 *   minmax, average: SCANS SETTINGS LAW B PLAN SCRATCH ANSWER RATES DISTORTIONS WEIGHTS cells.. weights..
 *   best SCANS SETTINGS LAW B PLAN CHOICES TOTALS ANSWER RATES DISTORTIONS WEIGHTS cells.. weights..
 *   fits SCANS SETTINGS LAW B ANSWER RATES DISTORTIONS cells..
 *   read PLAN ANSWER bytes of the file
 *   write twelve fields FILE bytes of the settings
 *   import SCANS SETTINGS RATES DISTORTIONS bytes of scratch bytes of the text
 *   export SCANS SETTINGS TEXT ANSWER RATES DISTORTIONS cells..
 * where PLAN, SCRATCH, CHOICES, ANSWER, FILE and TEXT are lengths of buffers, in bytes, RATES, DISTORTIONS and TOTALS are lengths of tables,
 * in cells, and WEIGHTS says how many weights there are; the fields are those of qpl_write in its order. Scratch is given to an import as
 * bytes, since whatever it holds before must not count.
 * A line of the output is the 64-bit number that came back, and every byte of every lent buffer in the order answer, plan, scratch or choices,
 * file, text; of an import also every cell of rates and distortions, and of the true best every cell of totals, in decimal with commas
 * between them, or "-" for none. */
#include "lent.h"
#include "qpl.h"

#include <inttypes.h>
#include <stdio.h>
#include <string.h>

#define PLAN_FROM 13
#define SCRATCH_FROM 100
#define ANSWER_FROM 50

static void broken(const char *why) {
    printf("calls: %s\n", why);
    exit(2);
}

static uint64_t number(void) {
    uint64_t x;
    if (scanf("%" SCNu64, &x) != 1) broken("a number is missing");
    return x;
}

static size_t size(void) { return (size_t)number(); }

static void show(lent *l) {
    size_t i;
    printf(" ");
    if (l->length == 0) printf("-");
    for (i = 0; i < l->length; i++) printf("%02x", l->bytes[i]);
    if (!lent_guarded(l)) printf(" GUARD BYTES WRITTEN");
    give_back(l);
}

/* What a call only reads: the same bytes as before it, between the same guards. */
typedef struct {
    lent given;
    uint8_t *before;
} read_only;

static read_only keep(lent l) {
    read_only r;
    r.given = l;
    r.before = (uint8_t *)malloc(l.length + 1);
    if (r.before == NULL) broken("no memory");
    if (l.length > 0) memcpy(r.before, l.bytes, l.length);
    return r;
}

static void kept(read_only *r) {
    if (!lent_guarded(&r->given)) printf(" GUARD BYTES WRITTEN");
    if (r->given.length > 0 && memcmp(r->before, r->given.bytes, r->given.length) != 0) printf(" WHAT IS READ WAS WRITTEN");
    free(r->before);
    give_back(&r->given);
}

static void show_table(lent_table *l) {
    size_t i;
    printf(l->length == 0 ? " -" : " ");
    for (i = 0; i < l->length; i++) printf(i == 0 ? "%" PRIu32 : ",%" PRIu32, l->cells[i]);
    if (!table_guarded(l)) printf(" GUARD CELLS WRITTEN");
    give_table_back(l);
}

static uint32_t *cells(size_t count) {
    uint32_t *table = (uint32_t *)malloc(count * sizeof *table + 1);
    size_t i;
    if (table == NULL) broken("no memory");
    for (i = 0; i < count; i++) table[i] = (uint32_t)number();
    return table;
}

/* Weights from the input, as numbers. */
static lent weights_given(size_t count) {
    lent l = lend(count, 0);
    size_t i;
    for (i = 0; i < count; i++) l.bytes[i] = (uint8_t)number();
    return l;
}

static lent_table given_table(size_t count) {
    lent_table l = lend_table(count, 0);
    size_t i;
    for (i = 0; i < count; i++) l.cells[i] = (uint32_t)number();
    return l;
}

/* A number that another cell, or two cells exchanged, would change. */
static uint64_t told_of(const lent_table *l) {
    uint64_t x = l->length;
    size_t i;
    for (i = 0; i < l->length; i++) x = x * UINT64_C(6364136223846793005) + l->cells[i];
    return x;
}

static int digit(int c) { return c >= 'a' ? c - 'a' + 10 : c - '0'; }

/* Bytes from the input, lent between guard bytes too. A word that fills the whole buffer may be cut, and is refused. */
static lent bytes(void) {
    static char word[262144];
    lent made;
    size_t i, length;
    if (scanf("%262143s", word) != 1) broken("bytes are missing");
    length = strlen(word);
    if (length == sizeof word - 1) broken("too many bytes");
    made = lend(strcmp(word, "-") == 0 ? 0 : length / 2, 0);
    for (i = 0; i < made.length; i++) made.bytes[i] = (uint8_t)(digit(word[2 * i]) << 4 | digit(word[2 * i + 1]));
    return made;
}

static void room(void) {
    uint64_t channels = number(), scans = number(), settings = number();
    lent answer = lend(size(), ANSWER_FROM);
    printf("%" PRIu64, qpl_room(channels, scans, settings, answer.bytes, answer.length));
    show(&answer);
}

static void plan(const char *which) {
    uint64_t scans = number(), settings = number(), law = number(), limit = number(), d = strcmp(which, "multiplier") == 0 ? number() : 0;
    lent plan = lend(size(), PLAN_FROM), scratch = lend(size(), SCRATCH_FROM), answer = lend(size(), ANSWER_FROM);
    size_t rates_length = size(), distortions_length = size(), weights_length = size();
    uint32_t *rates = cells(rates_length), *distortions = cells(distortions_length);
    lent weights = weights_given(weights_length);
    read_only content = keep(weights);
    uint64_t given;
    if (strcmp(which, "ceiling") == 0)
        given = qpl_ceiling(scans, settings, law, (uint32_t)limit, rates, rates_length, distortions, distortions_length, weights.bytes,
                            weights.length, plan.bytes, plan.length, scratch.bytes, scratch.length, answer.bytes, answer.length);
    else if (strcmp(which, "multiplier") == 0)
        given = qpl_multiplier(scans, settings, law, limit, d, rates, rates_length, distortions, distortions_length, weights.bytes,
                               weights.length, plan.bytes, plan.length, scratch.bytes, scratch.length, answer.bytes, answer.length);
    else if (strcmp(which, "minmax") == 0)
        given = qpl_minmax(scans, settings, law, limit, rates, rates_length, distortions, distortions_length, weights.bytes,
                           weights.length, plan.bytes, plan.length, scratch.bytes, scratch.length, answer.bytes, answer.length);
    else
        given = qpl_average(scans, settings, law, limit, rates, rates_length, distortions, distortions_length, weights.bytes,
                            weights.length, plan.bytes, plan.length, scratch.bytes, scratch.length, answer.bytes, answer.length);
    printf("%" PRIu64, given);
    show(&answer);
    show(&plan);
    show(&scratch);
    kept(&content);
    free(rates);
    free(distortions);
}

/* Both tables between guard cells, and what they told before the call. */
typedef struct {
    lent_table rates, distortions;
    uint64_t told[2];
} both_tables;

static both_tables given_tables(size_t rates_length, size_t distortions_length) {
    both_tables b;
    b.rates = given_table(rates_length);
    b.distortions = given_table(distortions_length);
    b.told[0] = told_of(&b.rates), b.told[1] = told_of(&b.distortions);
    return b;
}

static void tables_kept(both_tables *b) {
    if (!table_guarded(&b->rates) || !table_guarded(&b->distortions)) printf(" GUARD CELLS WRITTEN");
    if (told_of(&b->rates) != b->told[0] || told_of(&b->distortions) != b->told[1]) printf(" TABLES WRITTEN");
    give_table_back(&b->rates);
    give_table_back(&b->distortions);
}

static void best(void) {
    uint64_t scans = number(), settings = number(), law = number(), budget = number();
    lent plan = lend(size(), PLAN_FROM), choices = lend(size(), SCRATCH_FROM);
    lent_table totals = lend_table(size(), RATES_FROM);
    lent answer = lend(size(), ANSWER_FROM);
    size_t rates_length = size(), distortions_length = size(), weights_length = size();
    both_tables tables = given_tables(rates_length, distortions_length);
    lent weights = weights_given(weights_length);
    read_only content = keep(weights);
    printf("%" PRIu64, qpl_best(scans, settings, law, budget, tables.rates.cells, tables.rates.length, tables.distortions.cells,
                                tables.distortions.length, weights.bytes, weights.length, plan.bytes, plan.length, choices.bytes,
                                choices.length, totals.cells, totals.length, answer.bytes, answer.length));
    show(&answer);
    show(&plan);
    show(&choices);
    show_table(&totals);
    tables_kept(&tables);
    kept(&content);
}

static void fits(void) {
    uint64_t scans = number(), settings = number(), law = number(), budget = number();
    lent answer = lend(size(), ANSWER_FROM);
    size_t rates_length = size(), distortions_length = size();
    both_tables tables = given_tables(rates_length, distortions_length);
    printf("%" PRIu64, qpl_fits(scans, settings, law, budget, tables.rates.cells, tables.rates.length, tables.distortions.cells,
                                tables.distortions.length, answer.bytes, answer.length));
    show(&answer);
    tables_kept(&tables);
}

static void read_file(void) {
    lent plan = lend(size(), PLAN_FROM), answer = lend(size(), ANSWER_FROM), file = bytes();
    read_only content = keep(file);
    printf("%" PRIu64, qpl_read(file.bytes, file.length, plan.bytes, plan.length, answer.bytes, answer.length));
    show(&answer);
    show(&plan);
    kept(&content);
}

static void write_file(void) {
    uint64_t f[12];
    lent file, settings;
    read_only content;
    size_t k;
    for (k = 0; k < 12; k++) f[k] = number();
    file = lend(size(), PLAN_FROM);
    settings = bytes();
    content = keep(settings);
    printf("%" PRIu64, qpl_write(f[0], f[1], f[2], f[3], f[4], f[5], f[6], f[7], f[8], f[9], f[10], f[11], settings.bytes,
                                 settings.length, file.bytes, file.length));
    show(&file);
    kept(&content);
}

static void import_list(void) {
    uint64_t scans = number(), settings = number();
    lent_table rates = lend_table(size(), RATES_FROM), distortions = lend_table(size(), DISTORTIONS_FROM);
    lent scratch = bytes(), text = bytes();
    read_only content = keep(text);
    printf("%" PRIu64, qpl_import(scans, settings, text.bytes, text.length, rates.cells, rates.length, distortions.cells,
                                  distortions.length, scratch.bytes, scratch.length));
    show(&scratch);
    show_table(&rates);
    show_table(&distortions);
    kept(&content);
}

static void export_list(void) {
    uint64_t scans = number(), settings = number();
    lent text = lend(size(), PLAN_FROM), answer = lend(size(), ANSWER_FROM);
    size_t rates_length = size(), distortions_length = size();
    both_tables tables = given_tables(rates_length, distortions_length);
    printf("%" PRIu64, qpl_export(scans, settings, tables.rates.cells, tables.rates.length, tables.distortions.cells,
                                  tables.distortions.length, text.bytes, text.length, answer.bytes, answer.length));
    show(&answer);
    show(&text);
    tables_kept(&tables);
}

int main(void) {
    char which[16];
    while (scanf("%15s", which) == 1) {
        if (strcmp(which, "room") == 0)
            room();
        else if (strcmp(which, "read") == 0)
            read_file();
        else if (strcmp(which, "write") == 0)
            write_file();
        else if (strcmp(which, "import") == 0)
            import_list();
        else if (strcmp(which, "export") == 0)
            export_list();
        else if (strcmp(which, "best") == 0)
            best();
        else if (strcmp(which, "fits") == 0)
            fits();
        else if (strcmp(which, "ceiling") == 0 || strcmp(which, "multiplier") == 0 || strcmp(which, "minmax") == 0 ||
                 strcmp(which, "average") == 0)
            plan(which);
        else
            broken("no such call");
        printf("\n");
    }
    return 0;
}
