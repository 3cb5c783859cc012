/* Times scans of all dockets beside lookups of live ones on the same tables, in the same rounds at every size, by the archive and in
   plain C. There are sixteen tables of each size but the largest, used one after the other, each with rows of its own: so 4,000 slots are
   read from as much memory as 65,535, and written to as much, and no processor knows the order of a table's levels by heart. Prints a line
   for each shape and size: shape, slots, microseconds a lookup and a scan proved, a scan in C, the proved scan's time over C's, what a scan
   costs in lookups, proved and in C, and how much the former is of the same at 4,000 slots: the median of the rounds, and the quarters. */
#include "random.h"
#include "tables.h"
#include "timing.h"

#include <stdio.h>
#include <stdlib.h>

enum { MOST_CALLS = 2000, ROUNDS = 41, SEED = 1, MOST_TABLES = 16 };

static const char *const names[SHAPES] = {"mixed calls",    "put at random", "put ascending",   "two by turns",   "three by turns",
                                          "seven by turns", "two at random", "seven at random", "ranges between", "and one wide", "put twice"};

static const struct size {
    uint32_t slots, calls, tables;
} sizes[] = {{4000, 96, MOST_TABLES}, {65535, 8, 1}, {1000, 400, MOST_TABLES}, {100, 2000, MOST_TABLES}, {10, 2000, MOST_TABLES}};

enum { SIZES = sizeof sizes / sizeof *sizes };

static uint32_t entries[SIZES][GUONTREM_ENTRY_WORDS(GUONTREM_MAX_SLOTS)], levels[SIZES][MOST_TABLES][MOST_LEVEL_WORDS];
static struct store stores[SIZES][MOST_TABLES];
static struct guontrem_row rows[GUONTREM_MAX_SLOTS];
static struct call calls[MOST_CALLS];

static struct call scan_of_all(uint32_t slots) { return draw("S", 0, 1, slots); }

/* Microseconds a call, on one table after the other; the answers are added up so that both can be compared. */
static double run(call_on *f, const struct store *s, const struct size *size, uint64_t *sum) {
    uint32_t price;
    double start = microseconds();
    for (size_t i = 0; i < size->calls; i++) {
        size_t table = i % size->tables;
        const struct lent lent = {.price = &price, .rows = rows + table * size->slots};
        *sum = *sum * 31 + f(&s[table], &calls[i], &lent);
    }
    return (microseconds() - start) / (double)size->calls;
}

static void draw_lookups(const struct store *s, const struct size *size) {
    struct call all = scan_of_all(size->slots);
    for (uint32_t k = 0; k < size->tables; k++) {
        uint32_t live = guontrem_scan_count(native_call(&s[k], &all, &(struct lent){.rows = rows}));
        for (uint32_t i = k; i < size->calls; i += size->tables)
            calls[i] = (struct call){.kind = LOOKUP, .lo = live == 0 ? 0 : rows[random_below(live)].docket};
    }
}

static void draw_scans(const struct size *size) {
    for (uint32_t i = 0; i < size->calls; i++) calls[i] = scan_of_all(size->slots);
}

struct timed {
    double lookup, scan;
    uint64_t scanned;
};

/* Lookups before and after the scans, so that a change of the machine's speed falls on both. */
static struct timed time_side(call_on *f, const struct store *s, const struct size *size) {
    struct timed t = {0, 0, 0};
    uint64_t found = 0;
    draw_lookups(s, size);
    t.lookup = run(f, s, size, &found) / 2;
    draw_scans(size);
    t.scan = run(f, s, size, &t.scanned);
    draw_lookups(s, size);
    t.lookup += run(f, s, size, &found) / 2;
    return t;
}

static void measure(enum shape shape) {
    static double lookup[SIZES][ROUNDS], scan[SIZES][ROUNDS], native[SIZES][ROUNDS], ratio[SIZES][ROUNDS], lookups[SIZES][ROUNDS],
        native_lookups[SIZES][ROUNDS], growth[SIZES][ROUNDS];
    for (size_t k = 0; k < SIZES; k++)
        for (size_t t = 0; t < sizes[k].tables; t++) {
            stores[k][t] = (struct store){entries[k] + t * GUONTREM_ENTRY_WORDS(sizes[k].slots), levels[k][t], 0, 0};
            fill(&stores[k][t], shape, sizes[k].slots);
        }
    for (size_t i = 0; i < ROUNDS; i++)
        for (size_t k = 0; k < SIZES; k++) {
            struct timed p = time_side(proved_call, stores[k], &sizes[k]), n = time_side(native_call, stores[k], &sizes[k]);
            if (p.scanned != n.scanned) {
                fprintf(stderr, "%s, %u slots: the answers differ\n", names[shape], sizes[k].slots);
                exit(1);
            }
            lookup[k][i] = p.lookup, scan[k][i] = p.scan, native[k][i] = n.scan, ratio[k][i] = p.scan / n.scan;
            lookups[k][i] = p.scan / p.lookup, native_lookups[k][i] = n.scan / n.lookup, growth[k][i] = lookups[k][i] / lookups[0][i];
        }
    for (size_t k = 0; k < SIZES; k++) {
        double *columns[] = {lookup[k], scan[k], native[k], ratio[k], lookups[k], native_lookups[k], growth[k]};
        printf("%s\t%u", names[shape], sizes[k].slots);
        for (size_t c = 0; c < sizeof columns / sizeof *columns; c++) printf("\t%.4f", median(columns[c], ROUNDS));
        /* The median has left them sorted. */
        printf("\t%.4f\t%.4f\n", growth[k][ROUNDS / 4], growth[k][ROUNDS * 3 / 4]);
    }
    fflush(stdout);
}

int main(void) {
    seed_random(SEED);
    for (int shape = 0; shape < SHAPES; shape++) measure(shape);
    return 0;
}
