/* Times whole calls of the archive beside the same calls in plain C: by turns, in one process, the same calls on copies of the same
   tables. Prints a line for each load and size: load, slots, microseconds a call proved and in C, and their ratio. */
#include "random.h"
#include "tables.h"
#include "timing.h"

#include <stdio.h>
#include <stdlib.h>
#include <string.h>

enum { MOST_CALLS = 2000, MOST_ROUNDS = 61, MOST_REFILLED = 4000, SEED = 1 };

static const struct load {
    const char *name, *letters;
    enum shape shape;
} loads[] = {
    {"mixed", mixed_calls, MIXED}, {"lookup", "G", MIXED}, {"grower's lookup", "g", MIXED}, {"delete-heavy", "PPPPPPPPPDDDDDDDDDTT", MIXED}, {"range-heavy", "PPPPPRRRRT", MIXED},
    {"dated", "PPPPPPPPPPYYYYYYYWTT", MIXED}, {"owing", "T", EVERY_LEVEL_OWES}, {"wake", "w", EVERY_LEVEL_OWES},
    {"full table", "PPPPPPPPDT", PUT_AT_RANDOM}, {"scan", "S", MIXED}, {"grower's scan", "s", MIXED}, {"check", "C", MIXED},
};

static const struct size {
    uint32_t slots, calls, rounds;
} sizes[] = {{10, 2000, 61}, {100, 2000, 61}, {1000, 1000, 41}, {4000, 400, 31}, {65535, 160, 15}};

static uint32_t entries[2][GUONTREM_ENTRY_WORDS(GUONTREM_MAX_SLOTS)], levels[2][MOST_LEVEL_WORDS];
static struct store before = {entries[0], levels[0], 0, 0}, work = {entries[1], levels[1], 0, 0};
static struct call calls[MOST_CALLS];
static struct guontrem_row rows[GUONTREM_MAX_SLOTS];
static struct guontrem_count_row count_rows[GUONTREM_MAX_SLOTS];

static void copy_tables(struct store *to, const struct store *from) {
    memcpy(to->entries, from->entries, from->entry_words * sizeof *from->entries);
    memcpy(to->levels, from->levels, from->level_words * sizeof *from->levels);
    to->entry_words = from->entry_words, to->level_words = from->level_words;
}

/* Microseconds a call; the answers and prices are added up so that both can be compared. */
static double run(call_on *f, size_t count, uint64_t *sum) {
    uint32_t price = 0;
    const struct lent lent = {&price, rows, count_rows};
    copy_tables(&work, &before);
    double start = microseconds();
    for (size_t i = 0; i < count; i++) {
        uint64_t answer = f(&work, &calls[i], &lent);
        *sum = *sum * 31 + answer + price;
    }
    return (microseconds() - start) / (double)count;
}

static void prepare(const struct load *load, const struct size *size) {
    uint32_t clock = fill(&before, load->shape, size->slots);
    /* One docket more than slots, so that a full table is told so now and then. */
    uint32_t dockets = load->shape == PUT_AT_RANDOM ? size->slots + 1 : (size->slots + 1) / 2;
    for (uint32_t i = 0; i < size->calls; i++) calls[i] = draw(load->letters, clock += i & 1, dockets, size->slots);
}

static void measure(const struct load *load, const struct size *size) {
    static double proved[MOST_ROUNDS], native[MOST_ROUNDS], ratio[MOST_ROUNDS];
    for (uint32_t i = 0; i < size->rounds; i++) {
        uint64_t sums[2] = {0, 0};
        /* How records lie in the levels differs much from one small table to the next; the largest are dear to fill. */
        if (i == 0 || size->slots <= MOST_REFILLED) prepare(load, size);
        if (i % 2 == 0) native[i] = run(native_call, size->calls, &sums[1]);
        proved[i] = run(proved_call, size->calls, &sums[0]);
        if (i % 2 == 1) native[i] = run(native_call, size->calls, &sums[1]);
        if (sums[0] != sums[1]) {
            fprintf(stderr, "%s, %u slots: the answers differ\n", load->name, size->slots);
            exit(1);
        }
        ratio[i] = proved[i] / native[i];
    }
    printf("%s\t%u\t%.4f\t%.4f\t%.3f\n", load->name, size->slots, median(proved, size->rounds), median(native, size->rounds), median(ratio, size->rounds));
    fflush(stdout);
}

int main(void) {
    seed_random(SEED);
    for (size_t i = 0; i < sizeof loads / sizeof *loads; i++)
        for (size_t k = 0; k < sizeof sizes / sizeof *sizes; k++) measure(&loads[i], &sizes[k]);
    return 0;
}
