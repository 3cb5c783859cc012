/* Times the proved check beside the same walk in C, by turns on the same tables, and compares their answers on damaged ones. */
#include "guontrem.h"
#include "native_check.h"
#include "random.h"
#include "timing.h"

#include <stdio.h>
#include <stdlib.h>
#include <string.h>

enum { MOST_SLOTS = 65535, DEEPEST = 6, LEVEL_WORDS = 4 * (DEEPEST + 2), ROUNDS = 301, SEED = 1 };

static uint32_t entries[GUONTREM_ENTRY_WORDS(MOST_SLOTS)], levels[LEVEL_WORDS];
static uint32_t order[MOST_SLOTS];
static size_t taken;

/* Takes the next slot, writes its row, and links it behind the one before or to the head. */
static void append(uint32_t *head, uint32_t *last, uint32_t kind, uint32_t lo, uint32_t hi, uint32_t word, uint32_t stamp, uint32_t price) {
    uint32_t slot = order[taken++];
    uint32_t *row = entries + GUONTREM_SLOT_WORDS * slot;
    row[0] = kind << 16, row[1] = lo | hi << 16, row[2] = word, row[3] = stamp, row[4] = price;
    if (*last != 0) entries[GUONTREM_SLOT_WORDS * *last] |= slot;
    else *head = slot;
    *last = slot;
}

/* Sound tables of so many slots, nine tenths of them records, of which a tenth are range deletes and a third of the rest deletes;
   the deepest level has puts only. Slots lie along the chains or scattered. */
static void fill(size_t slots, int scattered) {
    memset(entries, 0, sizeof entries);
    memset(levels, 0, sizeof levels);
    for (size_t i = 0; i < slots; i++) order[i] = (uint32_t)i + 1;
    for (size_t i = slots - 1; scattered && i > 0; i--) {
        size_t j = random_below((uint32_t)i + 1);
        uint32_t slot = order[i];
        order[i] = order[j], order[j] = slot;
    }
    taken = 0;
    entries[1] = 1000000;
    levels[0] = DEEPEST, levels[1] = 10, levels[2] = 64, levels[3] = 500;
    size_t left = slots * 9 / 10, share = left / 20;
    for (size_t level = 0; level <= DEEPEST; level++) {
        size_t count = level < DEEPEST ? share : left, ranges = level < DEEPEST ? count / 10 : 0, points = count - ranges;
        uint32_t *row = levels + 4 * (level + 1), last = 0;
        for (size_t i = 0; i < points; i++) {
            uint32_t docket = (uint32_t)(i * 65536 / points);
            int deleted = level < DEEPEST && one_in(3);
            uint32_t count = deleted ? 0 : random_word(), price = deleted ? 0 : random_word();
            append(&row[0], &last, deleted ? 2 : 1, docket, docket, count, 500 + random_below(1000), price);
        }
        last = 0;
        for (size_t i = 0; i < ranges; i++) {
            uint32_t lo = (uint32_t)(i * 65536 / ranges), stamp = 500 + random_below(1000);
            append(&row[1], &last, 3, lo, lo + random_below(65536 - lo), random_between(1, stamp), stamp, 0);
        }
        row[2] = (uint32_t)count, row[3] = level < DEEPEST && count ? 400 : 0;
        left -= count;
    }
    uint32_t last = 0;
    while (taken < slots) append(&entries[0], &last, 0, 0, 0, 0, 0, 0);
}

typedef uint32_t check(const uint32_t *, size_t, const uint32_t *, size_t);

static double once(check *f, size_t slots, size_t calls, uint32_t *answer) {
    double start = microseconds();
    for (size_t i = 0; i < calls; i++) *answer |= f(entries, GUONTREM_ENTRY_WORDS(slots), levels, LEVEL_WORDS);
    return (microseconds() - start) / (double)calls;
}

static void measure(size_t slots, int scattered) {
    static double proved[ROUNDS], native[ROUNDS];
    size_t calls = slots > 10000 ? 4 : slots > 500 ? 50 : 1000;
    uint32_t answer = 0;
    fill(slots, scattered);
    for (size_t i = 0; i < ROUNDS; i++) {
        proved[i] = once(guontrem_check, slots, calls, &answer);
        native[i] = once(native_check, slots, calls, &answer);
    }
    if (answer != 0) {
        printf("the tables are refused %u\n", answer);
        exit(1);
    }
    double p = median(proved, ROUNDS), n = median(native, ROUNDS);
    printf("%7zu  %-9s  %10.3f  %10.3f  %5.2f\n", slots, scattered ? "scattered" : "in order", p, n, p / n);
}

/* One word changed at a time: both must give one answer. */
static void compare(size_t tables) {
    size_t differ = 0, met[4] = {0};
    for (size_t i = 0; i < tables; i++) {
        size_t slots = random_between(1, 60);
        if (i % 64 == 0) fill(slots, 1);
        else slots = taken;
        size_t words = GUONTREM_ENTRY_WORDS(slots), at = random_below((uint32_t)words + LEVEL_WORDS);
        uint32_t *word = at < words ? &entries[at] : &levels[at - words], old = *word;
        uint32_t next = random_below((uint32_t)slots + 2);
        uint32_t changes[] = {next, old ^ 1u << random_below(32), 0, old + 1, (old & 0xffff0000u) | next, random_word(), old};
        *word = RANDOM_OF(changes);
        uint32_t answer = native_check(entries, words, levels, LEVEL_WORDS);
        differ += guontrem_check(entries, words, levels, LEVEL_WORDS) != answer;
        met[answer] += 1;
        *word = old;
    }
    printf("%zu tables with one word changed: %zu sound, %zu refused 2, %zu refused 3; the answers differ on %zu\n", tables, met[0], met[2], met[3], differ);
    if (differ != 0) exit(1);
}

int main(void) {
    static const size_t sizes[] = {10, 100, 1000, 4000, 65535};
    seed_random(SEED);
    printf("The check, microseconds a call (median of %d rounds by turns)\n", ROUNDS);
    printf("  slots  chains         proved           C  ratio\n");
    for (size_t i = 0; i < sizeof sizes / sizeof *sizes; i++)
        for (int scattered = 0; scattered < 2; scattered++) measure(sizes[i], scattered);
    compare(200000);
    return 0;
}
