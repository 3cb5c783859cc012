/* Lent tables between guard words, and two stores compared along their chains. */
#include "store.h"

#include <stdio.h>
#include <stdlib.h>
#include <string.h>

enum { MOST_PRINTED = 200 };
static const size_t guards = GUARD_WORDS;
static const uint32_t guard = 0x6a09e667, junk = 0xbb67ae85;

static uint32_t *new_table(size_t words) {
    size_t all = guards + words + guards;
    /* Not null for no bytes either, with the GNU C library; then a tool sees every access. */
    uint32_t *block = malloc(all * sizeof *block);
    if (block == NULL) exit(2);
    for (size_t i = 0; i < all; i++) block[i] = i < guards || guards + words <= i ? guard : junk;
    return block + guards;
}

static bool table_guarded(const uint32_t *table, size_t words) {
    for (size_t i = 0; i < guards; i++)
        if ((table - guards)[i] != guard || table[words + i] != guard) return false;
    return true;
}

struct store new_store(size_t entry_words, size_t level_words) { return (struct store){new_table(entry_words), new_table(level_words), entry_words, level_words}; }

void free_store(struct store *s) {
    free(s->entries - guards);
    free(s->levels - guards);
}

static size_t lesser(size_t a, size_t b) { return a < b ? a : b; }

void copy_words(struct store *to, const struct store *from) {
    memcpy(to->entries, from->entries, lesser(to->entry_words, from->entry_words) * sizeof(uint32_t));
    memcpy(to->levels, from->levels, lesser(to->level_words, from->level_words) * sizeof(uint32_t));
}

bool same_words(const struct store *a, const struct store *b) {
    return memcmp(a->entries, b->entries, a->entry_words * sizeof(uint32_t)) == 0 && memcmp(a->levels, b->levels, a->level_words * sizeof(uint32_t)) == 0;
}

bool guards_hold(const struct store *s) { return table_guarded(s->entries, s->entry_words) && table_guarded(s->levels, s->level_words); }

uint32_t slot_count(const struct store *s) { return (uint32_t)(s->entry_words / GUONTREM_SLOT_WORDS - 1); }

uint32_t *slot_row(const struct store *s, uint32_t slot) { return s->entries + (size_t)GUONTREM_SLOT_WORDS * slot; }

uint32_t *level_row(const struct store *s, uint32_t level) { return s->levels + 4 * (level + 1); }

static bool same_chain(const struct store *a, uint32_t x, const struct store *b, uint32_t y) {
    while (x != 0 && y != 0) {
        const uint32_t *r = slot_row(a, x), *q = slot_row(b, y);
        if (r[0] >> 16 != q[0] >> 16 || memcmp(r + 1, q + 1, (GUONTREM_SLOT_WORDS - 1) * sizeof *r) != 0) return false;
        x = r[0] & 65535, y = q[0] & 65535;
    }
    return x == y;
}

const char *difference(const struct store *a, const struct store *b) {
    if (a->entries[1] != b->entries[1]) return "last clock";
    if (memcmp(a->levels, b->levels, 4 * sizeof(uint32_t)) != 0) return "settings";
    for (uint32_t i = 0; i <= a->levels[0]; i++) {
        const uint32_t *x = level_row(a, i), *y = level_row(b, i);
        if (x[2] != y[2]) return "number of records";
        if (x[3] != y[3]) return "owed";
        if (!same_chain(a, x[0], b, y[0])) return "points";
        if (!same_chain(a, x[1], b, y[1])) return "ranges";
    }
    return NULL;
}

static void print_table(const char *name, const uint32_t *table, size_t words, size_t in_a_row) {
    printf("  %s, %zu words:", name, words);
    for (size_t i = 0; i < words && i < MOST_PRINTED; i++) printf("%s%u", i % in_a_row == 0 ? "  " : " ", table[i]);
    printf("%s\n", MOST_PRINTED < words ? " ..." : "");
}

void print_store(const struct store *s) {
    print_table("entries", s->entries, s->entry_words, GUONTREM_SLOT_WORDS);
    print_table("levels", s->levels, s->level_words, 4);
}
