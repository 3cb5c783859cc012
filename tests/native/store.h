#ifndef GUONTREM_TEST_STORE_H
#define GUONTREM_TEST_STORE_H

#include "calls.h"

#include <stdbool.h>

/* Words about each table that no call may write; none where a tool looks for that. Their odd number leaves tables aligned to one word only. */
#ifndef GUARD_WORDS
#define GUARD_WORDS 5
#endif

/* Tables of so many words, all junk, between guard words. */
struct store new_store(size_t entry_words, size_t level_words);
void free_store(struct store *s);
/* As many words as both have. */
void copy_words(struct store *to, const struct store *from);
bool same_words(const struct store *a, const struct store *b);
/* Whether no word beside the tables was written. */
bool guards_hold(const struct store *s);

uint32_t slot_count(const struct store *s);
/* Link, dockets, count or date, stamp and price of a slot. */
uint32_t *slot_row(const struct store *s, uint32_t slot);
/* The first point, first range, number of records and owed of a level. */
uint32_t *level_row(const struct store *s, uint32_t level);
/* What two sound stores differ in, read along their chains and whatever slots they use; none where they are alike. */
const char *difference(const struct store *a, const struct store *b);
void print_store(const struct store *s);

#endif
