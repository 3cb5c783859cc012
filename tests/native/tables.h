#ifndef GUONTREM_TEST_TABLES_H
#define GUONTREM_TEST_TABLES_H

#include "store.h"

/* Fills tables of allowed lengths so that they are sound, mostly as no list of calls leaves them. */
void lay_sound(struct store *s);
/* How tables are damaged; the last three by their lengths. */
enum damage { ONE_WORD, TWO_WORDS, LINKS, RING, DATE, PRICE, RANDOM_WORDS, EMPTY_TABLE, ONE_WORD_TABLE, OTHER_LENGTH, DAMAGES };
extern const char *const damage_names[DAMAGES];

/* Changes words of sound tables in one of these ways. */
enum damage damage(struct store *s);
/* Lengths that are mostly not allowed, or are not those of the settings. */
size_t odd_entry_words(size_t words);
size_t odd_level_words(size_t words);
/* How the lengths are damaged. */
enum damage damage_of_lengths(size_t entry_words, size_t level_words);

#endif
