#ifndef GUONTREM_NATIVE_CHECK_H
#define GUONTREM_NATIVE_CHECK_H

#include <stddef.h>
#include <stdint.h>

/* The number of the refusal that the tables meet, 1 to 3, or 0 where they are sound. */
uint32_t native_check(const uint32_t *entries, size_t entry_words, const uint32_t *levels, size_t level_words);

#endif
