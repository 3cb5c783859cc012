#ifndef GUONTREM_NATIVE_RANDOM_H
#define GUONTREM_NATIVE_RANDOM_H

#include <stdbool.h>
#include <stdint.h>

/* Before any number is drawn. */
void seed_random(uint64_t seed);
uint32_t random_word(void);
uint32_t random_below(uint32_t bound);
/* Both ends included. */
uint32_t random_between(uint32_t least, uint32_t most);
bool one_in(uint32_t count);

#define RANDOM_OF(array) ((array)[random_below(sizeof(array) / sizeof *(array))])

#endif
