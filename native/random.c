/* Random numbers that a seed decides: xorshift64*. */
#include "random.h"

static uint64_t state;

uint32_t random_word(void) {
    state ^= state >> 12;
    state ^= state << 25;
    state ^= state >> 27;
    return (uint32_t)(state * 0x2545f4914f6cdd1du >> 32);
}

/* Seeds that lie side by side begin alike, so the seed is spread over all bits; the state is never 0. */
void seed_random(uint64_t seed) {
    state = (seed + 1) * 0x9e3779b97f4a7c15u | 1;
    for (int i = 0; i < 16; i++) random_word();
}

uint32_t random_below(uint32_t bound) { return (uint32_t)((uint64_t)random_word() * bound >> 32); }

uint32_t random_between(uint32_t least, uint32_t most) { return least + (uint32_t)((uint64_t)random_word() * ((uint64_t)most - least + 1) >> 32); }

bool one_in(uint32_t count) { return random_below(count) == 0; }
