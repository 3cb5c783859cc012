#ifndef GUONTREM_TEST_LOADS_H
#define GUONTREM_TEST_LOADS_H

#include "store.h"

/* The number, or the most that it may be. */
uint32_t at_most(uint32_t most, uint64_t number);

/* Calls that a load remembers. */
enum { REMEMBERED = 8 };

/* How the calls on one store are drawn. Spans and clocks come back, so that ranges are alike and dates fall on stamps. */
struct load {
    uint32_t slots, dockets, first, width, clock, steps[4];
    uint32_t drawn, clocks[REMEMBERED], spans[REMEMBERED][2];
    struct settings settings;
    const enum kind *mix;
    uint32_t mix_size;
};

struct settings random_settings(void);
/* A load for tables of so many slots whose last clock is the given one. */
struct load random_load(uint32_t slots, struct settings settings, uint32_t clock);
/* The next call; one in some is refused for its docket, its clock, its date or its settings. */
struct call random_call(struct load *load, const struct store *s);

#endif
