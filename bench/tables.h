#ifndef GUONTREM_BENCH_TABLES_H
#define GUONTREM_BENCH_TABLES_H

#include "calls.h"

enum {
    DEEPEST = 3,
    RATIO = 4,
    BUFFER = 8,
    TERM = 1000,
    LEVEL_WORDS = GUONTREM_LEVEL_WORDS(DEEPEST),
    MOST_LEVELS = 7,
    MOST_LEVEL_WORDS = GUONTREM_LEVEL_WORDS(MOST_LEVELS - 1)
};

/* What tables hold: half the slots live and as many mixed calls as slots after that; every slot live, put at random or in ascending order;
   every slot live in some of the deepest levels, docket after docket by turns or at random, in the order of slots; live dockets in the
   deepest level, and in the level above it a range delete between each two, the same with a wide one of an earlier date over all, or the
   same dockets once more. Seven levels need an L of 6, the others have one of 3. Those before SHAPES are scanned too; in the last a range
   delete stands in each level between the buffer and the deepest, none of them due, and what is live in the deepest. */
enum shape {
    MIXED,
    PUT_AT_RANDOM,
    PUT_ASCENDING,
    TWO_BY_TURNS,
    THREE_BY_TURNS,
    SEVEN_BY_TURNS,
    TWO_AT_RANDOM,
    SEVEN_AT_RANDOM,
    RANGES_BETWEEN,
    AND_ONE_WIDE,
    PUT_TWICE,
    SHAPES,
    EVERY_LEVEL_OWES
};

/* The calls of the mixed load, as letters of which one is drawn. */
extern const char mixed_calls[];

/* A call at random: one of the letters of the script program, W for Y over all dockets, S for a scan of all dockets with a row for each
   slot, C for the check; g and s for the grower's lookup and scan. A date is any from 1 to the clock. */
struct call draw(const char *letters, uint32_t clock, uint32_t dockets, uint32_t slots);

/* A record: kind, dockets, a put's count or a range delete's date, stamp, and a put's price. */
struct record {
    uint32_t kind, lo, hi, word, stamp, price;
};
enum { PUT_KIND = 1, RANGE_KIND = 3 };

/* Lays a record into a slot, before those of its chain; what is deleted is owed since clock 1. */
void lay_record(struct store *s, uint32_t slot, uint32_t level, struct record r);

/* Fills tables of so many slots; answers the last clock. Level tables have room for MOST_LEVEL_WORDS words where seven levels are laid, else for LEVEL_WORDS. */
uint32_t fill(struct store *s, enum shape shape, uint32_t slots);

#endif
