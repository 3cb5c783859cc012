#ifndef GUONTREM_TEST_COUNTS_H
#define GUONTREM_TEST_COUNTS_H

#include "pairs.h"
#include "tables.h"

/* What was met so far. */
struct counts {
    uint64_t calls, refusals[KINDS][GUONTREM_DATE + 1];
    uint64_t merges, purged, found, absent, priced, more;
    /* Clocks to wake at: none, of 32 bits, and past them. Ticks while a store slept, ticks that woke it, and lists without writes with their merges. */
    uint64_t never, in_32_bits, past_32_bits, slept, woken, quiet, quiet_merges;
    /* Accepted range deletes by their date: the clock, and earlier ones. */
    uint64_t dated_now, dated_before;
    /* Scans by their rows: none, one, as many as live dockets, fewer, more. */
    uint64_t no_rows, one_row, exact_rows, fewer_rows, more_rows;
    /* Damaged tables by how they were damaged, and calls on them by what the check says before. */
    uint64_t damages[DAMAGES], still_sound, no_longer_sound;
    /* Calls made by the header's wrappers too. */
    uint64_t wrapped;
};
extern struct counts counts;

void count_call(const struct call *c, struct answer a);
/* Prints what was met, and ends the program where something was not, or where something was that cannot be. */
void report_counts(void);
/* Ends the program where the condition does not hold. */
void require(bool holds, const char *what);

#endif
