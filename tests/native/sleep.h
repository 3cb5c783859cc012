#ifndef GUONTREM_TEST_SLEEP_H
#define GUONTREM_TEST_SLEEP_H

#include "pairs.h"

/* After an accepted timed call: ticks before the clock to wake at change the last clock alone, and a tick at it merges. */
void check_sleep(const struct pair *p, const struct call *c);
/* Ticks and flushes, refused ones too, on a copy of any tables: they count at most L * (L + 1) / 2 merges. */
void run_quiet(const struct store *s);

#endif
