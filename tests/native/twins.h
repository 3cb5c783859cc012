#ifndef GUONTREM_TEST_TWINS_H
#define GUONTREM_TEST_TWINS_H

#include <stdint.h>

/* Runs lists of calls twice on the archive, alike in all but one put's count or price, until so many calls were made. */
void run_twins(uint64_t calls);

#endif
