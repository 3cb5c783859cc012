#ifndef GUONTREM_TEST_PRICES_H
#define GUONTREM_TEST_PRICES_H

#include <stdint.h>

/* Runs calls on two stores of the archive that differ in the prices of puts alone, until so many calls were made. */
void run_price_twins(uint64_t calls);

#endif
