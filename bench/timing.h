#ifndef GUONTREM_BENCH_TIMING_H
#define GUONTREM_BENCH_TIMING_H

#include <stddef.h>

/* The processor's time, so that other work on the machine counts only by the caches it takes. */
double microseconds(void);
/* Leaves the numbers sorted. */
double median(double *numbers, size_t count);

#endif
