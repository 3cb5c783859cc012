/* What every benchmark measures with. */
#include "timing.h"

#include <stdlib.h>
#include <time.h>

double microseconds(void) {
    struct timespec t;
    clock_gettime(CLOCK_THREAD_CPUTIME_ID, &t);
    return 1e6 * (double)t.tv_sec + 1e-3 * (double)t.tv_nsec;
}

static int ascending(const void *a, const void *b) {
    double x = *(const double *)a, y = *(const double *)b;
    return (x > y) - (x < y);
}

double median(double *numbers, size_t count) {
    qsort(numbers, count, sizeof *numbers, ascending);
    return numbers[count / 2];
}
