/* Times two ways for a merge to ask whether an upper range covers a lower point, on loads with range deletes: the walk of the range chain
   from the first that has not ended, and from two places, which leave what has ended behind under a wide range too. */
#include "native_store.h"
#include "random.h"
#include "timing.h"

#include <stdio.h>

enum { MOST_SLOTS = 65535, DEEPEST = 3, LEVEL_WORDS = 4 * (DEEPEST + 2), CALLS = 20000, WIDE_SHARE = 50, SEED = 1 };

enum dates { CLOCK, ANY, ANY_AND_WIDE };
static const char *const date_names[] = {"clock", "any", "and wide"};

/* Range deletes in so many of a hundred calls, of so many dockets more than one, the others puts. Their date is their clock or any before
   it; and now and then there is one over all dockets with date 1. */
static const struct load {
    uint32_t slots, percent, width;
    enum dates dates;
} loads[] = {
    {1000, 5, 10, CLOCK},   {1000, 50, 10, ANY},    {4000, 5, 10, CLOCK},    {4000, 50, 10, ANY},      {65535, 5, 10, CLOCK},  {65535, 5, 10, ANY},
    {65535, 50, 10, CLOCK}, {65535, 50, 10, ANY},   {65535, 50, 1000, CLOCK}, {65535, 50, 1000, ANY},  {65535, 50, 20000, CLOCK}, {65535, 50, 20000, ANY},
    {65535, 5, 10, ANY_AND_WIDE}, {65535, 50, 10, ANY_AND_WIDE},
};

static uint32_t entries[GUONTREM_ENTRY_WORDS(MOST_SLOTS)], levels[LEVEL_WORDS];

/* Microseconds a call, without the check of both tables. */
static double run(enum native_coverage coverage, const struct load *load) {
    size_t words = GUONTREM_ENTRY_WORDS(load->slots);
    native_coverage = coverage, native_checks = 0;
    seed_random(SEED);
    native_make(entries, words, levels, LEVEL_WORDS, DEEPEST, 10, 64, 1000000);
    double begin = microseconds();
    for (uint32_t t = 1; t <= CALLS; t++) {
        uint32_t docket = random_below(65536), hi = docket + load->width > 65535 ? 65535 : docket + load->width;
        uint32_t date = load->dates == CLOCK ? t : random_between(1, t);
        if (load->dates == ANY_AND_WIDE && t % WIDE_SHARE == 0) native_delete_range_dated(entries, words, levels, LEVEL_WORDS, t, 0, 65535, 1);
        else if (random_below(100) < load->percent) native_delete_range_dated(entries, words, levels, LEVEL_WORDS, t, docket, hi, date);
        else native_put(entries, words, levels, LEVEL_WORDS, t, docket, t, t);
    }
    return (microseconds() - begin) / CALLS;
}

int main(void) {
    printf("%6s %5s %7s %9s %10s %10s   (microseconds a call)\n", "N", "% R", "width", "dates", "walk", "two places");
    for (const struct load *load = loads; load < loads + sizeof loads / sizeof *loads; load++) {
        printf("%6u %5u %7u %9s", load->slots, load->percent, load->width, date_names[load->dates]);
        for (int c = NATIVE_WALK; c <= NATIVE_TWO_PLACES; c++) printf(" %10.3f", run((enum native_coverage)c, load));
        printf("\n");
        fflush(stdout);
    }
    return 0;
}
