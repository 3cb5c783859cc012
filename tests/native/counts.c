/* What was met, told and held to what must be met. */
#include "counts.h"

#include <inttypes.h>
#include <stdio.h>
#include <stdlib.h>

struct counts counts;

/* Which refusals each kind can meet, one bit each. */
enum {
    REFUSALS = GUONTREM_DATE + 1,
    LENGTHS = 1 << GUONTREM_ACCEPTED | 1 << GUONTREM_ENTRY_LENGTH | 1 << GUONTREM_LEVEL_TABLE,
    CHECKED = LENGTHS | 1 << GUONTREM_UNSOUND,
    READS = CHECKED | 1 << GUONTREM_DOCKET,
    TIMED = CHECKED | 1 << GUONTREM_CLOCK,
    WRITES = READS | TIMED
};
static const int can_meet[KINDS] = {
    [MAKE] = LENGTHS | 1 << GUONTREM_SETTINGS, [CHECK] = CHECKED, [WAKE] = CHECKED, [LOOKUP] = READS, [LOOKUP_COUNT] = READS, [SCAN] = READS, [SCAN_COUNTS] = READS,
    [PUT] = WRITES | 1 << GUONTREM_FULL, [DELETE] = WRITES, [DELETE_RANGE] = WRITES, [DELETE_RANGE_DATED] = WRITES | 1 << GUONTREM_DATE, [FLUSH] = TIMED, [TICK] = TIMED,
};

void require(bool holds, const char *what) {
    if (holds) return;
    printf("FAILED: not as it must be: %s\n", what);
    exit(1);
}

void count_call(const struct call *c, struct answer a) {
    enum kind kind = c->kind;
    counts.calls++;
    require(a.refusal < REFUSALS, "a refusal above 10");
    counts.refusals[kind][a.refusal]++;
    if (a.refusal != 0) return;
    counts.never += kind == WAKE && !a.parts[0];
    counts.in_32_bits += kind == WAKE && a.parts[0] && a.parts[2] == 0;
    counts.past_32_bits += kind == WAKE && a.parts[0] && a.parts[2] != 0;
    counts.found += is_lookup(kind) && a.parts[0] == 1;
    counts.absent += is_lookup(kind) && a.parts[0] == 0;
    counts.priced += kind == LOOKUP && a.parts[3] != 0;
    counts.more += is_scan(kind) && a.parts[1] == 1;
    counts.dated_now += kind == DELETE_RANGE_DATED && c->date == c->clock;
    counts.dated_before += kind == DELETE_RANGE_DATED && c->date < c->clock;
    if (PUT <= kind) counts.merges += a.parts[0], counts.purged += a.parts[1];
}

static void print_refusals(void) {
    printf("%-18s", "refusal");
    for (int n = 0; n < REFUSALS; n++) printf("%9d", n);
    printf("\n");
    for (int kind = 0; kind < KINDS; kind++) {
        printf("%-18s", kind_names[kind]);
        for (int n = 0; n < REFUSALS; n++) printf("%9" PRIu64, counts.refusals[kind][n]);
        printf("\n");
    }
}

static void require_refusals(void) {
    for (int kind = 0; kind < KINDS; kind++)
        for (int n = 0; n < REFUSALS; n++) {
            bool met = counts.refusals[kind][n] != 0, can = can_meet[kind] >> n & 1;
            if (met != can) printf("%s %s refusal %d\n", kind_names[kind], met ? "met" : "did not meet", n);
            require(met == can, "the refusals that each kind met");
        }
}

static void tell(const char *what, uint64_t count) {
    printf("%12" PRIu64 "  %s\n", count, what);
    require(count != 0, what);
}

void report_counts(void) {
    print_refusals();
    require_refusals();
    tell("calls", counts.calls);
    tell("merges", counts.merges);
    tell("records purged", counts.purged);
    tell("stores that never wake", counts.never);
    tell("stores that wake at a clock of 32 bits", counts.in_32_bits);
    tell("stores that wake past them", counts.past_32_bits);
    tell("ticks before that clock", counts.slept);
    tell("ticks at it", counts.woken);
    tell("lists without writes", counts.quiet);
    tell("merges in them", counts.quiet_merges);
    tell("lookups that found", counts.found);
    tell("lookups that did not", counts.absent);
    tell("lookups that found a price", counts.priced);
    tell("scans that said more", counts.more);
    tell("range deletes with the clock as their date", counts.dated_now);
    tell("range deletes with an earlier date", counts.dated_before);
    tell("scans with no rows over live dockets", counts.no_rows);
    tell("scans with one row", counts.one_row);
    tell("scans with a row for each live docket", counts.exact_rows);
    tell("scans with fewer", counts.fewer_rows);
    tell("scans with more", counts.more_rows);
    for (int i = 0; i < DAMAGES; i++) tell(damage_names[i], counts.damages[i]);
    tell("calls on damaged tables that were refused for it", counts.no_longer_sound);
    tell("calls on damaged tables that stayed sound", counts.still_sound);
    tell("calls made by the header's wrappers too", counts.wrapped);
}
