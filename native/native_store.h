#ifndef GUONTREM_NATIVE_STORE_H
#define GUONTREM_NATIVE_STORE_H

#include "guontrem.h"

/* The calls on the two tables, written plainly in C. */
struct native_answer {
    uint32_t refusal, merges, purged;
};

struct native_wake {
    uint32_t refusal, due;
    uint64_t clock;
};

struct native_found {
    uint32_t refusal, found, count, price, stamp;
};

/* The grower's. */
struct native_counted {
    uint32_t refusal, found, count, stamp;
};

struct native_scanned {
    uint32_t refusal, count, more, next;
};

uint32_t native_make(uint32_t *e, size_t ne, uint32_t *l, size_t nl, uint32_t deepest, uint32_t ratio, uint32_t buffer, uint32_t term);
struct native_wake native_wake(const uint32_t *e, size_t ne, const uint32_t *l, size_t nl);
struct native_found native_lookup(const uint32_t *e, size_t ne, const uint32_t *l, size_t nl, uint32_t docket);
struct native_scanned native_scan(const uint32_t *e, size_t ne, const uint32_t *l, size_t nl, uint32_t lo, uint32_t hi, struct guontrem_row *rows, size_t row_count);
struct native_counted native_lookup_count(const uint32_t *e, size_t ne, const uint32_t *l, size_t nl, uint32_t docket);
struct native_scanned native_scan_counts(const uint32_t *e, size_t ne, const uint32_t *l, size_t nl, uint32_t lo, uint32_t hi, struct guontrem_count_row *rows,
                                         size_t row_count);
struct native_answer native_put(uint32_t *e, size_t ne, uint32_t *l, size_t nl, uint32_t clock, uint32_t docket, uint32_t count, uint32_t price);
struct native_answer native_delete(uint32_t *e, size_t ne, uint32_t *l, size_t nl, uint32_t clock, uint32_t docket);
struct native_answer native_delete_range(uint32_t *e, size_t ne, uint32_t *l, size_t nl, uint32_t clock, uint32_t lo, uint32_t hi);
struct native_answer native_delete_range_dated(uint32_t *e, size_t ne, uint32_t *l, size_t nl, uint32_t clock, uint32_t lo, uint32_t hi, uint32_t date);
struct native_answer native_flush(uint32_t *e, size_t ne, uint32_t *l, size_t nl, uint32_t clock);
struct native_answer native_tick(uint32_t *e, size_t ne, uint32_t *l, size_t nl, uint32_t clock);

/* How a merge or a scan asks whether a range covers a point; for the measurement behind docs/DECISIONS.md. */
enum native_coverage { NATIVE_WALK, NATIVE_TWO_PLACES };
extern enum native_coverage native_coverage;
/* Whether calls check the tables first, as document 01 asks. */
extern int native_checks;

#endif
