#ifndef GUONTREM_NATIVE_CALLS_H
#define GUONTREM_NATIVE_CALLS_H

#include "guontrem.h"

enum kind { MAKE, CHECK, WAKE, LOOKUP, LOOKUP_COUNT, SCAN, SCAN_COUNTS, PUT, DELETE, DELETE_RANGE, DELETE_RANGE_DATED, FLUSH, TICK, KINDS };

/* Two lent tables of any lengths and content. */
struct store {
    uint32_t *entries, *levels;
    size_t entry_words, level_words;
};

struct settings {
    uint32_t deepest, ratio, buffer, term;
};

/* What a kind has no use for is not looked at. */
struct call {
    enum kind kind;
    uint32_t clock, lo, hi, date, count, price;
    size_t row_count;
    struct settings settings;
};

/* What is lent beside the tables: a word to the hall's lookup, rows to a scan, of one kind to the hall's and of the other to the grower's. */
struct lent {
    uint32_t *price;
    struct guontrem_row *rows;
    struct guontrem_count_row *count_rows;
};

typedef uint64_t call_on(const struct store *s, const struct call *c, const struct lent *lent);

/* A call by the archive and the same in plain C, each answered by the archive's number; a call that is lent nothing more takes a null. */
call_on proved_call, native_call;

#endif
