#ifndef GUONTREM_TEST_PAIRS_H
#define GUONTREM_TEST_PAIRS_H

#include "store.h"

extern const char *const kind_names[KINDS];

bool is_lookup(enum kind kind);
bool is_scan(enum kind kind);

/* Merges and purged; due and both halves of the clock; found, count, stamp and, in the hall's lookup, price; or count, more and next. */
struct answer {
    uint32_t refusal, parts[4];
};

/* When to wake. */
struct answer of_clock(uint32_t refusal, int due, uint64_t clock);

/* An answer by the header's functions; the price is what the hall's lookup left in the word that it was lent. */
struct answer unpack(enum kind kind, uint64_t number, uint32_t price);
/* The same, worked out beside the header's functions. */
struct answer unpack_plainly(enum kind kind, uint64_t number, uint32_t price);

/* A call that is lent no rows; the word for a price is lent between others, which stay, and no other call writes it. */
struct answered {
    uint64_t number;
    uint32_t price;
    bool guarded;
};
struct answered call_without_rows(call_on *f, const struct store *s, const struct call *c);

/* The same store twice, and room for its words before a call. */
struct pair {
    struct store proved, native, before;
};

struct pair new_pair(size_t entry_words, size_t level_words);
void free_pair(struct pair *p);

/* Runs a call on both and ends the program where they differ. */
struct answer run_both(struct pair *p, const struct call *c);

/* Ends the program; says on which call. */
_Noreturn void fail(const char *what, const struct pair *p, const struct call *c);

#endif
