/* Guontrem: tallies by docket, each a count and a price, in two tables of 32-bit words that the caller lends.

   Every function of the library is proved: on tables of any content, and with any numbers, it ends without fault, answers as said
   here and writes no word but those said here. What this header adds as inline functions, parts of an answer, readers and wrappers, is
   plain C and tested. docs/FORMAT.md has both tables word by word.

   What a caller must see to:
   - A table is a pointer and a count of words. The pointer is not null, also where the count is 0, and is aligned to 4 bytes.
   - The entry table, the level table, the word for a lookup's price and the rows of a scan do not overlap. The pointer to that word is not
     null either, and is aligned to 4 bytes.
   - No other call writes the tables meanwhile. Calls that only read (check, wake, lookups, scans, the readers) may run at the same time.
   A call allocates nothing, keeps nothing between calls and needs about 9 KiB of stack; of the C library it needs memset and memcpy.

   The plain functions take both tables with their lengths. From "A store as one struct" on, the same calls take a struct that has them:

       static uint32_t entries[GUONTREM_ENTRY_WORDS(40)], levels[GUONTREM_LEVEL_WORDS(3)];
       static struct guontrem_store store = GUONTREM_STORE(entries, levels);

       struct guontrem_settings settings = {3, 2, 4, 60};
       if (guontrem_store_make(&store, settings) != GUONTREM_ACCEPTED) ...
       if (guontrem_store_put(&store, clock, docket, count, price).refusal == GUONTREM_FULL) ...

   A grower's terminal gets guontrem_lookup_count and guontrem_scan_counts alone: what they answer, and the rows that they fill, have counts
   and stamps, no price, and nothing that hangs on one. Two stores whose puts differ in price alone answer both alike. */
#ifndef GUONTREM_H
#define GUONTREM_H

#include <stddef.h>
#include <stdint.h>

#ifdef __cplusplus
extern "C" {
#endif

/* The version, for `#if 12 <= GUONTREM_VERSION`. MAJOR is 0 until the first release; MINOR grows by one with every change that a caller
   can see: a name, an answer, a refusal or a word of the tables. */
#define GUONTREM_VERSION_MAJOR 0
#define GUONTREM_VERSION_MINOR 12
#define GUONTREM_VERSION (1000 * GUONTREM_VERSION_MAJOR + GUONTREM_VERSION_MINOR)

/* N, the slots: one record each. */
#define GUONTREM_MIN_SLOTS 1
#define GUONTREM_MAX_SLOTS 65535

/* L, the deepest level; levels are 0, the buffer, to L. */
#define GUONTREM_MIN_DEEPEST 2
#define GUONTREM_MAX_DEEPEST 6

/* T, the size ratio between one level and the next. */
#define GUONTREM_MIN_RATIO 2
#define GUONTREM_MAX_RATIO 10

/* B, the buffer's size in records. */
#define GUONTREM_MIN_BUFFER 1
#define GUONTREM_MAX_BUFFER 64

/* D, the term in ticks of the caller's clock: how long after a delete what it covered may stay in the tables. */
#define GUONTREM_MIN_TERM 1
#define GUONTREM_MAX_TERM UINT32_MAX

/* Dockets are 0 to this one; counts and prices are any 32 bits. */
#define GUONTREM_MAX_DOCKET 65535

/* Words of a slot, of the entry table for N slots and of the level table for the deepest level L. */
#define GUONTREM_SLOT_WORDS 5
#define GUONTREM_ENTRY_WORDS(slots) (GUONTREM_SLOT_WORDS * ((size_t)(slots) + 1))
#define GUONTREM_LEVEL_WORDS(deepest) (4 * ((size_t)(deepest) + 2))

/* Why a call is refused. Where two apply, the one that the function names first is the answer. */
enum guontrem_refusal {
    GUONTREM_ACCEPTED = 0,
    GUONTREM_ENTRY_LENGTH = 1, /* entry_words is not GUONTREM_ENTRY_WORDS(N) for an allowed N */
    GUONTREM_LEVEL_TABLE = 2,  /* a setting in the level table's first row is out of range, or level_words is not GUONTREM_LEVEL_WORDS(L) */
    GUONTREM_UNSOUND = 3,      /* the tables are not sound: no store */
    GUONTREM_DOCKET = 4,       /* a docket above GUONTREM_MAX_DOCKET, or lo above hi */
    GUONTREM_CLOCK = 5,        /* clock 0, or before the last accepted one */
    GUONTREM_SETTINGS = 6,     /* L, T, B or D out of range */
    GUONTREM_FULL = 7,         /* every slot holds a live docket, and the put's is none of them */
    GUONTREM_DATE = 10         /* date 0, or after the call's clock */
};

/* Makes a fresh store of the settings L, T, B and D; N follows from entry_words.
   Answers a refusal: ENTRY_LENGTH, SETTINGS, LEVEL_TABLE (by its length alone), in this order, or ACCEPTED.
   Tables: whatever they held, every slot is free, the last clock 0 and every level empty. Refused: as they were. */
uint32_t guontrem_make(uint32_t *entries, size_t entry_words, uint32_t *levels, size_t level_words,
                       uint32_t deepest, uint32_t ratio, uint32_t buffer, uint32_t term);

/* Checks the tables, as every other call but guontrem_make does first.
   Answers a refusal: ENTRY_LENGTH, LEVEL_TABLE, UNSOUND, in this order, or ACCEPTED.
   Tables: as they were. */
uint32_t guontrem_check(const uint32_t *entries, size_t entry_words, const uint32_t *levels, size_t level_words);

/* The timed calls. Each begins with the check, does its own part and ends with the pass: level after level, from the buffer to L-1, is
   merged into the next if it has too many records (the buffer B, level i more than B * T^i) or has a delete that is as old as the level's
   limit of time. A record that a newer one displaces goes in a merge and its slot is wiped.
   Answers a number to be read by guontrem_timed_refusal, guontrem_timed_merges and guontrem_timed_purged.
   Refusals: ENTRY_LENGTH, LEVEL_TABLE, UNSOUND, DOCKET (where dockets are given), CLOCK, DATE (where one is given), in this order;
   for a put then FULL.
   Tables: accepted, those of the store after the call, with its clock as the last. Refused: as they were; under FULL the levels
   are merged down, which no lookup and no scan can tell, and the last clock is as it was.
   Erasure, in a store that guontrem_make made and only these calls changed: once a delete was accepted and a call D or more ticks after
   it was accepted, both tables are word for word what they would be had an earlier put that the delete covers carried any other count
   or price. */

/* Puts a docket's count and price, in place of those it had. */
uint64_t guontrem_put(uint32_t *entries, size_t entry_words, uint32_t *levels, size_t level_words,
                      uint32_t clock, uint32_t docket, uint32_t count, uint32_t price);

/* Deletes a docket, live or not; never refused for lack of a slot. */
uint64_t guontrem_delete(uint32_t *entries, size_t entry_words, uint32_t *levels, size_t level_words,
                         uint32_t clock, uint32_t docket);

/* Deletes the dockets from lo to hi, both included; never refused for lack of a slot. */
uint64_t guontrem_delete_range(uint32_t *entries, size_t entry_words, uint32_t *levels, size_t level_words,
                               uint32_t clock, uint32_t lo, uint32_t hi);

/* Deletes, of the dockets from lo to hi, those whose put was at the date or before it; the date is from 1 to the clock. It covers every
   put there with such a clock, also one that a newer put already replaced. Never refused for lack of a slot. */
uint64_t guontrem_delete_range_dated(uint32_t *entries, size_t entry_words, uint32_t *levels, size_t level_words,
                                     uint32_t clock, uint32_t lo, uint32_t hi, uint32_t date);

/* Merges the buffer first, full or not. The term needs no flush. */
uint64_t guontrem_flush(uint32_t *entries, size_t entry_words, uint32_t *levels, size_t level_words, uint32_t clock);

/* Does the pass alone, so that what has come due is merged. */
uint64_t guontrem_tick(uint32_t *entries, size_t entry_words, uint32_t *levels, size_t level_words, uint32_t clock);

/* No clock: after every one. */
#define GUONTREM_NEVER UINT64_C(0x8000000000000000)

/* When to wake: the clock of the next merge that a delete makes due.
   Answers the first clock at which a level from the buffer to L-1 will have owed for its limit of time, GUONTREM_NEVER where none owes, and
   where the tables are refused GUONTREM_NEVER + the refusal; to be read by guontrem_wake_due, _refusal and _clock.
   Refusals: ENTRY_LENGTH, LEVEL_TABLE, UNSOUND, in this order.
   Tables: as they were.
   After an accepted timed call, ticks before that clock merge and purge nothing and change no word but the last clock, so a controller may
   sleep till then; a tick at it merges. It can lie past UINT32_MAX, where there is no tick. */
uint64_t guontrem_wake(const uint32_t *entries, size_t entry_words, const uint32_t *levels, size_t level_words);

/* Looks a docket up.
   Answers a number to be read by guontrem_lookup_refusal, _found, _count_of and _stamp, and the price in the lent word: 0 where the docket
   is absent or the lookup refused.
   Refusals: ENTRY_LENGTH, LEVEL_TABLE, UNSOUND, DOCKET, in this order.
   Tables: as they were. */
uint64_t guontrem_lookup(const uint32_t *entries, size_t entry_words, const uint32_t *levels, size_t level_words,
                         uint32_t docket, uint32_t *price);

/* A live docket, its count and price, and the clock of the put. */
struct guontrem_row {
    uint32_t docket, count, price, stamp;
};

/* Fills rows with the live dockets from lo to hi, ascending, as many as there is room for; row_count may be 0.
   Answers a number to be read by guontrem_scan_refusal, _count, _more and _next.
   Refusals: ENTRY_LENGTH, LEVEL_TABLE, UNSOUND, DOCKET, in this order.
   Tables: as they were. Rows past the count, and all rows of a refused scan: as they were. */
uint64_t guontrem_scan(const uint32_t *entries, size_t entry_words, const uint32_t *levels, size_t level_words,
                       uint32_t lo, uint32_t hi, struct guontrem_row *rows, size_t row_count);

/* The grower's lookup: guontrem_lookup without the price. Its number is the same, and so are its readers and refusals. */
uint64_t guontrem_lookup_count(const uint32_t *entries, size_t entry_words, const uint32_t *levels, size_t level_words,
                               uint32_t docket);

/* A live docket, its count and the clock of the put. */
struct guontrem_count_row {
    uint32_t docket, count, stamp;
};

/* The grower's scan: guontrem_scan into rows without the price. Its number is the same, and so are its readers and refusals. */
uint64_t guontrem_scan_counts(const uint32_t *entries, size_t entry_words, const uint32_t *levels, size_t level_words,
                              uint32_t lo, uint32_t hi, struct guontrem_count_row *rows, size_t row_count);

/* The readers of answers: each gives its part of every answer of every call. crates/c_packing/specs/Readers.antt defines what they
   compute, and crates/c_packing/proofs/ReadBack.antt proves it of that. */

/* A timed call's answer. Refused: merges and purged are 0. */
static inline uint32_t guontrem_timed_refusal(uint64_t answer) { return (uint32_t)(answer >> 40); }

/* The merges whose upper level had a record. */
static inline uint32_t guontrem_timed_merges(uint64_t answer) { return (uint32_t)(answer >> 32 & 0xff); }

/* How many records went: held before + written - held after. */
static inline uint32_t guontrem_timed_purged(uint64_t answer) { return (uint32_t)answer; }

/* When to wake: whether a merge will be due. */
static inline int guontrem_wake_due(uint64_t answer) { return answer >> 63 == 0; }

static inline uint32_t guontrem_wake_refusal(uint64_t answer) { return guontrem_wake_due(answer) ? 0 : (uint32_t)answer; }

/* When it will be; GUONTREM_NEVER where none will, or refused. */
static inline uint64_t guontrem_wake_clock(uint64_t answer) { return guontrem_wake_due(answer) ? answer : GUONTREM_NEVER; }

/* A lookup's answer, the hall's or the grower's. Absent or refused: found, count and stamp are 0. */
static inline int guontrem_lookup_found(uint64_t answer) { return answer >> 32 != 0; }

static inline uint32_t guontrem_lookup_refusal(uint64_t answer) { return guontrem_lookup_found(answer) ? 0 : (uint32_t)answer; }

/* Not guontrem_lookup_count, which is the grower's call. */
static inline uint32_t guontrem_lookup_count_of(uint64_t answer) { return guontrem_lookup_found(answer) ? (uint32_t)answer : 0; }

/* The clock of the put that is found. */
static inline uint32_t guontrem_lookup_stamp(uint64_t answer) { return (uint32_t)(answer >> 32); }

/* A scan's answer, the hall's or the grower's. Refused: count, more and next are 0. */
static inline uint32_t guontrem_scan_refusal(uint64_t answer) { return (uint32_t)(answer >> 56); }

/* How many rows were filled. */
static inline uint32_t guontrem_scan_count(uint64_t answer) { return (uint32_t)answer; }

/* Whether live dockets outnumber the rows. */
static inline int guontrem_scan_more(uint64_t answer) { return (int)(answer >> 48 & 1); }

/* With more, the first live docket that has no row, from which another scan goes on; without, 0. */
static inline uint32_t guontrem_scan_next(uint64_t answer) { return (uint32_t)(answer >> 32 & 0xffff); }

/* The readers of tables: what the tables say of themselves, without a check. It is true of tables that pass guontrem_check. Of others it is
   whatever stands in their words, and 0 where a table is too short to have them. */

/* The clock of the last accepted timed call; 0 in a fresh store. */
static inline uint32_t guontrem_read_clock(const uint32_t *entries, size_t entry_words) { return 2 <= entry_words ? entries[1] : 0; }

/* N, the slots, by the entry table's length; 0 where it is the length for no allowed N. */
static inline uint32_t guontrem_read_slots(size_t entry_words) {
    int allowed = entry_words % GUONTREM_SLOT_WORDS == 0 && GUONTREM_ENTRY_WORDS(GUONTREM_MIN_SLOTS) <= entry_words &&
                  entry_words <= GUONTREM_ENTRY_WORDS(GUONTREM_MAX_SLOTS);
    return allowed ? (uint32_t)(entry_words / GUONTREM_SLOT_WORDS - 1) : 0;
}

/* L, T, B and D. */
struct guontrem_settings {
    uint32_t deepest, ratio, buffer, term;
};

/* The settings that the store was made with. */
static inline struct guontrem_settings guontrem_read_settings(const uint32_t *levels, size_t level_words) {
    struct guontrem_settings settings = {0, 0, 0, 0};
    if (level_words < 4) return settings;
    settings.deepest = levels[0], settings.ratio = levels[1], settings.buffer = levels[2], settings.term = levels[3];
    return settings;
}

/* All parts of an answer at once, each as its function above gives it. */
struct guontrem_timed_answer {
    uint32_t refusal, merges, purged;
};

struct guontrem_wake_answer {
    uint32_t refusal;
    int due;
    uint64_t clock;
};

struct guontrem_lookup_answer {
    uint32_t refusal;
    int found;
    uint32_t count, price, stamp;
};

struct guontrem_count_answer {
    uint32_t refusal;
    int found;
    uint32_t count, stamp;
};

struct guontrem_scan_answer {
    uint32_t refusal, count;
    int more;
    uint32_t next;
};

static inline struct guontrem_timed_answer guontrem_timed_parts(uint64_t answer) {
    struct guontrem_timed_answer parts = {guontrem_timed_refusal(answer), guontrem_timed_merges(answer), guontrem_timed_purged(answer)};
    return parts;
}

static inline struct guontrem_wake_answer guontrem_wake_parts(uint64_t answer) {
    struct guontrem_wake_answer parts = {guontrem_wake_refusal(answer), guontrem_wake_due(answer), guontrem_wake_clock(answer)};
    return parts;
}

static inline struct guontrem_lookup_answer guontrem_lookup_parts(uint64_t answer, uint32_t price) {
    struct guontrem_lookup_answer parts = {guontrem_lookup_refusal(answer), guontrem_lookup_found(answer),
                                           guontrem_lookup_count_of(answer), price, guontrem_lookup_stamp(answer)};
    return parts;
}

static inline struct guontrem_count_answer guontrem_count_parts(uint64_t answer) {
    struct guontrem_count_answer parts = {guontrem_lookup_refusal(answer), guontrem_lookup_found(answer),
                                          guontrem_lookup_count_of(answer), guontrem_lookup_stamp(answer)};
    return parts;
}

static inline struct guontrem_scan_answer guontrem_scan_parts(uint64_t answer) {
    struct guontrem_scan_answer parts = {guontrem_scan_refusal(answer), guontrem_scan_count(answer),
                                         guontrem_scan_more(answer), guontrem_scan_next(answer)};
    return parts;
}

/* A store as one struct: two lent tables and their lengths in words. Each function above that takes tables has one here that takes the
   struct, guontrem_store_put for guontrem_put and so on: what is said there of refusals, of the answer and of the tables holds here.
   The struct itself is never written; functions that may write the tables take a pointer to it, those that only read a pointer to const. */
struct guontrem_store {
    uint32_t *entries;
    size_t entry_words;
    uint32_t *levels;
    size_t level_words;
};

/* The store of two arrays, to initialize a struct with. A pointer is no array: its store has 1 or 2 words and is refused, ENTRY_LENGTH. */
#define GUONTREM_STORE(entries, levels) \
    {(entries), sizeof(entries) / sizeof *(entries), (levels), sizeof(levels) / sizeof *(levels)}

static inline uint32_t guontrem_store_make(struct guontrem_store *store, struct guontrem_settings settings) {
    return guontrem_make(store->entries, store->entry_words, store->levels, store->level_words,
                         settings.deepest, settings.ratio, settings.buffer, settings.term);
}

static inline uint32_t guontrem_store_check(const struct guontrem_store *store) {
    return guontrem_check(store->entries, store->entry_words, store->levels, store->level_words);
}

static inline struct guontrem_timed_answer guontrem_store_put(struct guontrem_store *store, uint32_t clock, uint32_t docket,
                                                              uint32_t count, uint32_t price) {
    return guontrem_timed_parts(
        guontrem_put(store->entries, store->entry_words, store->levels, store->level_words, clock, docket, count, price));
}

static inline struct guontrem_timed_answer guontrem_store_delete(struct guontrem_store *store, uint32_t clock, uint32_t docket) {
    return guontrem_timed_parts(
        guontrem_delete(store->entries, store->entry_words, store->levels, store->level_words, clock, docket));
}

static inline struct guontrem_timed_answer guontrem_store_delete_range(struct guontrem_store *store, uint32_t clock, uint32_t lo,
                                                                       uint32_t hi) {
    return guontrem_timed_parts(
        guontrem_delete_range(store->entries, store->entry_words, store->levels, store->level_words, clock, lo, hi));
}

static inline struct guontrem_timed_answer guontrem_store_delete_range_dated(struct guontrem_store *store, uint32_t clock, uint32_t lo,
                                                                             uint32_t hi, uint32_t date) {
    return guontrem_timed_parts(guontrem_delete_range_dated(store->entries, store->entry_words, store->levels, store->level_words,
                                                            clock, lo, hi, date));
}

static inline struct guontrem_timed_answer guontrem_store_flush(struct guontrem_store *store, uint32_t clock) {
    return guontrem_timed_parts(guontrem_flush(store->entries, store->entry_words, store->levels, store->level_words, clock));
}

static inline struct guontrem_timed_answer guontrem_store_tick(struct guontrem_store *store, uint32_t clock) {
    return guontrem_timed_parts(guontrem_tick(store->entries, store->entry_words, store->levels, store->level_words, clock));
}

static inline struct guontrem_wake_answer guontrem_store_wake(const struct guontrem_store *store) {
    return guontrem_wake_parts(guontrem_wake(store->entries, store->entry_words, store->levels, store->level_words));
}

static inline struct guontrem_lookup_answer guontrem_store_lookup(const struct guontrem_store *store, uint32_t docket) {
    uint32_t price = 0;
    uint64_t answer = guontrem_lookup(store->entries, store->entry_words, store->levels, store->level_words, docket, &price);
    return guontrem_lookup_parts(answer, price);
}

static inline struct guontrem_scan_answer guontrem_store_scan(const struct guontrem_store *store, uint32_t lo, uint32_t hi,
                                                              struct guontrem_row *rows, size_t row_count) {
    return guontrem_scan_parts(
        guontrem_scan(store->entries, store->entry_words, store->levels, store->level_words, lo, hi, rows, row_count));
}

static inline struct guontrem_count_answer guontrem_store_lookup_count(const struct guontrem_store *store, uint32_t docket) {
    return guontrem_count_parts(
        guontrem_lookup_count(store->entries, store->entry_words, store->levels, store->level_words, docket));
}

static inline struct guontrem_scan_answer guontrem_store_scan_counts(const struct guontrem_store *store, uint32_t lo, uint32_t hi,
                                                                     struct guontrem_count_row *rows, size_t row_count) {
    return guontrem_scan_parts(
        guontrem_scan_counts(store->entries, store->entry_words, store->levels, store->level_words, lo, hi, rows, row_count));
}

static inline uint32_t guontrem_store_clock(const struct guontrem_store *store) {
    return guontrem_read_clock(store->entries, store->entry_words);
}

static inline uint32_t guontrem_store_slots(const struct guontrem_store *store) { return guontrem_read_slots(store->entry_words); }

static inline struct guontrem_settings guontrem_store_settings(const struct guontrem_store *store) {
    return guontrem_read_settings(store->levels, store->level_words);
}

#ifdef __cplusplus
}
#endif

#endif
