/* The header's struct, its wrappers and the readers, beside the plain functions. */
#include "wrappers.h"

#include "counts.h"
#include "scans.h"

#include <stdlib.h>
#include <string.h>

static struct answer of_timed(struct guontrem_timed_answer a) { return (struct answer){a.refusal, {a.merges, a.purged}}; }

static struct answer of_wake(struct guontrem_wake_answer a) { return of_clock(a.refusal, a.due, a.clock); }

static struct answer of_lookup(struct guontrem_lookup_answer a) { return (struct answer){a.refusal, {(uint32_t)a.found, a.count, a.stamp, a.price}}; }

static struct answer of_count(struct guontrem_count_answer a) { return (struct answer){a.refusal, {(uint32_t)a.found, a.count, a.stamp}}; }

static struct answer of_scan(struct guontrem_scan_answer a) { return (struct answer){a.refusal, {a.count, (uint32_t)a.more, a.next}}; }

static struct answer wrapped_call(struct guontrem_store *s, const struct call *c, const struct lent *lent) {
    struct guontrem_settings settings = {c->settings.deepest, c->settings.ratio, c->settings.buffer, c->settings.term};
    switch (c->kind) {
    case MAKE: return (struct answer){guontrem_store_make(s, settings), {0}};
    case CHECK: return (struct answer){guontrem_store_check(s), {0}};
    case WAKE: return of_wake(guontrem_store_wake(s));
    case LOOKUP: return of_lookup(guontrem_store_lookup(s, c->lo));
    case LOOKUP_COUNT: return of_count(guontrem_store_lookup_count(s, c->lo));
    case SCAN: return of_scan(guontrem_store_scan(s, c->lo, c->hi, lent->rows, c->row_count));
    case SCAN_COUNTS: return of_scan(guontrem_store_scan_counts(s, c->lo, c->hi, lent->count_rows, c->row_count));
    case PUT: return of_timed(guontrem_store_put(s, c->clock, c->lo, c->count, c->price));
    case DELETE: return of_timed(guontrem_store_delete(s, c->clock, c->lo));
    case DELETE_RANGE: return of_timed(guontrem_store_delete_range(s, c->clock, c->lo, c->hi));
    case DELETE_RANGE_DATED: return of_timed(guontrem_store_delete_range_dated(s, c->clock, c->lo, c->hi, c->date));
    case FLUSH: return of_timed(guontrem_store_flush(s, c->clock));
    case TICK: return of_timed(guontrem_store_tick(s, c->clock));
    default: abort();
    }
}

/* A word of a table, 0 where it has no such word. */
static uint32_t word_of(const uint32_t *table, size_t words, size_t at) { return at < words ? table[at] : 0; }

/* On any tables: the readers say what the words say, and tables too short for a word have 0 there. */
static bool readers_agree(const struct guontrem_store *s) {
    struct guontrem_settings read = guontrem_store_settings(s);
    const uint32_t settings[] = {read.deepest, read.ratio, read.buffer, read.term};
    for (size_t i = 0; i < 4; i++)
        if (settings[i] != (s->level_words < 4 ? 0 : word_of(s->levels, s->level_words, i))) return false;
    uint32_t slots = guontrem_store_slots(s), refusal = guontrem_store_check(s);
    if ((slots == 0) != (refusal == GUONTREM_ENTRY_LENGTH)) return false;
    if (slots != 0 && GUONTREM_ENTRY_WORDS(slots) != s->entry_words) return false;
    if (refusal == GUONTREM_ACCEPTED && GUONTREM_LEVEL_WORDS(read.deepest) != s->level_words) return false;
    return guontrem_store_clock(s) == word_of(s->entries, s->entry_words, 1);
}

static struct store copy_of(const struct store *s) {
    struct store copy = new_store(s->entry_words, s->level_words);
    copy_words(&copy, s);
    return copy;
}

void compare_wrapped(const struct pair *p, const struct call *c) {
    struct store plain = copy_of(&p->before), wrapped = copy_of(&p->before);
    struct guontrem_store lent = {wrapped.entries, wrapped.entry_words, wrapped.levels, wrapped.level_words};
    struct lent plain_rows = lend_rows(c->kind, c->row_count), rows = lend_rows(c->kind, c->row_count);
    uint32_t price = 0;
    plain_rows.price = &price;
    uint64_t number = proved_call(&plain, c, &plain_rows);
    struct answer expected = unpack_plainly(c->kind, number, price);
    if (!readers_agree(&lent)) fail("a reader of the header reads something else", p, c);
    struct answer a = wrapped_call(&lent, c, &rows);
    if (memcmp(&a, &expected, sizeof a) != 0) fail("a wrapper of the header answers something else", p, c);
    if (!same_words(&wrapped, &plain) || !guards_hold(&wrapped)) fail("a wrapper of the header writes other words", p, c);
    if (!same_rows(&rows, &plain_rows, c->row_count)) fail("a wrapper of the header fills other rows", p, c);
    if (!readers_agree(&lent)) fail("a reader of the header reads something else after the call", p, c);
    counts.wrapped++;
    free_rows(&plain_rows);
    free_rows(&rows);
    free_store(&plain);
    free_store(&wrapped);
}

static bool settings_are(const struct guontrem_store *s, uint32_t deepest, uint32_t ratio, uint32_t buffer, uint32_t term) {
    struct guontrem_settings read = guontrem_store_settings(s);
    return read.deepest == deepest && read.ratio == ratio && read.buffer == buffer && read.term == term;
}

static void check_life(void) {
    static uint32_t entries[GUONTREM_ENTRY_WORDS(6)], levels[GUONTREM_LEVEL_WORDS(3)];
    static struct guontrem_store store = GUONTREM_STORE(entries, levels);
    struct guontrem_settings settings = {3, 2, 2, 9}, wrong = {3, 2, 65, 9};
    memset(entries, 0xa5, sizeof entries);
    require(store.entries == entries && store.entry_words == 35 && store.levels == levels && store.level_words == 20, "the initializer's tables");
    require(guontrem_store_make(&store, wrong) == GUONTREM_SETTINGS, "settings out of range");
    require(guontrem_store_make(&store, settings) == GUONTREM_ACCEPTED, "a making");
    require(settings_are(&store, 3, 2, 2, 9) && guontrem_store_slots(&store) == 6, "the settings of a fresh store");
    require(guontrem_store_clock(&store) == 0, "the clock of a fresh store");
    require(guontrem_store_put(&store, 5, 7, 70, 3).refusal == GUONTREM_ACCEPTED && guontrem_store_clock(&store) == 5, "the clock of a put");
    require(guontrem_store_lookup(&store, 7).count == 70 && guontrem_store_lookup(&store, 7).price == 3, "count and price of a put");
    require(guontrem_store_lookup_count(&store, 7).count == 70 && guontrem_store_lookup_count(&store, 7).stamp == 5, "the grower's count and stamp");
    require(guontrem_store_lookup(&store, 8).price == 0 && guontrem_store_lookup(&store, 65536).price == 0, "the price of no docket");
    require(guontrem_store_tick(&store, 4).refusal == GUONTREM_CLOCK && guontrem_store_clock(&store) == 5, "the clock after a refused tick");
    require(guontrem_store_wake(&store).clock == GUONTREM_NEVER && !guontrem_store_wake(&store).due, "no clock where nothing is owed");
    require(guontrem_store_delete(&store, 6, 7).refusal == GUONTREM_ACCEPTED && guontrem_store_wake(&store).clock == 7, "the buffer's clock, 6 + 1");
    require(guontrem_store_tick(&store, UINT32_MAX).refusal == GUONTREM_ACCEPTED && guontrem_store_clock(&store) == UINT32_MAX, "the last clock there is");
    require(settings_are(&store, 3, 2, 2, 9), "the settings after calls");
}

/* Lengths alone, so no table need be there. */
static void check_lengths(void) {
    for (uint32_t slots = GUONTREM_MIN_SLOTS; slots <= GUONTREM_MAX_SLOTS; slots++) {
        require(guontrem_read_slots(GUONTREM_ENTRY_WORDS(slots)) == slots, "the slots of an allowed length");
        require(guontrem_read_slots(GUONTREM_ENTRY_WORDS(slots) + 1 + slots % 4) == 0, "the slots of a length that is no multiple of five");
    }
    require(guontrem_read_slots(0) == 0 && guontrem_read_slots(GUONTREM_ENTRY_WORDS(0)) == 0, "the slots of too short a table");
    require(guontrem_read_slots(GUONTREM_ENTRY_WORDS(GUONTREM_MAX_SLOTS + 1)) == 0 && guontrem_read_slots(SIZE_MAX / GUONTREM_SLOT_WORDS * GUONTREM_SLOT_WORDS) == 0, "the slots of too long a table");
}

void check_wrappers(void) {
    check_life();
    check_lengths();
    require(GUONTREM_VERSION == 1000 * GUONTREM_VERSION_MAJOR + GUONTREM_VERSION_MINOR && GUONTREM_VERSION != 0, "the version");
}
