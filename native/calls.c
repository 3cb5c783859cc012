/* Every kind of call, by the archive and in plain C: what the tests compare and the benchmark times. */
#include "calls.h"

#include "native_check.h"
#include "native_store.h"

#include <stdlib.h>

uint64_t proved_call(const struct store *s, const struct call *c, const struct lent *lent) {
    uint32_t *e = s->entries, *l = s->levels;
    size_t ne = s->entry_words, nl = s->level_words;
    switch (c->kind) {
    case MAKE: return guontrem_make(e, ne, l, nl, c->settings.deepest, c->settings.ratio, c->settings.buffer, c->settings.term);
    case CHECK: return guontrem_check(e, ne, l, nl);
    case WAKE: return guontrem_wake(e, ne, l, nl);
    case LOOKUP: return guontrem_lookup(e, ne, l, nl, c->lo, lent->price);
    case LOOKUP_COUNT: return guontrem_lookup_count(e, ne, l, nl, c->lo);
    case SCAN: return guontrem_scan(e, ne, l, nl, c->lo, c->hi, lent->rows, c->row_count);
    case SCAN_COUNTS: return guontrem_scan_counts(e, ne, l, nl, c->lo, c->hi, lent->count_rows, c->row_count);
    case PUT: return guontrem_put(e, ne, l, nl, c->clock, c->lo, c->count, c->price);
    case DELETE: return guontrem_delete(e, ne, l, nl, c->clock, c->lo);
    case DELETE_RANGE: return guontrem_delete_range(e, ne, l, nl, c->clock, c->lo, c->hi);
    case DELETE_RANGE_DATED: return guontrem_delete_range_dated(e, ne, l, nl, c->clock, c->lo, c->hi, c->date);
    case FLUSH: return guontrem_flush(e, ne, l, nl, c->clock);
    case TICK: return guontrem_tick(e, ne, l, nl, c->clock);
    default: abort();
    }
}

static uint64_t of_timed(struct native_answer a) { return (uint64_t)a.refusal << 40 | (uint64_t)a.merges << 32 | a.purged; }

static uint64_t of_wake(struct native_wake w) { return w.due ? w.clock : (uint64_t)1 << 63 | w.refusal; }

static uint64_t of_found(struct native_found f, uint32_t *price) {
    *price = f.price;
    return f.found ? (uint64_t)f.stamp << 32 | f.count : f.refusal;
}

static uint64_t of_counted(struct native_counted f) { return f.found ? (uint64_t)f.stamp << 32 | f.count : f.refusal; }

static uint64_t of_scanned(struct native_scanned s) { return (uint64_t)s.refusal << 56 | (uint64_t)s.more << 48 | (uint64_t)s.next << 32 | s.count; }

uint64_t native_call(const struct store *s, const struct call *c, const struct lent *lent) {
    uint32_t *e = s->entries, *l = s->levels;
    size_t ne = s->entry_words, nl = s->level_words;
    switch (c->kind) {
    case MAKE: return native_make(e, ne, l, nl, c->settings.deepest, c->settings.ratio, c->settings.buffer, c->settings.term);
    case CHECK: return native_check(e, ne, l, nl);
    case WAKE: return of_wake(native_wake(e, ne, l, nl));
    case LOOKUP: return of_found(native_lookup(e, ne, l, nl, c->lo), lent->price);
    case LOOKUP_COUNT: return of_counted(native_lookup_count(e, ne, l, nl, c->lo));
    case SCAN: return of_scanned(native_scan(e, ne, l, nl, c->lo, c->hi, lent->rows, c->row_count));
    case SCAN_COUNTS: return of_scanned(native_scan_counts(e, ne, l, nl, c->lo, c->hi, lent->count_rows, c->row_count));
    case PUT: return of_timed(native_put(e, ne, l, nl, c->clock, c->lo, c->count, c->price));
    case DELETE: return of_timed(native_delete(e, ne, l, nl, c->clock, c->lo));
    case DELETE_RANGE: return of_timed(native_delete_range(e, ne, l, nl, c->clock, c->lo, c->hi));
    case DELETE_RANGE_DATED: return of_timed(native_delete_range_dated(e, ne, l, nl, c->clock, c->lo, c->hi, c->date));
    case FLUSH: return of_timed(native_flush(e, ne, l, nl, c->clock));
    case TICK: return of_timed(native_tick(e, ne, l, nl, c->clock));
    default: abort();
    }
}
