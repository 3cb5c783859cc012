/* The calls, written plainly in C: chains merged in place behind a tail pointer. */
#include "native_store.h"

#include "native_check.h"

#include <stdbool.h>
#include <string.h>

enum { PUT = 1, DELETE = 2, RANGE = 3, LAST_DOCKET = 65535, MOST_LEVELS = 7, WORDS = GUONTREM_SLOT_WORDS };

enum native_coverage native_coverage = NATIVE_TWO_PLACES;
int native_checks = 1;

struct level {
    uint32_t points, ranges, held, owed;
};

static uint32_t next_of(const uint32_t *e, uint32_t s) { return e[WORDS * s] & 65535; }
static uint32_t kind_of(const uint32_t *e, uint32_t s) { return e[WORDS * s] >> 16; }
static uint32_t lo_of(const uint32_t *e, uint32_t s) { return e[WORDS * s + 1] & 65535; }
static uint32_t hi_of(const uint32_t *e, uint32_t s) { return e[WORDS * s + 1] >> 16; }
static uint32_t count_of(const uint32_t *e, uint32_t s) { return e[WORDS * s + 2]; }
static uint32_t date_of(const uint32_t *e, uint32_t s) { return e[WORDS * s + 2]; }
static uint32_t stamp_of(const uint32_t *e, uint32_t s) { return e[WORDS * s + 3]; }
static uint32_t price_of(const uint32_t *e, uint32_t s) { return e[WORDS * s + 4]; }
static uint32_t key_of(const uint32_t *e, uint32_t s) { return lo_of(e, s) << 16 | hi_of(e, s); }

static void set_next(uint32_t *e, uint32_t s, uint32_t next) { e[WORDS * s] = (e[WORDS * s] & ~65535u) | next; }

static void set_tally(uint32_t *e, uint32_t s, uint32_t count, uint32_t price, uint32_t stamp) {
    e[WORDS * s + 2] = count, e[WORDS * s + 3] = stamp, e[WORDS * s + 4] = price;
}

static void release(uint32_t *e, uint32_t s) {
    e[WORDS * s] = e[0], e[WORDS * s + 1] = e[WORDS * s + 2] = e[WORDS * s + 3] = e[WORDS * s + 4] = 0;
    e[0] = s;
}

static struct level *row(uint32_t *l, uint32_t i) { return (struct level *)(l + 4 * (i + 1)); }

static uint32_t later(uint32_t a, uint32_t b) { return a < b ? b : a; }

static bool walk_covers(const uint32_t *e, uint32_t r, uint32_t key, uint32_t stamp) {
    for (; r != 0 && lo_of(e, r) <= key; r = next_of(e, r))
        if (key <= hi_of(e, r) && stamp <= date_of(e, r)) return true;
    return false;
}

/* Two places in a chain of ranges: the first that has not ended, and the first behind it that has not. So one wide old range over many
   narrow ones does not keep those that have ended from being left behind. */
struct front {
    uint32_t first, behind;
};

static struct front front_at(const uint32_t *e, uint32_t r) { return (struct front){r, r == 0 ? 0 : next_of(e, r)}; }

static uint32_t skip_ended(const uint32_t *e, uint32_t r, uint32_t key) {
    while (r != 0 && hi_of(e, r) < key) r = next_of(e, r);
    return r;
}

/* Whether a range covers a record of the docket and stamp; dockets are asked for in ascending order. */
static bool front_covers(const uint32_t *e, struct front *f, uint32_t key, uint32_t stamp) {
    if (f->first == 0 || key < lo_of(e, f->first)) return false;
    if (hi_of(e, f->first) < key) *f = front_at(e, skip_ended(e, f->behind, key));
    if (native_coverage == NATIVE_TWO_PLACES) f->behind = skip_ended(e, f->behind, key);
    if (f->first == 0 || key < lo_of(e, f->first)) return false;
    return stamp <= date_of(e, f->first) || walk_covers(e, f->behind, key, stamp);
}

/* Lower points that the upper level leaves, merged with its points. */
static uint32_t merge_points(uint32_t *e, uint32_t x, uint32_t r, uint32_t y, uint32_t *gone) {
    uint32_t head = 0, tail = 0;
    struct front front = front_at(e, r);
    while (x != 0 || y != 0) {
        uint32_t at;
        if (y == 0 || (x != 0 && lo_of(e, x) < lo_of(e, y))) {
            at = x, x = next_of(e, x);
        } else {
            uint32_t key = lo_of(e, y);
            bool goes = (x != 0 && lo_of(e, x) == key) || front_covers(e, &front, key, stamp_of(e, y));
            at = y, y = next_of(e, y);
            if (goes) {
                release(e, at), ++*gone;
                continue;
            }
        }
        if (tail != 0) set_next(e, tail, at);
        else head = at;
        tail = at;
    }
    if (tail != 0) set_next(e, tail, 0);
    return head;
}

/* Of two alike the upper one stays, with the later date and the later stamp. */
static uint32_t merge_ranges(uint32_t *e, uint32_t x, uint32_t y, uint32_t *gone) {
    uint32_t head = 0, tail = 0;
    while (x != 0 || y != 0) {
        uint32_t at;
        if (y == 0 || (x != 0 && key_of(e, x) < key_of(e, y))) {
            at = x, x = next_of(e, x);
        } else if (x != 0 && key_of(e, x) == key_of(e, y)) {
            e[WORDS * x + 2] = later(date_of(e, x), date_of(e, y)), e[WORDS * x + 3] = later(stamp_of(e, x), stamp_of(e, y));
            at = y, y = next_of(e, y);
            release(e, at), ++*gone;
            continue;
        } else {
            at = y, y = next_of(e, y);
        }
        if (tail != 0) set_next(e, tail, at);
        else head = at;
        tail = at;
    }
    if (tail != 0) set_next(e, tail, 0);
    return head;
}

static uint32_t earlier(uint32_t a, uint32_t b) { return a == 0 || (b != 0 && b < a) ? b : a; }

/* Cells of a chain from lo to hi with a stamp up to the date go; the deletes among them only, or all. */
static uint32_t drop(uint32_t *e, uint32_t head, uint32_t lo, uint32_t hi, uint32_t date, bool deletes, uint32_t *gone) {
    uint32_t prior = 0;
    for (uint32_t at = head, next; at != 0; at = next) {
        next = next_of(e, at);
        if (lo <= lo_of(e, at) && lo_of(e, at) <= hi && stamp_of(e, at) <= date && (!deletes || kind_of(e, at) == DELETE)) {
            if (prior != 0) set_next(e, prior, next);
            else head = next;
            release(e, at), ++*gone;
        } else {
            prior = at;
        }
    }
    return head;
}

static uint32_t merge_level(uint32_t *e, uint32_t *l, uint32_t i) {
    struct level u = *row(l, i), *v = row(l, i + 1);
    uint32_t gone = 0;
    v->points = merge_points(e, u.points, u.ranges, v->points, &gone);
    v->ranges = merge_ranges(e, u.ranges, v->ranges, &gone);
    v->owed = earlier(u.owed, v->owed);
    if (i + 1 == l[0]) {
        v->points = drop(e, v->points, 0, LAST_DOCKET, UINT32_MAX, true, &gone);
        v->ranges = drop(e, v->ranges, 0, LAST_DOCKET, UINT32_MAX, false, &gone);
        v->owed = 0;
    }
    v->held += u.held - gone;
    *row(l, i) = (struct level){0, 0, 0, 0};
    return u.held != 0;
}

static uint64_t power(uint64_t t, uint32_t i) { return i == 0 ? 1 : t * power(t, i - 1); }

/* The limit of a level, by the power of the level below it; T^L - 1 divides every limit. */
static uint64_t limit_of(const uint32_t *l, uint64_t below, uint64_t divisor) { return (uint64_t)l[3] * (below - 1) / divisor; }

/* Whether level i is due: T^i is carried down to it, and T^(i+1) is the level's below. */
static bool is_due(uint32_t *l, uint32_t i, uint64_t carried, uint64_t below, uint64_t divisor, uint32_t clock) {
    const struct level *v = row(l, i);
    if (i == 0 ? l[2] <= v->held : l[2] * carried < v->held) return true;
    return v->owed != 0 && limit_of(l, below, divisor) <= clock - v->owed;
}

static uint32_t held_all(uint32_t *l) {
    uint32_t held = 0;
    for (uint32_t i = 0; i <= l[0]; i++) held += row(l, i)->held;
    return held;
}

static struct native_answer refused(uint32_t number) { return (struct native_answer){number, 0, 0}; }

static struct native_answer finish(uint32_t *e, uint32_t *l, uint32_t clock, uint32_t before, uint32_t merges) {
    uint64_t carried = 1, below, divisor = power(l[1], l[0]) - 1;
    for (uint32_t i = 0; i < l[0]; i++, carried = below) {
        below = carried * l[1];
        if (is_due(l, i, carried, below, divisor, clock)) merges += merge_level(e, l, i);
    }
    e[1] = clock;
    return (struct native_answer){0, merges, before - held_all(l)};
}

static uint32_t refusal_of(const uint32_t *e, size_t ne, const uint32_t *l, size_t nl, uint32_t clock, uint32_t lo, uint32_t hi) {
    uint32_t refusal = native_checks ? native_check(e, ne, l, nl) : 0;
    if (refusal != 0) return refusal;
    if (hi > LAST_DOCKET || hi < lo) return 4;
    return clock == 0 || clock < e[1] ? 5 : 0;
}

static uint32_t find_span(const uint32_t *e, uint32_t at, uint32_t lo, uint32_t hi) {
    while (at != 0 && (lo_of(e, at) != lo || hi_of(e, at) != hi)) at = next_of(e, at);
    return at;
}

static uint32_t find_within(const uint32_t *e, uint32_t at, uint32_t lo, uint32_t hi) {
    while (at != 0 && lo_of(e, at) < lo) at = next_of(e, at);
    return at != 0 && lo_of(e, at) <= hi ? at : 0;
}

static bool frees_point(const uint32_t *e, uint32_t at, uint32_t lo, uint32_t hi, uint32_t date) {
    for (at = find_within(e, at, lo, hi); at != 0 && lo_of(e, at) <= hi; at = next_of(e, at))
        if (stamp_of(e, at) <= date) return true;
    return false;
}

static uint32_t insert(uint32_t *e, uint32_t head, uint32_t slot) {
    uint32_t prior = 0, at = head;
    while (at != 0 && key_of(e, at) < key_of(e, slot)) prior = at, at = next_of(e, at);
    set_next(e, slot, at);
    if (prior == 0) return slot;
    set_next(e, prior, slot);
    return head;
}

/* What a write puts into its slot; the word is a put's count or a range delete's date. */
struct record {
    uint32_t kind, lo, hi, word, price;
};

/* The date up to which a write makes points go: put and delete go by docket alone. */
static uint32_t date_in(struct record r) { return r.kind == RANGE ? r.word : UINT32_MAX; }

static void enter(uint32_t *e, uint32_t *l, uint32_t clock, struct record r) {
    struct level *b = row(l, 0);
    uint32_t gone = 0;
    b->points = drop(e, b->points, r.lo, r.hi, date_in(r), false, &gone);
    if (r.kind == RANGE) {
        uint32_t same = find_span(e, b->ranges, r.lo, r.hi), prior = 0;
        if (same != 0) {
            for (uint32_t at = b->ranges; at != same; at = next_of(e, at)) prior = at;
            if (prior != 0) set_next(e, prior, next_of(e, same));
            else b->ranges = next_of(e, same);
            r.word = later(r.word, date_of(e, same));
            release(e, same), gone++;
        }
    }
    uint32_t slot = e[0];
    e[0] = next_of(e, slot);
    e[WORDS * slot] = r.kind << 16, e[WORDS * slot + 1] = r.lo | r.hi << 16;
    set_tally(e, slot, r.word, r.price, clock);
    if (r.kind == RANGE) b->ranges = insert(e, b->ranges, slot);
    else b->points = insert(e, b->points, slot);
    b->held = b->held + 1 - gone;
    if (r.kind != PUT) b->owed = earlier(clock, b->owed);
}

static struct native_answer call_write(uint32_t *e, size_t ne, uint32_t *l, size_t nl, uint32_t clock, struct record r) {
    uint32_t refusal = refusal_of(e, ne, l, nl, clock, r.lo, r.hi), date = date_in(r);
    if (refusal != 0) return refused(refusal);
    if (r.kind == RANGE && (date == 0 || clock < date)) return refused(10);
    uint32_t before = held_all(l) + 1, merges = 0;
    struct level *b = row(l, 0);
    if (e[0] == 0 && !frees_point(e, b->points, r.lo, r.hi, date) && !(r.kind == RANGE && find_span(e, b->ranges, r.lo, r.hi) != 0)) {
        for (uint32_t i = 0; i < l[0]; i++) merges += merge_level(e, l, i);
        if (e[0] == 0) {
            struct level *deep = row(l, l[0]);
            uint32_t gone = 0;
            if (r.kind == PUT) {
                uint32_t slot = find_span(e, deep->points, r.lo, r.lo);
                if (slot == 0) return refused(7);
                set_tally(e, slot, r.word, r.price, clock);
            } else {
                deep->points = drop(e, deep->points, r.lo, r.hi, date, false, &gone);
                deep->held -= gone;
            }
            return finish(e, l, clock, before, merges);
        }
    }
    enter(e, l, clock, r);
    return finish(e, l, clock, before, merges);
}

struct native_answer native_put(uint32_t *e, size_t ne, uint32_t *l, size_t nl, uint32_t clock, uint32_t docket, uint32_t count, uint32_t price) {
    return call_write(e, ne, l, nl, clock, (struct record){PUT, docket, docket, count, price});
}

struct native_answer native_delete(uint32_t *e, size_t ne, uint32_t *l, size_t nl, uint32_t clock, uint32_t docket) {
    return call_write(e, ne, l, nl, clock, (struct record){DELETE, docket, docket, 0, 0});
}

struct native_answer native_delete_range(uint32_t *e, size_t ne, uint32_t *l, size_t nl, uint32_t clock, uint32_t lo, uint32_t hi) {
    return call_write(e, ne, l, nl, clock, (struct record){RANGE, lo, hi, clock, 0});
}

struct native_answer native_delete_range_dated(uint32_t *e, size_t ne, uint32_t *l, size_t nl, uint32_t clock, uint32_t lo, uint32_t hi, uint32_t date) {
    return call_write(e, ne, l, nl, clock, (struct record){RANGE, lo, hi, date, 0});
}

struct native_answer native_flush(uint32_t *e, size_t ne, uint32_t *l, size_t nl, uint32_t clock) {
    uint32_t refusal = refusal_of(e, ne, l, nl, clock, 0, 0);
    if (refusal != 0) return refused(refusal);
    uint32_t before = held_all(l);
    return finish(e, l, clock, before, merge_level(e, l, 0));
}

struct native_answer native_tick(uint32_t *e, size_t ne, uint32_t *l, size_t nl, uint32_t clock) {
    uint32_t refusal = refusal_of(e, ne, l, nl, clock, 0, 0);
    if (refusal != 0) return refused(refusal);
    return finish(e, l, clock, held_all(l), 0);
}

uint32_t native_make(uint32_t *e, size_t ne, uint32_t *l, size_t nl, uint32_t deepest, uint32_t ratio, uint32_t buffer, uint32_t term) {
    if (ne % 5 != 0 || ne < 10 || 327680 < ne) return 1;
    if (deepest < 2 || 6 < deepest || ratio < 2 || 10 < ratio || buffer < 1 || 64 < buffer || term < 1) return 6;
    if (nl != 4 * ((size_t)deepest + 2)) return 2;
    uint32_t slots = (uint32_t)(ne / 5 - 1);
    memset(e, 0, ne * sizeof *e);
    memset(l, 0, nl * sizeof *l);
    for (uint32_t s = 0; s < slots; s++) e[WORDS * s] = s + 1;
    l[0] = deepest, l[1] = ratio, l[2] = buffer, l[3] = term;
    return 0;
}

struct native_wake native_wake(const uint32_t *e, size_t ne, const uint32_t *l, size_t nl) {
    struct native_wake next = {native_checks ? native_check(e, ne, l, nl) : 0, 0, 0};
    if (next.refusal != 0) return next;
    uint64_t below = 1, divisor = power(l[1], l[0]) - 1;
    for (uint32_t i = 0; i < l[0]; i++) {
        uint32_t owed = l[4 * (i + 1) + 3];
        below *= l[1];
        if (owed == 0) continue;
        uint64_t clock = owed + limit_of(l, below, divisor);
        if (!next.due || clock < next.clock) next.due = 1, next.clock = clock;
    }
    return next;
}

/* The latest date of a level's ranges over the docket, 0 where none is. */
static uint32_t latest_date(const uint32_t *e, uint32_t r, uint32_t docket) {
    uint32_t latest = 0;
    for (; r != 0 && lo_of(e, r) <= docket; r = next_of(e, r))
        if (docket <= hi_of(e, r)) latest = later(latest, date_of(e, r));
    return latest;
}

static uint32_t refusal_of_reading(const uint32_t *e, size_t ne, const uint32_t *l, size_t nl, uint32_t lo, uint32_t hi) {
    uint32_t refusal = native_checks ? native_check(e, ne, l, nl) : 0;
    return refusal == 0 && (hi > LAST_DOCKET || hi < lo) ? 4 : refusal;
}

/* The slot of a live docket, or none. */
static uint32_t find_live(const uint32_t *e, const uint32_t *l, uint32_t docket) {
    for (uint32_t i = 0, latest = 0; i <= l[0]; i++) {
        uint32_t points = l[4 * (i + 1)], ranges = l[4 * (i + 1) + 1], at = find_within(e, points, docket, docket);
        if (at != 0) return kind_of(e, at) == PUT && latest < stamp_of(e, at) ? at : 0;
        latest = later(latest, latest_date(e, ranges, docket));
    }
    return 0;
}

struct native_found native_lookup(const uint32_t *e, size_t ne, const uint32_t *l, size_t nl, uint32_t docket) {
    uint32_t refusal = refusal_of_reading(e, ne, l, nl, docket, docket), slot = refusal == 0 ? find_live(e, l, docket) : 0;
    if (slot == 0) return (struct native_found){.refusal = refusal};
    return (struct native_found){.found = 1, .count = count_of(e, slot), .price = price_of(e, slot), .stamp = stamp_of(e, slot)};
}

struct native_counted native_lookup_count(const uint32_t *e, size_t ne, const uint32_t *l, size_t nl, uint32_t docket) {
    uint32_t refusal = refusal_of_reading(e, ne, l, nl, docket, docket), slot = refusal == 0 ? find_live(e, l, docket) : 0;
    if (slot == 0) return (struct native_counted){.refusal = refusal};
    return (struct native_counted){.found = 1, .count = count_of(e, slot), .stamp = stamp_of(e, slot)};
}

/* Where a scan stands in one level: the next point and its docket, and the ranges. */
struct cursor {
    uint32_t point, docket;
    struct front ranges;
};

/* One past the last docket where the points end. */
static void stand_on(const uint32_t *e, struct cursor *c, uint32_t point) { c->point = point, c->docket = point == 0 ? LAST_DOCKET + 1 : lo_of(e, point); }

/* The first of the levels that have the least docket. */
static struct cursor *next_level(struct cursor *at, uint32_t deepest) {
    struct cursor *first = at;
    uint32_t docket = at->docket;
    for (struct cursor *c = at + 1; c <= at + deepest; c++)
        if (c->docket < docket) first = c, docket = c->docket;
    return first;
}

/* Takes every cursor past the docket; its slot, or none where it is not live: the first level with a point decides, and the ranges above it. */
static uint32_t pass_docket(const uint32_t *e, struct cursor *at, uint32_t deepest, struct cursor *first) {
    uint32_t slot = first->point, docket = first->docket;
    stand_on(e, first, next_of(e, slot));
    for (struct cursor *c = first + 1; c <= at + deepest; c++)
        if (c->docket == docket) stand_on(e, c, next_of(e, c->point));
    if (kind_of(e, slot) != PUT) return 0;
    for (struct cursor *c = at; c < first; c++)
        if (front_covers(e, &c->ranges, docket, stamp_of(e, slot))) return 0;
    return slot;
}

/* Fills the one or the other rows; a copy of this is made for each. */
static inline struct native_scanned sweep(const uint32_t *e, size_t ne, const uint32_t *l, size_t nl, uint32_t lo, uint32_t hi, struct guontrem_row *rows,
                                          struct guontrem_count_row *count_rows, size_t row_count) {
    struct native_scanned answer = {refusal_of_reading(e, ne, l, nl, lo, hi), 0, 0, 0};
    if (answer.refusal != 0) return answer;
    struct cursor at[MOST_LEVELS];
    for (uint32_t i = 0; i <= l[0]; i++) {
        at[i].ranges = front_at(e, l[4 * (i + 1) + 1]);
        stand_on(e, &at[i], find_within(e, l[4 * (i + 1)], lo, LAST_DOCKET));
    }
    for (struct cursor *first; (first = next_level(at, l[0]))->docket <= hi;) {
        uint32_t docket = first->docket, slot = pass_docket(e, at, l[0], first);
        if (slot == 0) continue;
        if (answer.count == row_count) {
            answer.more = 1, answer.next = docket;
            break;
        }
        if (count_rows != NULL) count_rows[answer.count++] = (struct guontrem_count_row){docket, count_of(e, slot), stamp_of(e, slot)};
        else rows[answer.count++] = (struct guontrem_row){docket, count_of(e, slot), price_of(e, slot), stamp_of(e, slot)};
    }
    return answer;
}

struct native_scanned native_scan(const uint32_t *e, size_t ne, const uint32_t *l, size_t nl, uint32_t lo, uint32_t hi, struct guontrem_row *rows, size_t row_count) {
    return sweep(e, ne, l, nl, lo, hi, rows, NULL, row_count);
}

struct native_scanned native_scan_counts(const uint32_t *e, size_t ne, const uint32_t *l, size_t nl, uint32_t lo, uint32_t hi, struct guontrem_count_row *rows,
                                         size_t row_count) {
    return sweep(e, ne, l, nl, lo, hi, NULL, rows, row_count);
}
