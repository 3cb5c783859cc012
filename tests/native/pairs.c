/* Every call on the archive and on plain C: answers, unchanged words, and levels compared. */
#include "pairs.h"

#include "counts.h"
#include "native_check.h"
#include "scans.h"
#include "sleep.h"
#include "wrappers.h"

#include <stdio.h>
#include <stdlib.h>
#include <string.h>

/* One in so many calls is made by the header's wrappers too, and after one in so many the store sleeps. */
enum { WRAPPED_SHARE = 8, SLEPT_SHARE = 4 };

const char *const kind_names[KINDS] = {"make", "check",  "wake",         "lookup",             "lookup_count", "scan", "scan_counts",
                                       "put",  "delete", "delete_range", "delete_range_dated", "flush",        "tick"};

bool is_lookup(enum kind kind) { return kind == LOOKUP || kind == LOOKUP_COUNT; }

bool is_scan(enum kind kind) { return kind == SCAN || kind == SCAN_COUNTS; }

void fail(const char *what, const struct pair *p, const struct call *c) {
    printf("FAILED: %s\n", what);
    printf("  %s, clock %u, lo %u, hi %u, date %u, count %u, price %u, rows %zu, settings %u %u %u %u\n", kind_names[c->kind], c->clock, c->lo, c->hi, c->date,
           c->count, c->price, c->row_count, c->settings.deepest, c->settings.ratio, c->settings.buffer, c->settings.term);
    printf("before the call:\n");
    print_store(&p->before);
    printf("after the proved call:\n");
    print_store(&p->proved);
    printf("after the native call:\n");
    print_store(&p->native);
    exit(1);
}

struct answer of_clock(uint32_t refusal, int due, uint64_t clock) { return (struct answer){refusal, {(uint32_t)due, (uint32_t)clock, (uint32_t)(clock >> 32)}}; }

struct answer unpack(enum kind kind, uint64_t n, uint32_t price) {
    switch (kind) {
    case MAKE: case CHECK: return (struct answer){(uint32_t)n, {0}};
    case WAKE: return of_clock(guontrem_wake_refusal(n), guontrem_wake_due(n), guontrem_wake_clock(n));
    case LOOKUP: case LOOKUP_COUNT:
        return (struct answer){guontrem_lookup_refusal(n), {(uint32_t)guontrem_lookup_found(n), guontrem_lookup_count_of(n), guontrem_lookup_stamp(n), price}};
    case SCAN: case SCAN_COUNTS: return (struct answer){guontrem_scan_refusal(n), {guontrem_scan_count(n), (uint32_t)guontrem_scan_more(n), guontrem_scan_next(n)}};
    default: return (struct answer){guontrem_timed_refusal(n), {guontrem_timed_merges(n), guontrem_timed_purged(n), 0}};
    }
}

struct answer unpack_plainly(enum kind kind, uint64_t n, uint32_t price) {
    uint32_t low = (uint32_t)n, high = (uint32_t)(n >> 32);
    switch (kind) {
    case MAKE: case CHECK: return (struct answer){low, {0}};
    case WAKE: return high < 1u << 31 ? (struct answer){0, {1, low, high}} : (struct answer){low, {0, 0, 1u << 31}};
    case LOOKUP: case LOOKUP_COUNT: return high == 0 ? (struct answer){low, {0}} : (struct answer){0, {1, low, high, price}};
    case SCAN: case SCAN_COUNTS: return (struct answer){high >> 24, {low, high >> 16 & 0xff, high & 0xffff}};
    default: return (struct answer){high >> 8, {high & 0xff, low, 0}};
    }
}

struct pair new_pair(size_t entry_words, size_t level_words) {
    return (struct pair){new_store(entry_words, level_words), new_store(entry_words, level_words), new_store(entry_words, level_words)};
}

void free_pair(struct pair *p) {
    free_store(&p->proved);
    free_store(&p->native);
    free_store(&p->before);
}

struct answered call_without_rows(call_on *f, const struct store *s, const struct call *c) {
    static const uint32_t junk = 0x3c6ef372;
    uint32_t words[] = {junk, junk, junk};
    struct answered a = {f(s, c, &(struct lent){.price = words + 1}), 0, words[0] == junk && words[2] == junk};
    if (c->kind == LOOKUP) a.price = words[1];
    else a.guarded &= words[1] == junk;
    return a;
}

/* The grower's lookup answers the hall's number. */
static void compare_growers(const struct pair *p, const struct call *c, uint64_t number) {
    struct call other = *c;
    other.kind = LOOKUP_COUNT;
    if (proved_call(&p->proved, &other, NULL) != number) fail("the grower's lookup answers another number than the hall's", p, c);
}

static struct answer call_both(const struct pair *p, const struct call *c) {
    struct answered expected = call_without_rows(native_call, &p->native, c), found = call_without_rows(proved_call, &p->proved, c);
    struct answer a = unpack_plainly(c->kind, expected.number, expected.price), unpacked = unpack(c->kind, found.number, found.price);
    if (found.number != expected.number || found.price != expected.price) fail("the answers differ", p, c);
    if (!found.guarded) fail("a word beside the price was written", p, c);
    if (memcmp(&unpacked, &a, sizeof a) != 0) fail("the header reads another answer", p, c);
    if (c->kind == LOOKUP) compare_growers(p, c, found.number);
    return a;
}

static void compare_tables(const struct pair *p, const struct call *c, uint32_t refusal) {
    if (!guards_hold(&p->proved)) fail("a word beside the tables was written", p, c);
    if (c->kind == CHECK || c->kind == WAKE || is_lookup(c->kind) || is_scan(c->kind) || (refusal != 0 && refusal != GUONTREM_FULL)) {
        if (!same_words(&p->proved, &p->before)) fail("a word of the tables was written", p, c);
        return;
    }
    const struct store *s = &p->proved;
    if (native_check(s->entries, s->entry_words, s->levels, s->level_words) != 0) fail("the tables are no longer sound", p, c);
    uint32_t clock = c->kind == MAKE ? 0 : refusal == 0 ? c->clock : p->before.entries[1];
    if (s->entries[1] != clock) fail("the last clock is another", p, c);
    const char *what = difference(s, &p->native);
    if (what != NULL) fail(what, p, c);
}

struct answer run_both(struct pair *p, const struct call *c) {
    copy_words(&p->before, &p->proved);
    struct answer a = is_scan(c->kind) ? scan_both(p, c) : call_both(p, c);
    compare_tables(p, c, a.refusal);
    if (counts.calls % WRAPPED_SHARE == 0) compare_wrapped(p, c);
    if (PUT <= c->kind && a.refusal == 0 && counts.calls % SLEPT_SHARE == 0) check_sleep(p, c);
    count_call(c, a);
    return a;
}
