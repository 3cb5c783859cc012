/* What a grower can tell on the archive: two stores that differ in the prices of puts alone answer alike, and stay alike in all but these prices. */
#include "prices.h"

#include "counts.h"
#include "loads.h"
#include "random.h"
#include "scans.h"
#include "tables.h"

#include <inttypes.h>
#include <stdio.h>
#include <string.h>

enum { MOST_SLOTS = 60, PUT_KIND = 1, FRESH_CALLS = 120, LAID_CALLS = 10 };

static struct {
    uint64_t lists, differed, lookups, scans, damaged;
} met;

/* Alike in every word but the prices of puts. */
static bool same_but_prices(const struct store *a, const struct store *b) {
    if (memcmp(a->levels, b->levels, a->level_words * sizeof *a->levels) != 0) return false;
    for (size_t i = 0; i < a->entry_words; i++) {
        size_t word = i % GUONTREM_SLOT_WORDS, kind = a->entries[i - word] >> 16;
        bool price_of_put = i >= GUONTREM_SLOT_WORDS && word == 4 && kind == PUT_KIND;
        if (a->entries[i] != b->entries[i] && !price_of_put) return false;
    }
    return true;
}

/* The hall's lookup leaves its own prices; all else that is answered or filled is the same. */
static void call_both(struct pair *p, const struct call *c, const struct call *other) {
    struct lent one = lend_rows(c->kind, c->row_count), two = lend_rows(c->kind, c->row_count);
    uint32_t prices[2] = {0, 0};
    one.price = &prices[0], two.price = &prices[1];
    copy_words(&p->before, &p->proved);
    uint64_t number = proved_call(&p->proved, c, &one);
    if (proved_call(&p->native, other, &two) != number) fail("the answers hang on a price", p, c);
    if (c->kind == SCAN_COUNTS && !same_rows(&one, &two, c->row_count)) fail("the grower's rows hang on a price", p, c);
    if (!same_but_prices(&p->proved, &p->native)) fail("a word other than a put's price hangs on a price", p, c);
    met.lookups += c->kind == LOOKUP_COUNT && guontrem_lookup_found(number), met.scans += c->kind == SCAN_COUNTS && guontrem_scan_count(number) != 0;
    free_rows(&one);
    free_rows(&two);
    struct answer a = unpack(c->kind, number, prices[0]);
    count_call(c, a);
    count_call(c, a);
}

/* The same call; a put has another price in the second store. */
static void step(struct pair *p, struct load *load) {
    struct call c = random_call(load, &p->proved), other = c;
    other.price = one_in(2) ? random_word() : one_in(2) ? 0 : c.price;
    call_both(p, &c, &other);
    met.differed += !same_words(&p->proved, &p->native);
}

static void run_fresh(uint32_t slots) {
    struct settings settings = random_settings();
    struct load load = random_load(slots, settings, 0);
    struct pair p = new_pair(GUONTREM_ENTRY_WORDS(slots), GUONTREM_LEVEL_WORDS(settings.deepest));
    struct call make = {.kind = MAKE, .settings = settings};
    call_both(&p, &make, &make);
    for (uint32_t i = 0; i < FRESH_CALLS; i++) step(&p, &load);
    free_pair(&p);
}

/* Sound tables that no list of calls need reach; one in some is damaged, and both are then refused alike. */
static void run_laid(uint32_t slots) {
    struct pair p = new_pair(GUONTREM_ENTRY_WORDS(slots), GUONTREM_LEVEL_WORDS(random_between(2, 6)));
    lay_sound(&p.proved);
    struct load load = random_load(slots, (struct settings){p.proved.levels[0], p.proved.levels[1], p.proved.levels[2], p.proved.levels[3]}, p.proved.entries[1]);
    bool damaged = one_in(4);
    if (damaged) damage(&p.proved), met.damaged++;
    copy_words(&p.native, &p.proved);
    for (uint32_t slot = 1; slot <= slots; slot++)
        if (*slot_row(&p.native, slot) >> 16 == PUT_KIND) slot_row(&p.native, slot)[4] = random_word();
    for (uint32_t i = 0; i < (damaged ? 1 : LAID_CALLS); i++) step(&p, &load);
    free_pair(&p);
}

void run_price_twins(uint64_t calls) {
    for (uint64_t end = counts.calls + calls; counts.calls < end; met.lists++) {
        uint32_t slots = random_between(1, MOST_SLOTS);
        if (one_in(8)) run_fresh(slots);
        else run_laid(slots);
    }
    printf("%12" PRIu64 "  pairs of stores that differ in prices alone, %" PRIu64 " of them of damaged tables: after %" PRIu64 " calls words differed\n", met.lists, met.damaged,
           met.differed);
    printf("%12" PRIu64 "  grower's lookups there that found, and %" PRIu64 " scans with rows\n", met.lookups, met.scans);
    require(met.lists < met.differed && met.damaged != 0, "calls after which prices differed, and damaged tables");
    require(met.lookups != 0 && met.scans != 0, "lookups and scans of a grower");
}
