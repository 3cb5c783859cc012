/* Demand 3 on the archive: lists alike in all but one put's tally, its count, its price or both, leave the same words once it is erased, and in no
   four bytes of them that count or that price. */
#define _GNU_SOURCE
#include "twins.h"

#include "counts.h"
#include "loads.h"
#include "pairs.h"
#include "random.h"

#include <inttypes.h>
#include <stdio.h>
#include <string.h>

/* Set in the chosen put's count and price alone: other tallies have none of these bits, and the last byte of any docket, slot, clock or term has not. */
static const uint32_t marked_bits = 0x80808080, last_marked_docket = 0x7fff;

struct tally {
    uint32_t count, price;
};

struct twins {
    struct store one, two;
    struct pair steps;
    uint32_t docket, clock, term;
    struct tally tallies[2];
    /* The earliest accepted clock of a delete over the put, and of one without an earlier date; 0 for none. */
    uint32_t deleted, undated;
    bool erased, dated, differed, seen;
};

static struct {
    uint64_t lists, differed, erased, both, dated, seen, prices;
} met;

static bool table_holds(const uint32_t *table, size_t words, uint32_t word) { return memmem(table, words * sizeof *table, &word, sizeof word) != NULL; }

static bool holds_bytes(const struct store *s, uint32_t word) { return table_holds(s->entries, s->entry_words, word) || table_holds(s->levels, s->level_words, word); }

static bool holds_tally(const struct store *s, struct tally tally) { return holds_bytes(s, tally.count) || holds_bytes(s, tally.price); }

static bool is_range(const struct call *c) { return c->kind == DELETE_RANGE || c->kind == DELETE_RANGE_DATED; }

static bool is_write(const struct call *c) { return c->kind == PUT || c->kind == DELETE || is_range(c); }

static uint32_t last_docket(const struct call *c) { return is_range(c) ? c->hi : c->lo; }

/* Whether a delete has a date that is not its own clock: a range delete without a date has its clock as the date. */
static bool is_dated(const struct call *c) { return c->kind == DELETE_RANGE_DATED && c->date != c->clock; }

/* Only a date asks for the clock of a put. */
static bool covers(const struct call *c, uint32_t docket, uint32_t clock) {
    return c->lo <= docket && docket <= last_docket(c) && (!is_dated(c) || clock <= c->date);
}

static uint32_t earlier(uint32_t a, uint32_t b) { return a == 0 || (b != 0 && b < a) ? b : a; }

static bool is_over(const struct twins *t, uint32_t deleted, uint32_t clock) { return deleted != 0 && t->term <= clock - deleted; }

/* Whether the put is erased once this call was accepted, and whether by deletes with an earlier date alone. */
static void follow(struct twins *t, const struct call *c) {
    if (is_write(c) && c->kind != PUT && covers(c, t->docket, t->clock)) {
        t->deleted = earlier(t->deleted, c->clock);
        if (!is_dated(c)) t->undated = earlier(t->undated, c->clock);
    }
    if (t->erased || !is_over(t, t->deleted, c->clock)) return;
    t->erased = true, t->dated = !is_over(t, t->undated, c->clock);
}

static struct answer call_all(struct twins *t, const struct call *c, const struct call *other) {
    copy_words(&t->steps.before, &t->one);
    uint64_t expected = native_call(&t->steps.native, c, NULL), one = proved_call(&t->one, c, NULL), two = proved_call(&t->two, other, NULL);
    struct answer a = unpack_plainly(c->kind, expected, 0);
    copy_words(&t->steps.proved, &t->one);
    if (one != two) fail("the twins' answers differ", &t->steps, c);
    if (one != expected) fail("the answers differ", &t->steps, c);
    count_call(c, a);
    count_call(c, a);
    return a;
}

static void step(struct twins *t, const struct call *c, const struct call *other, bool after) {
    struct answer a = call_all(t, c, other);
    if (after && a.refusal == 0) follow(t, c);
    bool same = same_words(&t->one, &t->two), seen = holds_tally(&t->one, t->tallies[0]) || holds_tally(&t->two, t->tallies[1]);
    t->differed |= !same, t->seen |= seen;
    if (t->erased && !same) fail("words differ though the put was erased", &t->steps, c);
    if (t->erased && seen) fail("the bytes of an erased tally are in the tables", &t->steps, c);
}

/* Dockets and clocks stay small, so that no bytes but the marked tallies look like them. */
static struct load twin_load(uint32_t slots, struct settings settings) {
    static const uint32_t terms[] = {1, 2, 9, 40};
    settings.term = RANDOM_OF(terms);
    struct load load = random_load(slots, settings, 1);
    const uint32_t dockets[] = {slots, slots + 1, 3 * slots};
    load.dockets = RANDOM_OF(dockets), load.first = 0, load.clock = 1;
    return load;
}

static struct call twin_call(struct load *load, const struct store *s) {
    struct call c;
    do c = random_call(load, s);
    while (c.kind < PUT || (last_marked_docket < last_docket(&c) && last_docket(&c) <= GUONTREM_MAX_DOCKET));
    c.count &= ~marked_bits, c.price &= ~marked_bits;
    return c;
}

static uint32_t marked_word(void) { return random_word() | marked_bits; }

static uint32_t other_marked(uint32_t word) {
    uint32_t other;
    do other = marked_word();
    while (other == word);
    return other;
}

/* Both marked; another count, another price, or both. */
static void draw_tallies(struct tally tallies[2]) {
    uint32_t which = random_below(3);
    tallies[0] = tallies[1] = (struct tally){marked_word(), marked_word()};
    if (which != 0) tallies[1].count = other_marked(tallies[0].count);
    if (which != 1) tallies[1].price = other_marked(tallies[0].price);
}

static void run_list(uint32_t slots, uint32_t length) {
    struct load load = twin_load(slots, random_settings());
    size_t entry_words = GUONTREM_ENTRY_WORDS(slots), level_words = GUONTREM_LEVEL_WORDS(load.settings.deepest);
    struct twins t = {.one = new_store(entry_words, level_words), .two = new_store(entry_words, level_words), .steps = new_pair(entry_words, level_words)};
    struct call make = {.kind = MAKE, .settings = load.settings}, put = {.kind = PUT};
    t.docket = random_below(load.dockets), t.term = load.settings.term;
    draw_tallies(t.tallies);
    call_all(&t, &make, &make);
    for (uint32_t i = 0, chosen = random_below(length / 2); i < length; i++) {
        struct call c = twin_call(&load, &t.one), other;
        if (i == chosen) put.clock = c.clock, put.lo = t.docket, put.count = t.tallies[0].count, put.price = t.tallies[0].price, t.clock = c.clock, c = put;
        other = c;
        if (i == chosen) other.count = t.tallies[1].count, other.price = t.tallies[1].price;
        step(&t, &c, &other, chosen < i);
    }
    met.lists++, met.differed += t.differed, met.erased += t.erased, met.both += t.differed && t.erased, met.dated += t.differed && t.dated, met.seen += t.seen && t.erased;
    met.prices += t.differed && t.erased && t.tallies[0].count == t.tallies[1].count;
    free_store(&t.one);
    free_store(&t.two);
    free_pair(&t.steps);
}

void run_twins(uint64_t calls) {
    static const struct {
        uint32_t slots, length;
    } sizes[] = {{1, 40}, {2, 60}, {2, 60}, {5, 120}, {5, 120}, {5, 120}, {30, 300}, {300, 1500}};
    for (uint64_t end = counts.calls + calls; counts.calls < end;) {
        /* The longest list only where there are calls for it. */
        uint32_t size = random_below(calls < 50000 ? 7 : 8);
        run_list(sizes[size].slots, sizes[size].length);
    }
    printf("%12" PRIu64 "  twin lists: in %" PRIu64 " words differed, in %" PRIu64 " the put was erased, in %" PRIu64 " both\n", met.lists, met.differed, met.erased, met.both);
    printf("%12" PRIu64 "  of these erased by deletes with an earlier date\n", met.dated);
    printf("%12" PRIu64 "  of these with another price alone\n", met.prices);
    printf("%12" PRIu64 "  twin lists whose erased tally had been in the tables\n", met.seen);
    require(met.lists / 10 < met.both, "lists in which words differed and the put was erased");
    require(met.lists / 200 <= met.dated, "lists in which deletes with an earlier date erased the put");
    require(met.lists / 40 < met.prices, "lists in which words differed by a price alone and the put was erased");
    require(met.both == met.seen, "an erased tally was in the tables exactly where words differed");
}
