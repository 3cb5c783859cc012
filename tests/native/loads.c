/* Random settings and random calls. */
#include "loads.h"

#include "counts.h"
#include "random.h"
#include "scans.h"

enum { ODD_SHARE = 20, MAKE_SHARE = 200, MOST_DOCKETS = GUONTREM_MAX_DOCKET + 1 };

/* Every kind but make, which empties the store and is drawn apart. */
static const enum kind every[] = {PUT, PUT, PUT, PUT, PUT, DELETE, DELETE, DELETE_RANGE, DELETE_RANGE_DATED, FLUSH, TICK, TICK, LOOKUP, LOOKUP_COUNT, SCAN, SCAN_COUNTS,
                                  CHECK, WAKE};
static const enum kind filling[] = {PUT, PUT, PUT, PUT, PUT, PUT, PUT, PUT, LOOKUP, SCAN, SCAN_COUNTS, DELETE, TICK};
static const enum kind deleting[] = {PUT, PUT, PUT, DELETE, DELETE, DELETE, LOOKUP, LOOKUP_COUNT, SCAN, TICK, FLUSH, WAKE};
static const enum kind ranging[] = {PUT, PUT, PUT, PUT, DELETE_RANGE, DELETE_RANGE_DATED, LOOKUP, SCAN, SCAN_COUNTS, TICK};
static const enum kind dating[] = {PUT, PUT, PUT, PUT, DELETE_RANGE_DATED, DELETE_RANGE_DATED, DELETE_RANGE_DATED, DELETE, LOOKUP, LOOKUP_COUNT, SCAN, TICK, FLUSH, WAKE};

#define MIX(kinds) {kinds, sizeof(kinds) / sizeof *(kinds)}
static const struct {
    const enum kind *kinds;
    uint32_t size;
} mixes[] = {MIX(every), MIX(every), MIX(filling), MIX(deleting), MIX(ranging), MIX(dating), MIX(dating)};

struct settings random_settings(void) {
    static const uint32_t buffers[] = {1, 1, 2, 3, 8, 64}, terms[] = {1, 2, 9, 40, 1000, UINT32_MAX};
    struct settings s = {random_between(2, 6), random_between(2, 10), RANDOM_OF(buffers), RANDOM_OF(terms)};
    if (one_in(8)) s.buffer = random_between(1, 64);
    if (one_in(8)) s.term = random_between(1, UINT32_MAX);
    return s;
}

uint32_t at_most(uint32_t most, uint64_t number) { return number < most ? (uint32_t)number : most; }

/* A clock that stands still, goes on, goes in jumps, or jumps by the term. */
static void draw_steps(uint32_t *steps, uint32_t term) {
    uint32_t past = at_most(UINT32_MAX, (uint64_t)term + 1);
    const uint32_t drawn[][4] = {{0, 0, 0, 0}, {0, 0, 0, 1}, {1, 1, 1, 1}, {0, 1, 2, 5}, {0, 0, 1, term}, {0, 0, term / 2, past}};
    const uint32_t *chosen = RANDOM_OF(drawn);
    for (int i = 0; i < 4; i++) steps[i] = chosen[i];
}

struct load random_load(uint32_t slots, struct settings settings, uint32_t clock) {
    /* With as many dockets as slots no put is refused; with one more a full store meets FULL. */
    const uint32_t dockets[] = {slots / 2 + 1, slots, slots + 1, slots + 1, 2 * slots + 2, MOST_DOCKETS};
    struct load load = {.slots = slots, .dockets = at_most(MOST_DOCKETS, RANDOM_OF(dockets)), .clock = clock, .settings = settings};
    const uint32_t widths[] = {0, 2, load.dockets / 4, load.dockets};
    uint32_t mix = random_below(sizeof mixes / sizeof *mixes);
    load.first = one_in(2) ? 0 : MOST_DOCKETS - load.dockets;
    load.width = RANDOM_OF(widths);
    load.mix = mixes[mix].kinds, load.mix_size = mixes[mix].size;
    draw_steps(load.steps, settings.term);
    if (clock == 0 && one_in(4)) load.clock = one_in(2) ? random_word() : UINT32_MAX - 3;
    return load;
}

/* As many rows as there are live dockets, and the numbers about it. */
static size_t draw_rows(size_t live) {
    const size_t rows[] = {0, 1, live, live, live == 0 ? 0 : live - 1, live + 1, random_below((uint32_t)live + 1), live + 5};
    size_t count = RANDOM_OF(rows);
    counts.no_rows += count == 0 && live != 0;
    counts.one_row += count == 1;
    counts.exact_rows += count == live && live != 0;
    counts.fewer_rows += 1 < count && count < live;
    counts.more_rows += live < count;
    return count;
}

/* A docket or an end that comes back now and then. */
static void draw_span(struct load *load, struct call *c) {
    const uint32_t *old = load->spans[random_below(REMEMBERED)];
    c->lo = load->first + random_below(load->dockets);
    c->hi = at_most(GUONTREM_MAX_DOCKET, (uint64_t)c->lo + random_between(0, load->width));
    if (load->drawn >= REMEMBERED && one_in(5)) c->lo = old[0], c->hi = old[1];
    load->spans[load->drawn % REMEMBERED][0] = c->lo, load->spans[load->drawn % REMEMBERED][1] = c->hi;
}

/* From 1 to the clock: the clock, one before it, an earlier call's and those about it, or any. */
static uint32_t draw_date(struct load *load) {
    uint32_t clock = load->clock, old = load->clocks[random_below(REMEMBERED)];
    const uint32_t dates[] = {clock, clock, clock - 1, old, old, old, old - 1, 1, random_between(0, clock)};
    uint32_t date = at_most(clock, RANDOM_OF(dates));
    load->clocks[load->drawn++ % REMEMBERED] = clock;
    return date == 0 ? 1 : date;
}

/* Dockets past the last, lo above hi, an early clock, a date of 0 or after the clock, or settings out of range; now and then two of them. */
static void make_odd(struct call *c) {
    static const uint32_t far[] = {MOST_DOCKETS, MOST_DOCKETS + 5, UINT32_MAX};
    uint32_t *const numbers[] = {&c->settings.deepest, &c->settings.ratio, &c->settings.buffer, &c->settings.term};
    static const uint32_t wrong[][4] = {{0, 1, 7, UINT32_MAX}, {0, 1, 11, UINT32_MAX}, {0, 65, 66, UINT32_MAX}, {0, 0, 0, 0}};
    uint32_t which = random_below(4);
    *numbers[which] = RANDOM_OF(wrong[which]);
    if (one_in(2)) {
        const uint32_t dates[] = {0, at_most(UINT32_MAX, (uint64_t)c->clock + 1), UINT32_MAX};
        c->date = RANDOM_OF(dates);
        if (one_in(2)) return;
    }
    if (one_in(2)) c->clock = one_in(4) ? 0 : random_below(c->clock);
    else if (one_in(2)) c->lo = c->hi = RANDOM_OF(far);
    else if (one_in(2)) c->hi = RANDOM_OF(far);
    else c->lo = c->hi + 1;
}

/* A count or a price: any, now and then an end. */
static uint32_t draw_number(void) {
    static const uint32_t ends[] = {0, 1, 9, UINT32_MAX};
    return one_in(4) ? RANDOM_OF(ends) : random_word();
}

struct call random_call(struct load *load, const struct store *s) {
    load->clock = at_most(UINT32_MAX, (uint64_t)load->clock + RANDOM_OF(load->steps));
    struct call c = {.kind = one_in(MAKE_SHARE) ? MAKE : load->mix[random_below(load->mix_size)], .clock = load->clock, .settings = load->settings};
    draw_span(load, &c);
    c.date = draw_date(load);
    c.count = draw_number(), c.price = draw_number();
    if (c.kind == MAKE && one_in(2)) c.settings = random_settings();
    if (one_in(ODD_SHARE)) make_odd(&c);
    if (is_scan(c.kind) && one_in(3)) c.lo = 0, c.hi = GUONTREM_MAX_DOCKET;
    if (is_scan(c.kind)) c.row_count = draw_rows(live_dockets(s, c.lo, c.hi));
    return c;
}
