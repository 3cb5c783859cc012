/* The tables that calls are timed on. */
#include "tables.h"

#include "native_store.h"
#include "random.h"

#include <stdbool.h>
#include <string.h>

enum { WIDEST = 4 };

const char mixed_calls[] = "PPPPPPPPDDRFTTGGGGGG";

static enum kind kind_of(char letter) {
    switch (letter) {
    case 'P': return PUT;
    case 'D': return DELETE;
    case 'R': return DELETE_RANGE;
    case 'Y':
    case 'W': return DELETE_RANGE_DATED;
    case 'F': return FLUSH;
    case 'T': return TICK;
    case 'w': return WAKE;
    case 'G': return LOOKUP;
    case 'g': return LOOKUP_COUNT;
    case 'S': return SCAN;
    case 's': return SCAN_COUNTS;
    default: return CHECK;
    }
}

struct call draw(const char *letters, uint32_t clock, uint32_t dockets, uint32_t slots) {
    uint32_t lo = random_below(dockets), hi = lo + random_below(WIDEST + 1);
    char letter = letters[random_below((uint32_t)strlen(letters))];
    enum kind kind = kind_of(letter);
    if (kind == DELETE_RANGE_DATED) {
        uint32_t date = random_between(1, clock);
        if (letter == 'W') lo = 0, hi = GUONTREM_MAX_DOCKET;
        return (struct call){.kind = kind, .clock = clock, .lo = lo, .hi = hi, .date = date};
    }
    if (kind == SCAN || kind == SCAN_COUNTS) return (struct call){.kind = kind, .lo = 0, .hi = GUONTREM_MAX_DOCKET, .row_count = slots};
    return (struct call){.kind = kind, .clock = clock, .lo = lo, .hi = hi < dockets ? hi : dockets - 1, .count = random_word(), .price = random_word()};
}

void lay_record(struct store *s, uint32_t slot, uint32_t level, struct record r) {
    uint32_t *row = s->entries + GUONTREM_SLOT_WORDS * slot, *in = s->levels + 4 * (level + 1), *first = in + (r.kind == RANGE_KIND);
    row[0] = r.kind * 65536 + *first, row[1] = r.lo | r.hi << 16, row[2] = r.word, row[3] = r.stamp, row[4] = r.price;
    *first = slot, in[2] += 1;
    if (r.kind == RANGE_KIND) in[3] = 1;
}

static void lay_put(struct store *s, uint32_t slot, uint32_t level, uint32_t docket) {
    lay_record(s, slot, level, (struct record){PUT_KIND, docket, docket, slot, s->entries[1], slot});
}

/* Every slot a put of its own docket, in one of the deepest levels by turns or at random: sound tables, laid out word by word. */
static void lay_levels(struct store *s, uint32_t deepest, uint32_t slots, uint32_t levels, int at_random) {
    s->entries[0] = 0, s->entries[1] = 1;
    for (uint32_t i = slots; i-- > 0;) {
        uint32_t up = at_random ? random_below(levels) : i % levels;
        lay_put(s, i + 1, deepest - up, (uint32_t)((uint64_t)i * 65536 / slots));
    }
}

/* Puts in the deepest level, and in the level above a range delete between each two, the first over all and older than every put, or a put
   of the same docket. */
static void lay_pairs(struct store *s, uint32_t deepest, uint32_t slots, enum shape shape) {
    s->entries[0] = 0, s->entries[1] = 2;
    for (uint32_t i = slots; i-- > 0;) {
        uint32_t of = shape == PUT_TWICE ? i - i % 2 : i, docket = (uint32_t)((uint64_t)of * 65535 / slots);
        bool wide = i == 1 && shape == AND_ONE_WIDE;
        if (i % 2 == 0 || shape == PUT_TWICE) lay_put(s, i + 1, deepest - i % 2, docket);
        else lay_record(s, i + 1, deepest - 1, (struct record){RANGE_KIND, wide ? 0 : docket, wide ? GUONTREM_MAX_DOCKET : docket, wide ? 1 : 2, 2, 0});
    }
}

/* A range delete in each level from 0 to L-1, before every put, and puts in the deepest level. */
static void lay_owing(struct store *s, uint32_t deepest, uint32_t slots) {
    s->entries[0] = 0, s->entries[1] = 1;
    for (uint32_t i = slots; i-- > 0;) {
        if (i < deepest) lay_record(s, i + 1, i, (struct record){RANGE_KIND, 0, 0, 1, 1, 0});
        else lay_put(s, i + 1, deepest, (uint32_t)((uint64_t)i * 65536 / slots));
    }
}

/* Dockets from 0 to live, in ascending order or at random. */
static void put_all(struct store *s, uint32_t live, int ascending) {
    static uint32_t order[GUONTREM_MAX_SLOTS];
    for (uint32_t i = 0; i < live; i++) {
        uint32_t j = ascending ? i : random_below(i + 1);
        order[i] = order[j], order[j] = i;
    }
    for (uint32_t i = 0; i < live; i++) native_call(s, &(struct call){.kind = PUT, .clock = 1, .lo = order[i], .count = i, .price = i}, NULL);
}

/* How many levels are laid out, or 0 where the tables are made by calls. */
static uint32_t levels_of(enum shape shape) {
    switch (shape) {
    case TWO_BY_TURNS:
    case TWO_AT_RANDOM:
    case RANGES_BETWEEN:
    case AND_ONE_WIDE:
    case PUT_TWICE: return 2;
    case THREE_BY_TURNS: return 3;
    case SEVEN_BY_TURNS:
    case SEVEN_AT_RANDOM:
    case EVERY_LEVEL_OWES: return 7;
    default: return 0;
    }
}

uint32_t fill(struct store *s, enum shape shape, uint32_t slots) {
    uint32_t live = shape == MIXED ? (slots + 1) / 2 : slots, clock = 1, levels = levels_of(shape);
    uint32_t deepest = levels == MOST_LEVELS ? MOST_LEVELS - 1 : DEEPEST;
    s->entry_words = GUONTREM_ENTRY_WORDS(slots), s->level_words = GUONTREM_LEVEL_WORDS(deepest);
    native_make(s->entries, s->entry_words, s->levels, s->level_words, deepest, RATIO, BUFFER, shape == EVERY_LEVEL_OWES ? UINT32_MAX : TERM);
    if (shape == EVERY_LEVEL_OWES) {
        lay_owing(s, deepest, slots);
        return clock;
    }
    if (shape == RANGES_BETWEEN || shape == AND_ONE_WIDE || shape == PUT_TWICE) {
        lay_pairs(s, deepest, slots, shape);
        return s->entries[1];
    }
    if (levels != 0) {
        lay_levels(s, deepest, slots, levels, shape == TWO_AT_RANDOM || shape == SEVEN_AT_RANDOM);
        return clock;
    }
    uint32_t price;
    native_checks = 0;
    put_all(s, live, shape == PUT_ASCENDING);
    for (uint32_t i = 0; shape == MIXED && i < slots; i++) {
        struct call c = draw(mixed_calls, clock += i & 1, live, slots);
        native_call(s, &c, &(struct lent){.price = &price});
    }
    native_checks = 1;
    return clock;
}
