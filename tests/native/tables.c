/* Sound tables that no list of calls need reach, and damaged ones. */
#include "tables.h"

#include "loads.h"
#include "random.h"

#include <string.h>

enum { MOST_DOCKETS = GUONTREM_MAX_DOCKET + 1, PUT_KIND = 1, DELETED = 2, RANGE = 3 };

/* Slots in the order in which they are taken. */
static uint32_t order[GUONTREM_MAX_SLOTS];
static uint32_t left;

/* One chain being laid, and the earliest stamp of a delete in it. */
struct chain {
    uint32_t head, last, count, earliest;
};

/* How one table's dockets are drawn. */
struct span {
    uint32_t first, end, gap, clock;
};

static void shuffle_slots(uint32_t slots) {
    left = slots;
    for (uint32_t i = 0; i < slots; i++) order[i] = i + 1;
    for (uint32_t i = slots - 1; i > 0; i--) {
        uint32_t j = random_below(i + 1), slot = order[i];
        order[i] = order[j], order[j] = slot;
    }
}

/* Kind, dockets, a put's count or a range delete's date, stamp and price. */
struct record {
    uint32_t kind, lo, hi, word, stamp, price;
};

static void append(struct store *s, struct chain *chain, struct record r) {
    uint32_t slot = order[--left], *row = slot_row(s, slot);
    row[0] = r.kind << 16, row[1] = r.lo | r.hi << 16, row[2] = r.word, row[3] = r.stamp, row[4] = r.price;
    if (chain->last != 0) *slot_row(s, chain->last) |= slot;
    else chain->head = slot;
    chain->last = slot, chain->count++;
    if (DELETED <= r.kind && (chain->earliest == 0 || r.stamp < chain->earliest)) chain->earliest = r.stamp;
}

static struct chain lay_points(struct store *s, const struct span *span, uint32_t count, bool deepest) {
    struct chain chain = {0};
    uint32_t docket = span->first + random_below(span->gap), deletes = random_between(1, 5);
    for (; count > 0 && docket < span->end; count--, docket += 1 + random_below(span->gap)) {
        uint32_t stamp = random_between(1, span->clock);
        if (!deepest && one_in(deletes)) append(s, &chain, (struct record){DELETED, docket, docket, 0, stamp, 0});
        else append(s, &chain, (struct record){PUT_KIND, docket, docket, random_word(), stamp, random_word()});
    }
    return chain;
}

/* Ranges of one lo ascend by hi. */
static struct chain lay_ranges(struct store *s, const struct span *span, uint32_t count) {
    struct chain chain = {0};
    uint32_t lo = span->first, hi = span->first;
    for (bool begun = false; count > 0; count--, begun = true) {
        uint32_t next = lo + random_below(span->gap + 1);
        if (span->end <= next || (begun && next == lo && span->end <= hi + 1)) break;
        hi = begun && next == lo ? hi + 1 : next + random_below(span->end - next);
        lo = next;
        uint32_t stamp = random_between(1, span->clock);
        append(s, &chain, (struct record){RANGE, lo, hi, one_in(4) ? stamp : random_between(1, stamp), stamp, 0});
    }
    return chain;
}

static void lay_level(struct store *s, const struct span *span, uint32_t level) {
    bool deepest = level == s->levels[0];
    uint32_t room = deepest && one_in(3) ? left : random_between(0, left);
    struct chain points = lay_points(s, span, room, deepest), ranges = {0};
    if (!deepest && one_in(2)) ranges = lay_ranges(s, span, random_between(0, at_most(left, one_in(3) ? left : 4)));
    uint32_t owed = 0, *row = level_row(s, level);
    /* None is 0, which one less takes past every stamp. */
    if (points.earliest != 0 || ranges.earliest != 0) owed = random_between(1, at_most(points.earliest - 1, ranges.earliest - 1) + 1);
    else if (!deepest && points.count != 0 && one_in(2)) owed = random_between(1, span->clock);
    row[0] = points.head, row[1] = ranges.head, row[2] = points.count + ranges.count, row[3] = owed;
}

void lay_sound(struct store *s) {
    struct settings settings = random_settings();
    uint32_t slots = slot_count(s), deepest = (uint32_t)(s->level_words / 4 - 2);
    const uint32_t spaces[] = {4, 30, slots, slots + 1, 2 * slots, MOST_DOCKETS};
    uint32_t space = at_most(MOST_DOCKETS, RANDOM_OF(spaces)), clock = one_in(4) ? random_between(1, UINT32_MAX) : random_between(1, 50);
    struct span span = {one_in(2) ? 0 : MOST_DOCKETS - space, 0, one_in(2) ? 1 : 1 + space / slots, clock};
    span.end = span.first + space;
    memset(s->entries, 0, s->entry_words * sizeof(uint32_t));
    memset(s->levels, 0, s->level_words * sizeof(uint32_t));
    shuffle_slots(slots);
    s->entries[1] = clock;
    s->levels[0] = deepest, s->levels[1] = settings.ratio, s->levels[2] = settings.buffer, s->levels[3] = settings.term;
    for (uint32_t i = 0; i <= deepest; i++) lay_level(s, &span, i);
    struct chain free_slots = {0};
    while (left != 0) append(s, &free_slots, (struct record){0});
    s->entries[0] = free_slots.head;
}

static void change_word(struct store *s) {
    bool entry = one_in(2);
    uint32_t *table = entry ? s->entries : s->levels, near = random_below(slot_count(s) + 2);
    uint32_t *word = table + random_below((uint32_t)(entry ? s->entry_words : s->level_words)), old = *word;
    const uint32_t words[] = {near, old ^ 1u << random_below(32), 0, old + 1, old - 1, (old & 0xffff0000u) | near, random_word()};
    *word = RANDOM_OF(words);
}

static uint32_t random_slot(const struct store *s) { return random_between(1, slot_count(s)); }

static uint32_t next_of(const struct store *s, uint32_t slot) { return *slot_row(s, slot) & 65535; }

static void set_next(struct store *s, uint32_t slot, uint32_t next) { *slot_row(s, slot) = (*slot_row(s, slot) & 0xffff0000u) | next; }

static void exchange_links(struct store *s) {
    uint32_t a = random_slot(s), b = random_slot(s), next = next_of(s, a);
    set_next(s, a, next_of(s, b));
    set_next(s, b, next);
}

/* The last of a chain leads back into it. */
static void close_ring(struct store *s) {
    uint32_t slot = random_slot(s), last = slot;
    while (next_of(s, last) != 0) last = next_of(s, last);
    set_next(s, last, slot);
}

/* The date of a range delete is 0 or after its stamp; false where no slot has one. */
static bool misdate(struct store *s) {
    uint32_t slots = slot_count(s), begin = random_slot(s);
    for (uint32_t i = 0; i < slots; i++) {
        uint32_t *row = slot_row(s, 1 + (begin + i) % slots);
        const uint32_t dates[] = {0, at_most(UINT32_MAX, (uint64_t)row[3] + 1), UINT32_MAX};
        if (row[0] >> 16 != RANGE) continue;
        row[2] = RANDOM_OF(dates);
        return true;
    }
    return false;
}

/* Slot 0, a free slot or a delete gets a price; a put another one, and the tables stay sound. */
static void change_price(struct store *s) {
    uint32_t *row = slot_row(s, random_below(slot_count(s) + 1));
    row[4] = one_in(2) ? 1u << random_below(32) : random_word();
}

static void scatter_words(struct store *s) {
    uint32_t among = 1 + random_below(8);
    for (size_t i = 0; i < s->entry_words; i++)
        if (one_in(among)) s->entries[i] = random_word();
    /* The settings mostly stay, or nothing but LEVEL_TABLE would be met. */
    for (size_t i = one_in(8) ? 0 : 4; i < s->level_words; i++)
        if (one_in(among)) s->levels[i] = random_word();
}

const char *const damage_names[DAMAGES] = {
    "tables with one word changed", "with two words changed", "with two links exchanged", "with a ring", "with a date out of range", "with a price changed",
    "with random words", "with a table of no words", "with a table of one word", "with other lengths",
};

enum damage damage(struct store *s) {
    static const enum damage ways[] = {ONE_WORD, ONE_WORD, ONE_WORD, TWO_WORDS, LINKS, RING, DATE, PRICE, RANDOM_WORDS};
    enum damage way = RANDOM_OF(ways);
    if (way == DATE && misdate(s)) return DATE;
    if (way == DATE) way = ONE_WORD;
    switch (way) {
    case LINKS: exchange_links(s); break;
    case RING: close_ring(s); break;
    case PRICE: change_price(s); break;
    case RANDOM_WORDS: scatter_words(s); break;
    case TWO_WORDS: change_word(s); change_word(s); break;
    default: change_word(s); break;
    }
    return way;
}

size_t odd_entry_words(size_t words) {
    const size_t lengths[] = {0, 1, 4, 5, 8, 9, words - 1, words + 1, words - 4, words + 4, words - 5, words + 5, random_below((uint32_t)words)};
    return one_in(500) ? GUONTREM_ENTRY_WORDS(GUONTREM_MAX_SLOTS + 1) : RANDOM_OF(lengths);
}

size_t odd_level_words(size_t words) {
    const size_t lengths[] = {0, 1, 3, 4, 7, words - 1, words + 1, words - 4, words + 4, random_below((uint32_t)words)};
    return RANDOM_OF(lengths);
}

enum damage damage_of_lengths(size_t entry_words, size_t level_words) {
    if (entry_words == 0 || level_words == 0) return EMPTY_TABLE;
    return entry_words == 1 || level_words == 1 ? ONE_WORD_TABLE : OTHER_LENGTH;
}
