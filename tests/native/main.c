/* The archive beside plain C: `native_tests [CALLS] [SEED]` makes so many random calls. */
#include "counts.h"
#include "limits.h"
#include "loads.h"
#include "native_check.h"
#include "pairs.h"
#include "prices.h"
#include "random.h"
#include "sleep.h"
#include "tables.h"
#include "twins.h"
#include "wrappers.h"

#include <inttypes.h>
#include <stdio.h>
#include <stdlib.h>
#include <time.h>

enum { SHORT_FORM = 4000000, MOST_FILLED = 4000 };

static uint32_t random_slots(void) {
    static const uint32_t most[] = {2, 2, 8, 8, 8, 30, 30, 30, 30, 300};
    uint32_t slots = RANDOM_OF(most);
    return one_in(2000) ? random_between(300, 4000) : random_between((slots + 1) / 2, slots);
}

static void run_calls(struct pair *p, struct load *load, uint32_t calls) {
    for (uint32_t i = 0; i < calls; i++) {
        struct call c = random_call(load, &p->proved);
        run_both(p, &c);
    }
}

/* A list of calls on a store that begins fresh, mostly long enough to fill it. */
static void run_fresh(uint32_t slots, uint32_t calls) {
    struct settings settings = random_settings();
    struct load load = random_load(slots, settings, 0);
    struct pair p = new_pair(GUONTREM_ENTRY_WORDS(slots), GUONTREM_LEVEL_WORDS(settings.deepest));
    struct call make = {.kind = MAKE, .settings = settings};
    require(run_both(&p, &make).refusal == GUONTREM_ACCEPTED, "a making of allowed settings");
    run_calls(&p, &load, slots <= MOST_FILLED ? calls + random_below(8 * slots) : calls);
    run_quiet(&p.proved);
    free_pair(&p);
}

static struct load load_of(const struct store *s) {
    return random_load(slot_count(s), (struct settings){s->levels[0], s->levels[1], s->levels[2], s->levels[3]}, s->entries[1]);
}

static struct pair new_sound_pair(uint32_t slots) {
    struct pair p = new_pair(GUONTREM_ENTRY_WORDS(slots), GUONTREM_LEVEL_WORDS(random_between(2, 6)));
    lay_sound(&p.proved);
    copy_words(&p.native, &p.proved);
    return p;
}

/* Calls on sound tables as no list of calls need leave them. */
static void run_sound(uint32_t slots, uint32_t calls) {
    struct pair p = new_sound_pair(slots);
    struct load load = load_of(&p.proved);
    require(native_check(p.proved.entries, p.proved.entry_words, p.proved.levels, p.proved.level_words) == 0, "laid tables are sound");
    run_quiet(&p.proved);
    run_calls(&p, &load, calls);
    free_pair(&p);
}

/* A call of any kind on damaged tables. */
static void run_damaged_call(struct pair *p, struct load load) {
    const struct store *s = &p->proved;
    uint32_t refusal = native_check(s->entries, s->entry_words, s->levels, s->level_words);
    struct call c = random_call(&load, s);
    if (one_in(8)) c.kind = MAKE;
    run_both(p, &c);
    if (one_in(8)) run_quiet(&p->proved);
    counts.still_sound += c.kind != MAKE && refusal == 0;
    counts.no_longer_sound += c.kind != MAKE && refusal != 0;
}

/* Tables cut or longer than they should be; words past the old ones are junk. */
static void run_odd_lengths(const struct store *from, struct load load) {
    bool entry = one_in(2);
    struct pair p = new_pair(entry ? odd_entry_words(from->entry_words) : from->entry_words, entry && !one_in(4) ? from->level_words : odd_level_words(from->level_words));
    copy_words(&p.proved, from);
    copy_words(&p.native, &p.proved);
    counts.damages[damage_of_lengths(p.proved.entry_words, p.proved.level_words)]++;
    run_damaged_call(&p, load);
    free_pair(&p);
}

/* Sound tables damaged in some ways, each once. */
static void run_damaged(uint32_t slots, uint32_t calls) {
    struct pair p = new_sound_pair(slots);
    struct store whole = new_store(p.proved.entry_words, p.proved.level_words);
    copy_words(&whole, &p.proved);
    for (uint32_t i = 0; i < calls; i++) {
        struct load load = load_of(&whole);
        if (one_in(3)) {
            run_odd_lengths(&whole, load);
            continue;
        }
        copy_words(&p.proved, &whole);
        counts.damages[damage(&p.proved)]++;
        copy_words(&p.native, &p.proved);
        run_damaged_call(&p, load);
    }
    free_store(&whole);
    free_pair(&p);
}

typedef void part(uint32_t slots, uint32_t calls);

static void run_part(part *run, uint64_t calls, uint32_t longest) {
    for (uint64_t end = counts.calls + calls; counts.calls < end;) run(random_slots(), random_between(1, longest));
}

/* Large tables are dear, so they get few calls; the largest are always among them. */
static void run_large(uint64_t calls) {
    static part *const parts[] = {run_fresh, run_sound, run_sound, run_damaged};
    uint64_t end = counts.calls + calls;
    for (uint32_t i = 0; counts.calls < end; i++) parts[i % 4](i % 8 < 4 ? GUONTREM_MAX_SLOTS : random_between(4001, GUONTREM_MAX_SLOTS), 8);
    printf("%12" PRIu64 "  calls on tables of more than 4,000 slots\n", counts.calls - end + calls);
}

int main(int count, char **words) {
    uint64_t calls = count > 1 ? strtoull(words[1], NULL, 10) : SHORT_FORM;
    uint64_t seed = count > 2 ? strtoull(words[2], NULL, 10) : (uint64_t)time(NULL);
    printf("%" PRIu64 " calls, seed %" PRIu64 "\n", calls, seed);
    fflush(stdout);
    check_limits();
    check_wrappers();
    seed_random(seed);
    run_part(run_fresh, calls * 45 / 100, 300);
    run_part(run_sound, calls * 15 / 100, 10);
    run_part(run_damaged, calls * 25 / 100, 10);
    run_large(1 + calls / 10000);
    run_twins(calls * 10 / 100);
    run_price_twins(calls * 5 / 100);
    report_counts();
    return 0;
}
