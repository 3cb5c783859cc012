/* Request S-5 on the built code: what a controller that sleeps relies on. */
#include "sleep.h"

#include "counts.h"
#include "random.h"

enum { TICKS = 3, QUIET_CALLS = 40 };

static struct store copy_of(const struct store *s) {
    struct store copy = new_store(s->entry_words, s->level_words);
    copy_words(&copy, s);
    return copy;
}

static uint64_t tick_at(const struct store *s, uint32_t clock) { return proved_call(s, &(struct call){.kind = TICK, .clock = clock}, NULL); }

/* Ticks one after the other, the last of them as late as may be. */
static void sleep_till(const struct pair *p, const struct call *c, const struct store *s, uint32_t most) {
    uint32_t clock = s->entries[1];
    for (int i = 0; i < TICKS; i++) {
        clock = i + 1 == TICKS ? most : random_between(clock, most);
        if (tick_at(s, clock) != 0) fail("a tick before the clock to wake at is refused, merges or purges", p, c);
        if (s->entries[1] != clock) fail("such a tick leaves another last clock", p, c);
        s->entries[1] = p->proved.entries[1];
        if (!same_words(s, &p->proved)) fail("such a tick changes a word", p, c);
        s->entries[1] = clock;
        counts.slept++;
    }
}

void check_sleep(const struct pair *p, const struct call *c) {
    struct store s = copy_of(&p->proved);
    uint64_t wake = guontrem_wake(s.entries, s.entry_words, s.levels, s.level_words);
    if (guontrem_wake_refusal(wake) != 0) fail("the clock to wake at is refused after an accepted call", p, c);
    if (wake <= s.entries[1]) fail("the clock to wake at is not after the last clock", p, c);
    sleep_till(p, c, &s, wake <= UINT32_MAX ? (uint32_t)wake - 1 : UINT32_MAX);
    if (wake <= UINT32_MAX) {
        uint64_t woken = tick_at(&s, (uint32_t)wake);
        if (guontrem_timed_refusal(woken) != 0 || guontrem_timed_merges(woken) == 0) fail("a tick at the clock to wake at is refused or merges nothing", p, c);
        counts.woken++;
    }
    free_store(&s);
}

void run_quiet(const struct store *from) {
    struct store s = copy_of(from);
    uint32_t deepest = s.level_words == 0 ? 0 : s.levels[0], clock = s.entry_words < 2 ? 0 : s.entries[1], merges = 0;
    for (int i = 0; i < QUIET_CALLS; i++) {
        uint64_t wake = guontrem_wake(s.entries, s.entry_words, s.levels, s.level_words);
        uint32_t next = one_in(2) && wake <= UINT32_MAX ? (uint32_t)wake : clock + (one_in(4) ? random_below(9) : 0);
        struct call c = {.kind = one_in(8) ? FLUSH : TICK, .clock = next < clock ? clock : next};
        uint64_t answer = proved_call(&s, one_in(10) ? &(struct call){.kind = TICK, .clock = random_below(clock)} : &c, NULL);
        merges += guontrem_timed_merges(answer);
        if (guontrem_timed_refusal(answer) == 0) clock = s.entries[1];
    }
    require(2 * merges <= deepest * (deepest + 1), "the merges of a list without writes");
    counts.quiet++, counts.quiet_merges += merges;
    free_store(&s);
}
