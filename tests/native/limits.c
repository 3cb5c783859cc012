/* The header's limits are the archive's: each end is accepted, and what lies past it is refused. */
#include "limits.h"

#include "counts.h"

static uint32_t refusal_of_make(uint32_t slots, struct settings settings) {
    struct store s = new_store(GUONTREM_ENTRY_WORDS(slots), GUONTREM_LEVEL_WORDS(settings.deepest));
    uint32_t refusal = guontrem_make(s.entries, s.entry_words, s.levels, s.level_words, settings.deepest, settings.ratio, settings.buffer, settings.term);
    free_store(&s);
    return refusal;
}

static uint32_t refusal_of_setting(int which, uint32_t number) {
    struct settings s = {3, 4, 8, 1000};
    uint32_t *const numbers[] = {&s.deepest, &s.ratio, &s.buffer, &s.term};
    *numbers[which] = number;
    return refusal_of_make(6, s);
}

static void check_settings(void) {
    static const uint32_t ends[][2] = {
        {GUONTREM_MIN_DEEPEST, GUONTREM_MAX_DEEPEST},
        {GUONTREM_MIN_RATIO, GUONTREM_MAX_RATIO},
        {GUONTREM_MIN_BUFFER, GUONTREM_MAX_BUFFER},
        {GUONTREM_MIN_TERM, GUONTREM_MAX_TERM},
    };
    for (int i = 0; i < 4; i++) {
        require(refusal_of_setting(i, ends[i][0]) == GUONTREM_ACCEPTED, "the least setting");
        require(refusal_of_setting(i, ends[i][1]) == GUONTREM_ACCEPTED, "the greatest setting");
        require(refusal_of_setting(i, ends[i][0] - 1) == GUONTREM_SETTINGS, "a setting below the least");
        /* One past the greatest term is 0 again. */
        require(refusal_of_setting(i, ends[i][1] + 1) == GUONTREM_SETTINGS, "a setting above the greatest");
    }
}

static void check_slots(void) {
    const struct settings settings = {3, 4, 8, 1000};
    require(refusal_of_make(GUONTREM_MIN_SLOTS, settings) == GUONTREM_ACCEPTED, "the fewest slots");
    require(refusal_of_make(GUONTREM_MAX_SLOTS, settings) == GUONTREM_ACCEPTED, "the most slots");
    require(refusal_of_make(GUONTREM_MIN_SLOTS - 1, settings) == GUONTREM_ENTRY_LENGTH, "fewer slots");
    require(refusal_of_make(GUONTREM_MAX_SLOTS + 1, settings) == GUONTREM_ENTRY_LENGTH, "more slots");
}

static void check_dockets(void) {
    uint32_t entries[GUONTREM_ENTRY_WORDS(6)], levels[GUONTREM_LEVEL_WORDS(3)];
    size_t ne = GUONTREM_ENTRY_WORDS(6), nl = GUONTREM_LEVEL_WORDS(3);
    require(guontrem_make(entries, ne, levels, nl, 3, 4, 8, 1000) == GUONTREM_ACCEPTED, "a making");
    require(guontrem_timed_refusal(guontrem_put(entries, ne, levels, nl, 1, GUONTREM_MAX_DOCKET, 1, 1)) == GUONTREM_ACCEPTED, "the last docket");
    require(guontrem_timed_refusal(guontrem_put(entries, ne, levels, nl, 1, GUONTREM_MAX_DOCKET + 1, 1, 1)) == GUONTREM_DOCKET, "a docket past the last");
}

static void check_dates(void) {
    uint32_t entries[GUONTREM_ENTRY_WORDS(6)], levels[GUONTREM_LEVEL_WORDS(3)];
    struct guontrem_store store = GUONTREM_STORE(entries, levels);
    require(guontrem_store_make(&store, (struct guontrem_settings){3, 4, 8, 1000}) == GUONTREM_ACCEPTED, "a making");
    require(guontrem_store_delete_range_dated(&store, 5, 0, 9, 0).refusal == GUONTREM_DATE, "date 0");
    require(guontrem_store_delete_range_dated(&store, 5, 0, 9, 6).refusal == GUONTREM_DATE, "a date after the clock");
    require(guontrem_store_delete_range_dated(&store, 5, 0, 9, 1).refusal == GUONTREM_ACCEPTED, "the least date");
    require(guontrem_store_delete_range_dated(&store, 5, 0, 9, 5).refusal == GUONTREM_ACCEPTED, "the clock as date");
    require(guontrem_store_delete_range_dated(&store, 4, 0, 9, 6).refusal == GUONTREM_CLOCK, "an early clock before a date after it");
    require(guontrem_store_delete_range_dated(&store, 4, 1, 0, 6).refusal == GUONTREM_DOCKET, "dockets before clock and date");
}

void check_limits(void) {
    check_settings();
    check_slots();
    check_dockets();
    check_dates();
}
