/* Times a tick that merges range deletes onto live dockets, by the archive and in plain C, by turns, each on a copy of the same tables. Half
   the slots are live dockets in the deepest level, the others range deletes in the level above, none with a date that covers one. Prints a
   line for each shape and size: shape, slots, microseconds proved and in C, and their ratio. */
#include "native_store.h"
#include "tables.h"
#include "timing.h"

#include <stdio.h>
#include <stdlib.h>
#include <string.h>

enum { MOST_ROUNDS = 61, NOW = 100000 };

/* Narrow ranges, each over one docket, behind so many wide ones; or each range within the one before, its date later. */
static const struct form {
    const char *name;
    uint32_t wide, nested;
} forms[] = {{"narrow", 0, 0}, {"one wide", 1, 0}, {"eight wide", 8, 0}, {"nested", 0, 1}};

static const struct size {
    uint32_t slots, calls, rounds;
} sizes[] = {{100, 200, 61}, {1000, 20, 41}, {4000, 4, 21}, {65535, 1, 5}};

static uint32_t entries[2][GUONTREM_ENTRY_WORDS(GUONTREM_MAX_SLOTS)], levels[2][LEVEL_WORDS];
static struct store before = {entries[0], levels[0], 0, LEVEL_WORDS}, work = {entries[1], levels[1], 0, LEVEL_WORDS};

static struct record range_at(const struct form *form, uint32_t i, uint32_t docket, uint32_t step) {
    if (form->nested) return (struct record){RANGE_KIND, i * step, GUONTREM_MAX_DOCKET - i * step, i + 1, NOW, 0};
    if (i < form->wide) return (struct record){RANGE_KIND, 0, GUONTREM_MAX_DOCKET - form->wide + i, 1, NOW, 0};
    return (struct record){RANGE_KIND, docket, docket, NOW - 1, NOW, 0};
}

static void lay(const struct form *form, uint32_t slots) {
    uint32_t ranges = slots / 2, step = (GUONTREM_MAX_DOCKET + 1) / (slots - ranges);
    before.entry_words = work.entry_words = GUONTREM_ENTRY_WORDS(slots);
    native_make(before.entries, before.entry_words, before.levels, before.level_words, DEEPEST, RATIO, BUFFER, TERM);
    before.entries[0] = 0, before.entries[1] = NOW;
    for (uint32_t i = slots; i-- > 0;) {
        uint32_t docket = i / 2 * step;
        if (i % 2 == 0) lay_record(&before, i + 1, DEEPEST, (struct record){PUT_KIND, docket, docket, i, NOW, i});
        else lay_record(&before, i + 1, DEEPEST - 1, range_at(form, i / 2, docket, step / 2));
    }
}

/* Microseconds a tick. */
static double run(call_on *f, const struct size *size, uint64_t *answer) {
    const struct call tick = {.kind = TICK, .clock = NOW};
    double spent = 0;
    for (uint32_t i = 0; i < size->calls; i++) {
        memcpy(work.entries, before.entries, before.entry_words * sizeof *before.entries);
        memcpy(work.levels, before.levels, sizeof levels[0]);
        double start = microseconds();
        *answer = f(&work, &tick, NULL);
        spent += microseconds() - start;
    }
    return spent / size->calls;
}

static void measure(const struct form *form, const struct size *size) {
    static double proved[MOST_ROUNDS], native[MOST_ROUNDS], ratio[MOST_ROUNDS];
    lay(form, size->slots);
    for (uint32_t i = 0; i < size->rounds; i++) {
        uint64_t answers[2];
        if (i % 2 == 0) native[i] = run(native_call, size, &answers[1]);
        proved[i] = run(proved_call, size, &answers[0]);
        if (i % 2 == 1) native[i] = run(native_call, size, &answers[1]);
        if (answers[0] != answers[1] || guontrem_timed_merges(answers[0]) != 1 || guontrem_timed_purged(answers[0]) != size->slots / 2) {
            fprintf(stderr, "%s, %u slots: the answers differ, or more went than the range deletes\n", form->name, size->slots);
            exit(1);
        }
        ratio[i] = proved[i] / native[i];
    }
    printf("%s\t%u\t%.4f\t%.4f\t%.3f\n", form->name, size->slots, median(proved, size->rounds), median(native, size->rounds), median(ratio, size->rounds));
    fflush(stdout);
}

int main(void) {
    for (size_t i = 0; i < sizeof forms / sizeof *forms; i++)
        for (size_t k = 0; k < sizeof sizes / sizeof *sizes; k++) measure(&forms[i], &sizes[k]);
    return 0;
}
