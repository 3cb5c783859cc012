/* A shift in a hall, as in shift.txt: pallets are put with their count and their price, counted again, deleted one by one, as a lot and by
   the day they were graded, and erased for good while the controller sleeps: it wakes for the next due merge and ticks, and at no other
   time. Then what the grower's terminal shows: counts, and no price. */
#include "guontrem.h"

#include <stdio.h>
#include <stdlib.h>

enum { SLOTS = 40, DEEPEST = 3, RATIO = 2, BUFFER = 4, TERM = 60, ROWS = 2 };

static uint32_t entries[GUONTREM_ENTRY_WORDS(SLOTS)], levels[GUONTREM_LEVEL_WORDS(DEEPEST)];
static struct guontrem_store store = GUONTREM_STORE(entries, levels);

static void show(const char *what, struct guontrem_timed_answer answer) {
    printf("%-28s refusal %u, merges %u, purged %u\n", what, answer.refusal, answer.merges, answer.purged);
}

static void show_live(uint32_t docket, uint32_t count, uint32_t price, uint32_t stamp) {
    printf("  docket %u: count %u, price %u, put at %u\n", docket, count, price, stamp);
}

static void show_docket(uint32_t docket) {
    struct guontrem_lookup_answer answer = guontrem_store_lookup(&store, docket);
    if (answer.found) show_live(docket, answer.count, answer.price, answer.stamp);
    else printf("  docket %u: absent\n", docket);
}

/* All live dockets, some rows at a time: each scan goes on where the last one had no more room. */
static void show_all(void) {
    struct guontrem_row rows[ROWS];
    struct guontrem_scan_answer answer = {0, 0, 0, 0};
    do {
        answer = guontrem_store_scan(&store, answer.next, GUONTREM_MAX_DOCKET, rows, ROWS);
        for (uint32_t i = 0; i < answer.count; i++) show_live(rows[i].docket, rows[i].count, rows[i].price, rows[i].stamp);
    } while (answer.more);
}

/* What a grower may see of all live dockets. */
static void show_counts(void) {
    struct guontrem_count_row rows[SLOTS];
    struct guontrem_scan_answer answer = guontrem_store_scan_counts(&store, 0, GUONTREM_MAX_DOCKET, rows, SLOTS);
    for (uint32_t i = 0; i < answer.count; i++) printf("  docket %u: count %u, put at %u\n", rows[i].docket, rows[i].count, rows[i].stamp);
}

/* Sleeps till there is nothing to wake for. A real controller lets its own clock run that far, and a call that comes first wakes it too:
   after that call it asks again. */
static void sleep_on(void) {
    for (struct guontrem_wake_answer wake; (wake = guontrem_store_wake(&store)).clock <= UINT32_MAX;) {
        printf("  asleep from %u to %u\n", guontrem_store_clock(&store), (uint32_t)wake.clock);
        show("tick on waking", guontrem_store_tick(&store, (uint32_t)wake.clock));
    }
}

int main(void) {
    struct guontrem_settings settings = {DEEPEST, RATIO, BUFFER, TERM};
    if (guontrem_store_make(&store, settings) != GUONTREM_ACCEPTED) return EXIT_FAILURE;
    show("put 1200 at 1", guontrem_store_put(&store, 1, 1200, 10800, 1944));
    show("put 1201 at 4", guontrem_store_put(&store, 4, 1201, 10620, 1912));
    show("put 3400 at 9", guontrem_store_put(&store, 9, 3400, 9720, 1750));
    show("put 3401 at 15", guontrem_store_put(&store, 15, 3401, 9900, 1782));
    show("put 1201 again at 18", guontrem_store_put(&store, 18, 1201, 10440, 1879));
    show("put 5000 at 22", guontrem_store_put(&store, 22, 5000, 10080, 1814));
    show("put 5001 at 23", guontrem_store_put(&store, 23, 5001, 10260, 1847));
    show_docket(1201);
    show("delete 1200 at 30", guontrem_store_delete(&store, 30, 1200));
    show("delete 3400 to 3499 at 41", guontrem_store_delete_range(&store, 41, 3400, 3499));
    show_docket(1200);
    show_docket(3401);
    show("delete graded to 22 at 44", guontrem_store_delete_range_dated(&store, 44, 1000, 5999, 22));
    show_docket(5000);
    show_docket(5001);
    sleep_on();
    show("tick at 80, refused", guontrem_store_tick(&store, 80));
    printf("last clock %u, term %u; live:\n", guontrem_store_clock(&store), guontrem_store_settings(&store).term);
    show_all();
    printf("on the grower's terminal:\n");
    show_counts();
    return EXIT_SUCCESS;
}
