/* Scans: the archive's beside plain C, and plain C beside one lookup for each docket. */
#include "scans.h"

#include "native_store.h"

#include <stdlib.h>
#include <string.h>

enum { MOST_DOCKETS = GUONTREM_MAX_DOCKET + 1, WIDEST_BY_LOOKUPS = 100 };
/* Behind the lent rows, like the words about the tables. */
static const size_t spare_rows = GUARD_WORDS;

size_t live_dockets(const struct store *s, uint32_t lo, uint32_t hi) {
    static struct guontrem_row rows[MOST_DOCKETS];
    return native_scan(s->entries, s->entry_words, s->levels, s->level_words, lo, hi, rows, MOST_DOCKETS).count;
}

static void *junk_rows(size_t count, size_t size) {
    size_t bytes = (count + spare_rows) * size;
    void *rows = malloc(bytes);
    if (rows == NULL) exit(2);
    memset(rows, 0xa5, bytes);
    return rows;
}

struct lent lend_rows(enum kind kind, size_t count) {
    struct lent lent = {NULL, NULL, NULL};
    if (kind == SCAN) lent.rows = junk_rows(count, sizeof *lent.rows);
    if (kind == SCAN_COUNTS) lent.count_rows = junk_rows(count, sizeof *lent.count_rows);
    return lent;
}

void free_rows(const struct lent *lent) {
    free(lent->rows);
    free(lent->count_rows);
}

bool same_rows(const struct lent *a, const struct lent *b, size_t count) {
    size_t rows = count + spare_rows;
    if (a->rows != NULL) return memcmp(a->rows, b->rows, rows * sizeof *a->rows) == 0;
    return a->count_rows == NULL || memcmp(a->count_rows, b->count_rows, rows * sizeof *a->count_rows) == 0;
}

static void fill_row(const struct lent *lent, size_t at, uint32_t docket, struct native_found f) {
    if (lent->rows != NULL) lent->rows[at] = (struct guontrem_row){docket, f.count, f.price, f.stamp};
    else lent->count_rows[at] = (struct guontrem_count_row){docket, f.count, f.stamp};
}

/* The check is left out, since a scan that is not refused has done it. */
static struct answer scan_by_lookups(const struct store *s, const struct call *c, const struct lent *lent) {
    struct answer a = {0, {0}};
    native_checks = 0;
    for (uint32_t docket = c->lo; docket <= c->hi && a.parts[1] == 0; docket++) {
        struct native_found f = native_lookup(s->entries, s->entry_words, s->levels, s->level_words, docket);
        if (f.found && a.parts[0] < c->row_count) fill_row(lent, a.parts[0]++, docket, f);
        else if (f.found) a.parts[1] = 1, a.parts[2] = docket;
    }
    native_checks = 1;
    return a;
}

static void compare_scans(const struct pair *p, const struct call *c, struct answer a, const struct lent *x, struct answer b, const struct lent *y) {
    if (memcmp(&a, &b, sizeof a) != 0) fail("the scans' answers differ", p, c);
    if (!same_rows(x, y, c->row_count)) fail("the scans' rows differ", p, c);
}

struct answer scan_both(const struct pair *p, const struct call *c) {
    struct lent expected = lend_rows(c->kind, c->row_count), rows = lend_rows(c->kind, c->row_count), plain = lend_rows(c->kind, c->row_count);
    uint64_t number = native_call(&p->proved, c, &expected);
    struct answer a = unpack_plainly(c->kind, number, 0);
    if (a.refusal == 0 && c->hi - c->lo < WIDEST_BY_LOOKUPS) compare_scans(p, c, scan_by_lookups(&p->proved, c, &plain), &plain, a, &expected);
    if (proved_call(&p->proved, c, &rows) != number) fail("the answers differ", p, c);
    compare_scans(p, c, unpack(c->kind, number, 0), &rows, a, &expected);
    free_rows(&expected);
    free_rows(&rows);
    free_rows(&plain);
    return a;
}
