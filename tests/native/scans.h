#ifndef GUONTREM_TEST_SCANS_H
#define GUONTREM_TEST_SCANS_H

#include "pairs.h"

/* How many live dockets a scan could tell of; none where it is refused. */
size_t live_dockets(const struct store *s, uint32_t lo, uint32_t hi);
/* Rows for a scan of the kind, none as a scan would write it, and as many again as there are guard words; none for other kinds. */
struct lent lend_rows(enum kind kind, size_t count);
void free_rows(const struct lent *lent);
/* Whether so many rows, and the guarding ones behind them, are the same. */
bool same_rows(const struct lent *a, const struct lent *b, size_t count);
/* A scan in plain C beside one lookup for each docket, and the archive's beside it. */
struct answer scan_both(const struct pair *p, const struct call *c);

#endif
