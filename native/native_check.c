/* The soundness check of document 01, written plainly in C: one walk per chain, one packed mark per slot. */
#include "native_check.h"

#include "guontrem.h"

#include <stdbool.h>
#include <string.h>

enum class { FREE, POINTS, RANGES };

struct walked {
    bool fits;
    size_t count;
};

static const struct walked REFUSED = {false, 0};

/* Whether the row of a record may stand in a chain of points or ranges. */
static bool record_fits(enum class class, const uint32_t *row, uint32_t clock, uint32_t owed) {
    uint32_t kind = row[0] >> 16, lo = row[1] & 65535, hi = row[1] >> 16, word = row[2], stamp = row[3], price = row[4];
    if (stamp == 0 || clock < stamp) return false;
    if (class == POINTS && (lo != hi || (kind != 1 && kind != 2))) return false;
    /* A range delete's word is its date. */
    if (class == RANGES && (hi < lo || kind != 3 || word == 0 || stamp < word)) return false;
    if (kind == 1) return true;
    return (kind == 3 || word == 0) && price == 0 && owed != 0 && owed <= stamp;
}

/* A copy is made for each class. */
static inline __attribute__((always_inline)) struct walked walk(enum class class, const uint32_t *entries, size_t slots, uint32_t head, uint32_t owed, uint8_t *marks) {
    size_t count = 0;
    uint64_t least = 0;
    uint32_t clock = entries[1];
    for (size_t at = head; at != 0;) {
        if (slots < at || (marks[at / 8] >> (at % 8) & 1)) return REFUSED;
        const uint32_t *row = entries + GUONTREM_SLOT_WORDS * at;
        if (class == FREE) {
            if (row[0] >> 16 || row[1] || row[2] || row[3] || row[4]) return REFUSED;
        } else {
            uint64_t key = (uint64_t)(row[1] & 65535) << 16 | row[1] >> 16;
            if (key < least || !record_fits(class, row, clock, owed)) return REFUSED;
            least = key + 1;
        }
        marks[at / 8] |= (uint8_t)(1u << at % 8);
        count += 1;
        at = row[0] & 65535;
    }
    return (struct walked){true, count};
}

static bool settings_fit(const uint32_t *levels) {
    return 2 <= levels[0] && levels[0] <= 6 && 2 <= levels[1] && levels[1] <= 10 && 1 <= levels[2] && levels[2] <= 64 && 1 <= levels[3];
}

uint32_t native_check(const uint32_t *entries, size_t entry_words, const uint32_t *levels, size_t level_words) {
    if (entry_words % 5 != 0 || entry_words < 10 || 327680 < entry_words) return 1;
    if (level_words < 4 || !settings_fit(levels) || level_words != 4 * ((size_t)levels[0] + 2)) return 2;
    size_t slots = entry_words / 5 - 1, deepest = levels[0];
    if (entries[2] != 0 || entries[3] != 0 || entries[4] != 0 || levels[4 * (deepest + 1) + 3] != 0) return 3;
    uint8_t marks[8192];
    memset(marks, 0, sizeof marks);
    struct walked free = walk(FREE, entries, slots, entries[0], 0, marks);
    if (!free.fits) return 3;
    size_t total = free.count;
    for (size_t level = 0; level <= deepest; level++) {
        const uint32_t *row = levels + 4 * (level + 1);
        struct walked points = walk(POINTS, entries, slots, row[0], row[3], marks);
        if (!points.fits) return 3;
        struct walked ranges = walk(RANGES, entries, slots, row[1], row[3], marks);
        if (!ranges.fits) return 3;
        size_t count = points.count + ranges.count;
        if (row[2] != count || entries[1] < row[3] || (count == 0 && row[3] != 0)) return 3;
        total += count;
    }
    return total == slots ? 0 : 3;
}
