/* The script program, written plainly in C: blocks read byte by byte, answers gathered, constant memory. */
#include "native_store.h"

#include <stdbool.h>
#include <stdlib.h>
#include <unistd.h>

enum { MOST_SLOTS = 3275, DEEPEST = 6, MOST_FIELDS = 5, MOST_DIGITS = 10, UNREADABLE = 9 };
/* The longest readable line has 56 bytes, so one that fills its room is of no form; the longest answer has 44. */
enum { INPUT_ROOM = 8192, OUTPUT_ROOM = 65536, LINE_ROOM = 64, ANSWER_ROOM = 44 };

static uint32_t entries[GUONTREM_ENTRY_WORDS(MOST_SLOTS)], levels[GUONTREM_LEVEL_WORDS(DEEPEST)];
/* No words until a store was made. */
static size_t entry_words, level_words;
static uint8_t line[LINE_ROOM], output[OUTPUT_ROOM];
static size_t length, waiting;

/* How many numbers follow a letter; none where it begins no form. */
static size_t field_count(uint8_t letter) {
    switch (letter) {
    case 'M': return 5;
    case 'P': case 'Y': return 4;
    case 'R': return 3;
    case 'D': return 2;
    case 'F': case 'T': case 'G': return 1;
    default: return 0;
    }
}

/* Reads one blank and a number; the place after it, or none. */
static const uint8_t *read_field(const uint8_t *at, const uint8_t *end, uint32_t *number) {
    if (at == end || *at != ' ') return NULL;
    const uint8_t *first = at + 1;
    uint64_t value = 0;
    for (at = first; at != end && '0' <= *at && *at <= '9'; at++) {
        if (at - first == MOST_DIGITS) return NULL;
        value = 10 * value + (uint64_t)(*at - '0');
    }
    if (at == first || UINT32_MAX < value) return NULL;
    *number = (uint32_t)value;
    return at;
}

static bool read_line(uint32_t *numbers) {
    size_t count = length == 0 ? 0 : field_count(line[0]);
    if (count == 0) return false;
    const uint8_t *at = line + 1, *end = line + length;
    for (size_t i = 0; i < count; i++) {
        at = read_field(at, end, &numbers[i]);
        if (at == NULL) return false;
    }
    return at == end;
}

/* The numbers that a line prints: four for a lookup, else three. */
struct printed {
    uint32_t count, numbers[4];
};

static struct printed alone(uint32_t refusal) { return (struct printed){3, {refusal, 0, 0}}; }

static struct printed of_timed(struct native_answer a) { return (struct printed){3, {a.refusal, a.merges, a.purged}}; }

/* A refused making leaves the store there was. */
static struct printed run_make(const uint32_t *n) {
    if (MOST_SLOTS < n[0]) return alone(UNREADABLE);
    size_t words = GUONTREM_ENTRY_WORDS(n[0]), rows = GUONTREM_LEVEL_WORDS(DEEPEST < n[1] ? DEEPEST : n[1]);
    uint32_t refusal = native_make(entries, words, levels, rows, n[1], n[2], n[3], n[4]);
    if (refusal == 0) entry_words = words, level_words = rows;
    return alone(refusal);
}

static struct printed run_lookup(uint32_t docket) {
    struct native_found f = native_lookup(entries, entry_words, levels, level_words, docket);
    return (struct printed){4, {f.refusal, f.found, f.count, f.price}};
}

static struct printed run_line(void) {
    uint32_t n[MOST_FIELDS];
    if (!read_line(n)) return alone(UNREADABLE);
    if (line[0] == 'M') return run_make(n);
    if (entry_words == 0) return alone(UNREADABLE);
    switch (line[0]) {
    case 'P': return of_timed(native_put(entries, entry_words, levels, level_words, n[0], n[1], n[2], n[3]));
    case 'D': return of_timed(native_delete(entries, entry_words, levels, level_words, n[0], n[1]));
    case 'R': return of_timed(native_delete_range(entries, entry_words, levels, level_words, n[0], n[1], n[2]));
    case 'Y': return of_timed(native_delete_range_dated(entries, entry_words, levels, level_words, n[0], n[1], n[2], n[3]));
    case 'F': return of_timed(native_flush(entries, entry_words, levels, level_words, n[0]));
    case 'T': return of_timed(native_tick(entries, entry_words, levels, level_words, n[0]));
    default: return run_lookup(n[0]);
    }
}

/* A closed output ends the program quietly. */
static void write_out(void) {
    for (size_t done = 0; done < waiting;) {
        ssize_t written = write(STDOUT_FILENO, output + done, waiting - done);
        if (written <= 0) exit(0);
        done += (size_t)written;
    }
    waiting = 0;
}

static void print_number(uint32_t number, uint8_t ending) {
    uint8_t digits[MOST_DIGITS];
    size_t count = 0;
    do digits[count++] = (uint8_t)('0' + number % 10), number /= 10;
    while (number != 0);
    while (count != 0) output[waiting++] = digits[--count];
    output[waiting++] = ending;
}

static void end_line(void) {
    struct printed answer = run_line();
    if (OUTPUT_ROOM - waiting < ANSWER_ROOM) write_out();
    for (uint32_t i = 0; i < answer.count; i++) print_number(answer.numbers[i], i + 1 == answer.count ? '\n' : ' ');
    length = 0;
}

int main(void) {
    static uint8_t input[INPUT_ROOM];
    ssize_t count;
    while (write_out(), (count = read(STDIN_FILENO, input, sizeof input)) > 0)
        for (ssize_t i = 0; i < count; i++) {
            if (input[i] == '\n') end_line();
            else if (length < LINE_ROOM) line[length++] = input[i];
        }
    if (length != 0) end_line();
    write_out();
    return 0;
}
