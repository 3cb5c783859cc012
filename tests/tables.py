"""Document 01's "Sound tables", making and lookup on words, with requests S-1, S-2 and S-5, written plainly from the text: no marks, no early end."""

FREE, PUT, DELETE, RANGE = 0, 1, 2, 3
BASE = 65536
WORDS = 5   # of a slot


def settings_fit(l, t, b, d):
    return 2 <= l <= 6 and 2 <= t <= 10 and 1 <= b <= 64 and 1 <= d


def entries_fit(entries):
    return len(entries) in range(2 * WORDS, WORDS * BASE + 1, WORDS)


def slots_of(entries):
    return len(entries) // WORDS - 1


def made(entries, levels, l, t, b, d):
    """The answer of a making, and both tables after it."""
    if not entries_fit(entries):
        return 1, entries, levels
    if not settings_fit(l, t, b, d):
        return 6, entries, levels
    if len(levels) != 4 * (l + 2):
        return 2, entries, levels
    n = slots_of(entries)
    rows = [(s + 1 if s < n else 0, 0, 0, 0, 0) for s in range(n + 1)]
    return 0, [w for row in rows for w in row], [l, t, b, d] + [0] * (4 * (l + 1))


class Row:
    def __init__(self, entries, slot):
        w0, w1, w2, self.stamp, self.price = entries[WORDS * slot:WORDS * (slot + 1)]
        self.kind, self.next = divmod(w0, BASE)
        self.hi, self.lo = divmod(w1, BASE)
        self.span, self.count, self.date = w1, w2, w2   # word 2 is a range delete's date

    def covers(self, point):
        return self.lo <= point.lo <= self.hi and point.stamp <= self.date


def chain(entries, head):
    """The slots of a chain, or None where it leaves the table or does not end."""
    slots = []
    while head:
        if head > slots_of(entries) or len(slots) > len(entries):
            return None
        slots.append(head)
        head = entries[WORDS * head] % BASE
    return slots


def level_sound(entries, row, points, ranges):
    _, _, number, owed = row
    clock = entries[1]
    ps, rs = [Row(entries, s) for s in points], [Row(entries, s) for s in ranges]
    records = ps + rs
    deletes = [r for r in records if r.kind != PUT]
    dockets, spans = [p.lo for p in ps], [(r.lo, r.hi) for r in rs]
    return (all(p.kind in (PUT, DELETE) and p.lo == p.hi for p in ps)
            and all(r.kind == RANGE and r.lo <= r.hi for r in rs)
            and all(p.count == 0 for p in ps if p.kind == DELETE)
            and all(r.price == 0 for r in deletes)
            and all(1 <= r.date <= r.stamp for r in rs)
            and dockets == sorted(set(dockets)) and spans == sorted(set(spans))
            and all(1 <= r.stamp <= clock for r in records)
            and number == len(records)
            and owed <= clock and (records or owed == 0)
            and all(owed != 0 and owed <= r.stamp for r in deletes))


def sound(entries, levels):
    n, deepest = slots_of(entries), levels[0]
    rows = [levels[4 * (i + 1):4 * (i + 2)] for i in range(deepest + 1)]
    chains = [chain(entries, entries[0])] + [chain(entries, row[i]) for row in rows for i in (0, 1)]
    if None in chains or sorted(s for c in chains for s in c) != list(range(1, n + 1)):
        return False
    free = [Row(entries, s) for s in chains[0]]
    points, ranges = chains[1::2], chains[2::2]
    return (entries[2] == entries[3] == entries[4] == 0
            and all(f.kind == f.span == f.count == f.stamp == f.price == 0 for f in free)
            and all(level_sound(entries, *x) for x in zip(rows, points, ranges))
            and rows[deepest][3] == 0 and all(Row(entries, s).kind == PUT for s in points[deepest] + ranges[deepest]))


def refusal(entries, levels):
    if not entries_fit(entries):
        return 1
    if len(levels) < 4 or not settings_fit(*levels[:4]) or len(levels) != 4 * (levels[0] + 2):
        return 2
    return 0 if sound(entries, levels) else 3


def wake(entries, levels):
    """Refusal, and the clock of the next due merge or None: the smallest owed + limit over levels 0 to L−1 with owed not 0."""
    number = refusal(entries, levels)
    if number:
        return number, None
    l, t, _, d = levels[:4]
    owed = [levels[4 * (i + 1) + 3] for i in range(l)]
    return 0, min((o + d * (t ** (i + 1) - 1) // (t ** l - 1) for i, o in enumerate(owed) if o), default=None)


def lookup(entries, levels, docket):
    """Refusal, found, count, price and stamp."""
    number = refusal(entries, levels) or (4 if docket > 65535 else 0)
    if number:
        return number, 0, 0, 0, 0
    above = []   # the ranges of the levels above
    for i in range(levels[0] + 1):
        row = levels[4 * (i + 1):4 * (i + 2)]
        for p in (Row(entries, s) for s in chain(entries, row[0])):
            if p.lo == docket:
                return (0, 1, p.count, p.price, p.stamp) if p.kind == PUT and not any(r.covers(p) for r in above) else (0, 0, 0, 0, 0)
        above += [Row(entries, s) for s in chain(entries, row[1])]
    return 0, 0, 0, 0, 0


def without_price(lookup_answer):
    """What the grower's lookup gives of the hall's answer: refusal, found, count and stamp."""
    number, found, count, _, stamp = lookup_answer
    return number, found, count, stamp


def same_but_prices(one, other):
    """Whether two entry tables are alike in every word but the prices of puts."""
    return len(one) == len(other) and all(
        a == b or at >= WORDS and at % WORDS == 4 and one[at - 4] // BASE == PUT for at, (a, b) in enumerate(zip(one, other)))
