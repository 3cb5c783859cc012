"""What the tests run on: random settings, random calls, random tables sound and damaged, and stores in a given state."""
import library
import reference
import tables
from tables import BASE, DELETE, PUT, RANGE, WORDS

LARGEST = 4294967295
LETTERS = "PPPPPDDRYYFTT"


def fresh_store(n, l, t, b, d):
    """A store of the library, made where the tables were junk."""
    store = library.Store([0xdead] * (WORDS * (n + 1)), [0xbeef] * (4 * (l + 2)))
    assert store.make(l, t, b, d) == 0
    return store


def read_levels(entries, levels):
    """Each level read along its chains: points, ranges and owed, as the reference keeps them."""
    for i in range(levels[0] + 1):
        points, ranges, _, owed = levels[4 * (i + 1):4 * (i + 2)]
        rows = [[tables.Row(entries, s) for s in tables.chain(entries, head)] for head in (points, ranges)]
        yield {p.lo: (p.kind, (p.count, p.price), p.stamp) for p in rows[0]}, {(r.lo, r.hi): (r.date, r.stamp) for r in rows[1]}, owed


def reference_of(entries, levels):
    """The reference in the state that sound tables read as."""
    store = reference.Store(tables.slots_of(entries), *levels[:4])
    store.clock = entries[1]
    for level, (level.points, level.ranges, level.owed) in zip(store.levels, read_levels(entries, levels)):
        pass
    return store


def random_settings(rng, n):
    l = rng.randint(2, 6)
    return n, l, rng.randint(2, 10), rng.choice((1, 2, 3, 8, 64)), rng.choice((1, 2, 9, 40, 1000, 3 * 10 ** 9, LARGEST))


class RandomCalls:
    """Calls on one store. Spans and clocks come back, so that ranges are alike and dates fall on stamps."""

    def __init__(self, rng, dockets, term):
        self.rng, self.dockets = rng, dockets
        self.steps = rng.choice(((0, 0, 0, 0, 1), (0, 0, 0, 1, 1, 1, 2, term, -1, rng.randrange(2 * term + 2))))
        self.spans, self.clocks = [], [1]

    def draw(self, clock):
        t, (lo, hi) = min(LARGEST, max(0, clock + self.rng.choice(self.steps))), self.span()
        self.spans.append((lo, hi))
        self.clocks.append(t)
        odd = self.rng.random()
        # A date out of range is met beside other faults too, to see which is told.
        date = self.rng.choice((0, t + 1)) if self.rng.random() < (0.5 if odd < 0.02 or t < clock else 0.03) else self.date(t)
        if odd < 0.01:
            lo, hi = hi + 1, lo
        elif odd < 0.02:
            lo, hi = 65536, 65536 + self.rng.randrange(5)
        numbers = {"P": (lo, self.rng.getrandbits(32), self.price()), "D": (lo,), "R": (lo, hi), "Y": (lo, hi, date), "F": (), "T": ()}
        letter = self.rng.choice(LETTERS)
        return letter, t, *numbers[letter]

    def price(self):
        return self.rng.choice((0, 1, LARGEST, self.rng.getrandbits(32), self.rng.getrandbits(32)))

    def span(self):
        if self.spans and self.rng.random() < 0.3:
            return self.rng.choice(self.spans[-20:])
        return sorted((self.rng.randrange(self.dockets), self.rng.randrange(self.dockets)))

    def date(self, t):
        old = self.rng.choice(self.clocks[-20:])
        return min(max(1, self.rng.choice((t, t, t - 1, t // 2, 1, old, old, old, old - 1, old + 1))), max(1, t))


def random_tables(rng):
    """Sound tables, mostly not reachable by calls."""
    deepest, slots, last = rng.randint(2, 6), rng.randint(1, 40), rng.choice((4, 30))
    order = rng.sample(range(1, slots + 1), slots)
    clock = rng.randint(1, 50)
    entries, levels = [0] * (WORDS * (slots + 1)), [deepest, rng.randint(2, 10), rng.randint(1, 64), rng.randint(1, LARGEST)] + [0] * (4 * (deepest + 1))
    entries[1] = clock

    def lay(records):
        taken = [order.pop() for _ in records]
        for slot, after, (kind, span, word, stamp, price) in zip(taken, taken[1:] + [0], records):
            entries[WORDS * slot:WORDS * (slot + 1)] = [after + BASE * kind, span, word, stamp, price]
        return taken[0] if taken else 0

    def dated(span, stamp):
        return RANGE, span, rng.choice((1, stamp, rng.randint(1, stamp))), stamp, 0

    def point(kind, k):
        count, price = (rng.getrandbits(32), rng.getrandbits(32)) if kind == PUT else (0, 0)
        return kind, k + BASE * k, count, rng.randint(1, clock), price

    for i in range(deepest + 1):
        room = rng.randint(0, len(order))
        dockets = sorted(rng.sample(range(last), min(last, rng.randint(0, room))))
        kinds = [PUT if i == deepest else rng.choice((PUT, DELETE)) for _ in dockets]
        points = [point(kind, k) for kind, k in zip(kinds, dockets)]
        spans = sorted({tuple(sorted((rng.randrange(last), rng.randrange(last)))) for _ in range(0 if i == deepest else min(4, room - len(points)))})
        ranges = [dated(lo + BASE * hi, rng.randint(1, clock)) for lo, hi in spans]
        stamps = [r[3] for r in points + ranges if r[0] != PUT]
        owed = rng.randint(1, min(stamps)) if stamps else rng.choice((0, clock)) if points and i < deepest else 0
        levels[4 * (i + 1):4 * (i + 2)] = [lay(points), lay(ranges), len(points) + len(ranges), owed]
    entries[0] = lay([(0, 0, 0, 0, 0)] * len(order))
    return entries, levels


def reprice(rng, entries):
    """The same entry table with other prices in its puts."""
    entries = list(entries)
    for at in range(WORDS, len(entries), WORDS):
        if entries[at] // BASE == PUT:
            entries[at + 4] = rng.getrandbits(32)
    return entries


def damage(rng, entries, levels):
    """A date out of range, a price outside a put, or one or two words changed, two links exchanged, words cut off."""
    entries, levels = list(entries), list(levels)
    ranges = [at for at in range(WORDS, len(entries), WORDS) if entries[at] // BASE == RANGE]
    if ranges and rng.random() < 0.2:
        at = rng.choice(ranges)
        entries[at + 2] = rng.choice((0, entries[at + 3] + 1, LARGEST))
        return entries, levels
    if rng.random() < 0.1:
        at = rng.choice([at for at in range(0, len(entries), WORDS) if at == 0 or entries[at] // BASE != PUT])
        entries[at + 4] = rng.choice((1, LARGEST, 1 << rng.randrange(32)))
        return entries, levels
    for _ in range(rng.randint(1, 2)):
        words = rng.choice((entries, levels))
        at = rng.randrange(len(words))
        near = rng.randrange(tables.slots_of(entries) + 2)
        words[at] = rng.choice((near, words[at] ^ 1 << rng.randrange(32), 0, (words[at] + 1) % (1 << 32), words[at] // BASE * BASE + near, rng.getrandbits(32)))
    if rng.random() < 0.2:
        a, b = (WORDS * rng.randrange(len(entries) // WORDS) for _ in range(2))
        entries[a], entries[b] = entries[b], entries[a]
    if rng.random() < 0.05:
        words = rng.choice((entries, levels))
        del words[rng.randrange(len(words)):]
    return entries, levels
