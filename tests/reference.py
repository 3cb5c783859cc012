"""Document 01's steps with requests S-1, S-2, S-4 and S-5, written plainly: levels are lists of records, no tables and no chains."""

PUT, DELETE, RANGE = 1, 2, 3
NO_TALLY = (0, 0)


class Level:
    def __init__(self):
        self.points = {}   # docket -> (kind, tally, stamp), a tally being a count and a price
        self.ranges = {}   # (lo, hi) -> (date, stamp)
        self.owed = 0

    def held(self):
        return len(self.points) + len(self.ranges)


def earlier(a, b):
    return min(x for x in (a, b) if x) if (a or b) else 0


class Store:
    def __init__(self, n, l, t, b, d):
        self.n, self.l, self.t, self.b, self.d = n, l, t, b, d
        self.clock = 0
        self.levels = [Level() for _ in range(l + 1)]
        self.merges = 0

    def limit(self, i):
        return self.d * (self.t ** (i + 1) - 1) // (self.t ** self.l - 1)

    def capacity(self, i):
        return self.b * self.t ** i

    def held(self):
        return sum(x.held() for x in self.levels)

    def free(self):
        return self.n - self.held()

    @staticmethod
    def goes(u, k, stamp):
        return k in u.points or any(lo <= k <= hi and stamp <= date for (lo, hi), (date, _) in u.ranges.items())

    def join(self, u, l, deepest):
        # Judged by the ranges of u as they are, before they are united.
        for k in [k for k, (_, _, stamp) in l.points.items() if self.goes(u, k, stamp)]:
            del l.points[k]
        l.points.update(u.points)
        for r, (date, stamp) in u.ranges.items():
            other_date, other_stamp = l.ranges.get(r, (0, 0))
            l.ranges[r] = (max(date, other_date), max(stamp, other_stamp))
        l.owed = earlier(u.owed, l.owed)
        if deepest:
            l.points = {k: p for k, p in l.points.items() if p[0] == PUT}
            l.ranges = {}
            l.owed = 0

    def merge(self, i):
        u = self.levels[i]
        if u.held():
            self.merges += 1
        self.join(u, self.levels[i + 1], i + 1 == self.l)
        self.levels[i] = Level()

    def due(self, i, t):
        x = self.levels[i]
        full = x.held() > self.capacity(i) if i else x.held() >= self.b
        return full or (x.owed and t - x.owed >= self.limit(i))

    def the_pass(self, t):
        for i in range(self.l):
            if self.due(i, t):
                self.merge(i)

    def call(self, op, t, *args):
        """The answer: refusal, merges, purged."""
        if op in 'PD' and args[0] > 65535 or op in 'RY' and (args[1] > 65535 or args[0] > args[1]):
            return (4, 0, 0)
        if t == 0 or t < self.clock:
            return (5, 0, 0)
        if op == 'Y' and (args[2] == 0 or args[2] > t):
            return (10, 0, 0)
        before, self.merges = self.held(), 0
        written = op in 'PDRY'
        if written:
            w = Level()
            if op == 'P':
                w.points[args[0]] = (PUT, args[1:3], t)
            elif op == 'D':
                w.points[args[0]] = (DELETE, NO_TALLY, t)
                w.owed = t
            else:
                w.ranges[(args[0], args[1])] = (args[2] if op == 'Y' else t, t)
                w.owed = t
            b = self.levels[0]
            frees = any(self.goes(w, k, stamp) for k, (_, _, stamp) in b.points.items()) or any(r in b.ranges for r in w.ranges)
            direct = False   # on level L
            if self.free() == 0 and not frees:
                for i in range(self.l):
                    self.merge(i)
                direct = self.free() == 0
            if direct:
                deep = self.levels[self.l]
                if op == 'P':
                    if args[0] not in deep.points:
                        return (7, 0, 0)
                    deep.points[args[0]] = (PUT, args[1:3], t)
                else:
                    deep.points = {k: p for k, p in deep.points.items() if not self.goes(w, k, p[2])}
            else:
                self.join(w, self.levels[0], False)
        elif op == 'F':
            self.merge(0)
        self.the_pass(t)
        self.clock = t
        return (0, self.merges, before + written - self.held())

    def wake(self):
        """The clock of the next due merge, or None."""
        return min((self.levels[i].owed + self.limit(i) for i in range(self.l) if self.levels[i].owed), default=None)

    def lookup(self, k):
        """Found, count, price and stamp."""
        latest = 0   # date met so far
        for x in self.levels:
            if k in x.points:
                kind, tally, stamp = x.points[k]
                return (1, *tally, stamp) if kind == PUT and stamp > latest else (0, 0, 0, 0)
            latest = max([latest] + [date for (lo, hi), (date, _) in x.ranges.items() if lo <= k <= hi])
        return (0, 0, 0, 0)
