"""Scans of the proved library, the hall's and the grower's: against a plain map on small tables, over all dockets, on sound tables of every kind, and on
damaged ones."""
import random
import unittest

import library
import reference
import tables
from loads import RandomCalls, damage, fresh_store, random_settings, random_tables, reference_of, reprice
from plain_map import PlainMap

LAST_DOCKET = 65535
JUNK, COUNT_JUNK = (0xdead, 0xbeef, 0xcafe, 0xfeed), (0xdead, 0xbeef, 0xfeed)


def scanned(live, lo, hi, room):
    """What document 01 says of a scan: refusal, count, more, next docket, and the rows, of which those past the count are unchanged."""
    inside = [(docket, *live[docket]) for docket in sorted(live) if lo <= docket <= hi]
    rows, more = inside[:room], len(inside) > room
    return (0, len(rows), more, inside[room][0] if more else 0), rows + [JUNK] * (room - len(rows))


def without_prices(answer):
    """What the grower's scan gives of the hall's answer."""
    numbers, rows = answer
    return numbers, [(docket, count, stamp) for docket, count, _, stamp in rows]


def live_dockets(store, dockets):
    """Each docket that a lookup of the plain steps finds, with its count, price and stamp."""
    found = {docket: store.lookup(docket) for docket in dockets}
    return {docket: answer[1:] for docket, answer in found.items() if answer[0]}


class Scans(unittest.TestCase):
    def check(self, store, live, lo, hi, room, note):
        """One scan of each kind into rows of junk; they write no word of the tables."""
        before, expected, note = store.words(), scanned(live, lo, hi, room), f"{note}: {lo} to {hi} into {room} rows"
        self.assertEqual(store.scan(lo, hi, [JUNK] * room), expected, note)
        self.assertEqual(store.scan_counts(lo, hi, [COUNT_JUNK] * room), without_prices(expected), note)
        self.assertEqual(store.words(), before, note)

    def check_widths(self, store, live, dockets, note):
        """Every width, with no row, one, exactly enough and too many."""
        for lo in range(dockets):
            for hi in range(lo, dockets):
                inside = sum(lo <= docket <= hi for docket in live)
                for room in {0, 1, max(0, inside - 1), inside, inside + 1, inside + 3}:
                    self.check(store, live, lo, hi, room, note)

    def run_list(self, rng, n, dockets, calls):
        """A store after random calls, the plain map after those that were accepted, and the plain steps."""
        settings = random_settings(rng, n)
        store, plain, steps, drawn = fresh_store(*settings), PlainMap(), reference.Store(*settings), RandomCalls(rng, dockets, settings[4])
        for _ in range(calls):
            call = drawn.draw(steps.clock)
            answer = store.call(*call)
            self.assertEqual(answer, steps.call(*call))
            if answer[0] == 0:
                plain.change(*call)
        return store, plain, steps

    def test_document_01(self):
        """Scan with no rows over a live docket: count 0, more."""
        store = fresh_store(6, 2, 2, 1, 4)
        for docket, count, price in ((5, 50, 4), (6, 60, 0), (7, 70, 4294967295)):
            store.call("P", 1, docket, count, price)
        self.assertEqual(store.scan(6, 7, []), ((0, 0, True, 6), []))
        self.assertEqual(store.scan(8, 9, []), ((0, 0, False, 0), []))
        self.assertEqual(store.scan(5, 6, [JUNK]), ((0, 1, True, 6), [(5, 50, 4, 1)]))
        self.assertEqual(store.scan(6, 6, [JUNK]), ((0, 1, False, 0), [(6, 60, 0, 1)]))
        self.assertEqual(store.scan(0, LAST_DOCKET, [JUNK] * 4), ((0, 3, False, 0), [(5, 50, 4, 1), (6, 60, 0, 1), (7, 70, 4294967295, 1), JUNK]))
        self.assertEqual(store.scan_counts(6, 7, []), ((0, 0, True, 6), []))
        self.assertEqual(store.scan_counts(0, LAST_DOCKET, [COUNT_JUNK] * 4), ((0, 3, False, 0), [(5, 50, 1), (6, 60, 1), (7, 70, 1), COUNT_JUNK]))

    def test_every_width(self):
        seed = random.randrange(1 << 32)
        rng, scans = random.Random(seed), 0
        for n, stores, dockets in ((1, 30, 3), (4, 40, 8), (12, 25, 14), (30, 5, 20)):
            for k in range(stores):
                store, plain, steps = self.run_list(rng, n, dockets, rng.randrange(1, 8 * n))
                note = f"seed {seed}: store {k} of {n} slots"
                self.assertEqual(live_dockets(steps, range(dockets + 1)), plain.rows, note)
                self.check_widths(store, plain.rows, dockets + 1, note)
                scans += 1
        print(f"seed {seed}: every width on {scans} stores")

    def test_all_dockets(self):
        seed = random.randrange(1 << 32)
        rng = random.Random(seed)
        for n, dockets, calls in ((50, 65536, 400), (400, 450, 2500), (400, 65536, 1500), (2000, 3000, 4000)):
            store, plain, _ = self.run_list(rng, n, dockets, calls)
            for room in (0, 1, len(plain.rows), len(plain.rows) + 5):
                self.check(store, plain.rows, 0, LAST_DOCKET, room, f"seed {seed}")
            for _ in range(40):
                lo, hi = sorted((rng.randrange(65536), rng.randrange(65536)))
                self.check(store, plain.rows, lo, hi, rng.randrange(60), f"seed {seed}")

    def test_sound_tables_of_every_kind(self):
        seed = random.randrange(1 << 32)
        rng = random.Random(seed)
        for k in range(1500):
            entries, levels = random_tables(rng)
            live, store = live_dockets(reference_of(entries, levels), range(31)), library.Store(entries, levels)
            for room in (0, 1, 2, len(live), len(live) + 2):
                self.check(store, live, 0, LAST_DOCKET, room, f"seed {seed}: tables {k}")
                lo, hi = sorted((rng.randrange(31), rng.choice((rng.randrange(31), LAST_DOCKET))))
                self.check(store, live, lo, hi, room, f"seed {seed}: tables {k}")
                other = library.Store(reprice(rng, entries), levels)
                self.assertEqual(other.scan_counts(lo, hi, [COUNT_JUNK] * room), store.scan_counts(lo, hi, [COUNT_JUNK] * room), f"seed {seed}: tables {k}")

    def refused(self, store, lo, hi, number, note):
        """Its number and zeros, and neither a row nor a word is changed."""
        before = store.words()
        self.assertEqual(store.scan(lo, hi, [JUNK] * 3), ((number, 0, False, 0), [JUNK] * 3), note)
        self.assertEqual(store.scan_counts(lo, hi, [COUNT_JUNK] * 3), ((number, 0, False, 0), [COUNT_JUNK] * 3), note)
        self.assertEqual(store.words(), before, note)

    def test_dockets_out_of_range(self):
        store = fresh_store(6, 3, 2, 2, 9)
        store.call("P", 1, 7, 70, 3)
        for lo, hi in ((1, 0), (LAST_DOCKET, 0), (0, 65536), (65536, 65536), (0, 4294967295), (4294967295, 0)):
            self.refused(store, lo, hi, 4, (lo, hi))

    def test_damaged_tables(self):
        """Refused as the check refuses them, before the dockets are looked at."""
        seed = random.randrange(1 << 32)
        rng, met = random.Random(seed), {}
        for k in range(1500):
            entries, levels = damage(rng, *random_tables(rng))
            number = tables.refusal(entries, levels)
            met[number] = met.get(number, 0) + 1
            if number:
                lo, hi = rng.choice(((0, LAST_DOCKET), (5, 4), (0, 65536)))
                self.refused(library.Store(entries, levels), lo, hi, number, f"seed {seed}: tables {k}")
        self.assertEqual(set(met), {0, 1, 2, 3}, f"seed {seed}: an outcome was not met")


if __name__ == "__main__":
    unittest.main()
