"""Lookups by the proved library on tables of every kind, against the plain text of the papers."""
import random
import unittest

import library
import tables
from example import ENTRIES, LEVELS, changed
from loads import damage, random_tables, reprice
from tables import WORDS


class Lookup(unittest.TestCase):
    # Level 1 deletes 7 and 20 to 29 and holds 8; level 2 has older puts of 8 and 25 and one of 30; the deepest has one of 7.
    entries = ENTRIES[:25] + [65542, 524296, 70, 1, 7, 65543, 1638425, 71, 1, 8, 65536, 1966110, 72, 1, 0, 65536, 458759, 73, 1, 9]
    levels = LEVELS[:12] + [5, 0, 3, 0, 8, 0, 1, 0]
    entries[0] = 0

    def test_levels_decide_from_the_first(self):
        for name, docket, found in (
                ("in the buffer", 9, (0, 1, 90, 18, 4)),
                ("in level 1, above an older put", 8, (0, 1, 80, 16, 1)),
                ("deleted above a put", 7, (0, 0, 0, 0, 0)),
                ("in a range above a put", 25, (0, 0, 0, 0, 0)),
                ("past the range", 30, (0, 1, 72, 0, 1)),
                ("never put", 0, (0, 0, 0, 0, 0)),
                ("never put, the last", 65535, (0, 0, 0, 0, 0))):
            with self.subTest(name):
                self.assertEqual(library.lookup(self.entries, self.levels, docket), found)
                self.assertEqual(library.lookup_count(self.entries, self.levels, docket), tables.without_price(found))

    def test_a_date_is_asked_for_deeper(self):
        """Level 1's range of 20 to 29 with each date, over a put of 25 on level 2 with each stamp; the buffer may have a range of its own."""
        for date in (1, 2, 3):
            for stamp in (1, 2, 3, 4):
                for upper in (0, 1, 2, 3):
                    entries = changed(changed(self.entries, WORDS * 4 + 2, date), WORDS * 6 + 3, stamp)
                    levels = self.levels
                    if upper:
                        # In the slot of the deepest level's put, date and stamp of its own.
                        entries[WORDS * 8:] = [3 * tables.BASE, 25 + 25 * tables.BASE, upper, 4, 0]
                        levels = levels[:4] + [1, 8, 2, 3] + levels[8:16] + [0, 0, 0, 0]
                    found = (0, 1, 71, 8, stamp) if stamp > max(date, upper) else (0, 0, 0, 0, 0)
                    self.assertEqual(tables.lookup(entries, levels, 25), found, (date, stamp, upper))
                    self.assertEqual(library.lookup(entries, levels, 25), found, (date, stamp, upper))
                    self.assertEqual(library.lookup_count(entries, levels, 25), tables.without_price(found), (date, stamp, upper))

    def test_refusals_in_their_order(self):
        unsound = changed(ENTRIES, 4, 1)
        for e, l, docket, number in (
                (ENTRIES, LEVELS, 65536, 4), (ENTRIES, LEVELS, 4294967295, 4), (unsound, LEVELS, 65536, 3), (unsound, LEVELS, 7, 3),
                (unsound, LEVELS[:19], 65536, 2), (ENTRIES[:34], LEVELS[:19], 65536, 1), ([], [], 7, 1)):
            self.assertEqual(library.lookup(e, l, docket), (number, 0, 0, 0, 0))
            self.assertEqual(library.lookup_count(e, l, docket), (number, 0, 0, 0))


class Random(unittest.TestCase):
    def test_against_the_text(self):
        seed = random.randrange(1 << 32)
        rng, met = random.Random(seed), {}
        for _ in range(4000):
            entries, levels = random_tables(rng)
            for e, l in [(entries, levels)] + [damage(rng, entries, levels) for _ in range(4)]:
                docket = rng.choice([rng.randrange(rng.choice((4, 30)))] * 8 + [65535, 65536])
                expected = tables.lookup(e, l, docket)
                met[expected[:2]] = met.get(expected[:2], 0) + 1
                self.assertEqual(library.lookup(e, l, docket), expected, f"seed {seed}: {e} {l} {docket}")
                # The grower's lookup, which other prices in the puts do not change.
                for words in (e, reprice(rng, e)) if len(e) % WORDS == 0 else (e,):
                    self.assertEqual(library.lookup_count(words, l, docket), tables.without_price(expected), f"seed {seed}: {words} {l} {docket}")
        self.assertEqual(set(met), {(0, 0), (0, 1), (1, 0), (2, 0), (3, 0), (4, 0)}, f"seed {seed}: an outcome was not met")
        print(f"seed {seed}: {sum(met.values())} tables; {met[(0, 1)]} found, {met[(0, 0)]} absent, "
              + ", ".join(f"{met[(n, 0)]} refused {n}" for n in (1, 2, 3, 4)))


if __name__ == "__main__":
    unittest.main()
