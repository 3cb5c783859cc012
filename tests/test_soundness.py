"""The check of the proved library on tables of every kind, against the plain text of the papers."""
import random
import unittest

import library
import tables
from example import ENTRIES, LEVELS, changed
from loads import damage, random_tables
from tables import BASE, DELETE, PUT, RANGE, WORDS

JUNK = 4294967295
RIGHT = (2, 2, 1, 1)

# What is changed, which slot and which word of it, to what, and the refusal.
ENTRY_WORDS = [
    ("as it was", 1, 2, 90, 0),
    ("another count", 1, 2, 91, 0),
    ("another price", 1, 4, 19, 0),
    ("a put of price 0", 1, 4, 0, 0),
    ("a put of the highest price", 2, 4, JUNK, 0),
    ("slot 0's third word", 0, 2, 1, 3),
    ("slot 0's fourth word", 0, 3, 1, 3),
    ("slot 0's last word", 0, 4, 1, 3),
    ("slot 0's last word, its highest bit", 0, 4, 1 << 31, 3),
    ("a ring of one point", 2, 0, PUT * BASE + 2, 3),
    ("a ring of two points", 2, 0, PUT * BASE + 3, 3),
    ("a ring of the free chain", 6, 0, 5, 3),
    ("crossed: points lead into another level's", 2, 0, PUT * BASE + 1, 3),
    ("crossed: points lead into ranges", 2, 0, PUT * BASE + 4, 3),
    ("crossed: points lead into the free chain", 2, 0, PUT * BASE + 5, 3),
    ("crossed: the free chain leads into points", 6, 0, 1, 3),
    ("a lost free slot", 5, 0, 0, 3),
    ("a lost point", 3, 0, DELETE * BASE, 3),
    ("the free chain lost", 0, 0, 0, 3),
    ("first free slot past N", 0, 0, 7, 3),
    ("first free slot 65,536 above", 0, 0, BASE + 5, 3),
    ("next slot past N", 5, 0, 7, 3),
    ("a free slot with a kind", 5, 0, PUT * BASE + 6, 3),
    ("a free slot with a docket", 5, 1, 1, 3),
    ("a free slot with a count", 5, 2, 80, 3),
    ("a free slot with a stamp", 5, 3, 1, 3),
    ("a free slot with a price", 5, 4, 16, 3),
    ("the last free slot with a price", 6, 4, JUNK, 3),
    ("a put of two dockets", 1, 1, 9 + BASE * 10, 3),
    ("a range with hi below lo", 4, 1, 29 + BASE * 20, 3),
    ("a range of one docket", 4, 1, 20 + BASE * 20, 0),
    ("a delete with a count", 3, 2, 1, 3),
    ("a delete with a price", 3, 4, 1, 3),
    ("a delete with the highest price", 3, 4, JUNK, 3),
    ("a range delete with a price", 4, 4, 1, 3),
    ("a range delete with its stamp as a price", 4, 4, 3, 3),
    ("a range delete of date 0", 4, 2, 0, 3),
    ("a range delete of date 1", 4, 2, 1, 0),
    ("a date after the range delete's stamp", 4, 2, 4, 3),
    ("a range delete's stamp before its date", 4, 3, 2, 3),
    ("a range delete's stamp after its date", 4, 3, 4, 0),
    ("a point of kind 0", 1, 0, 0, 3),
    ("a point of kind 3", 1, 0, RANGE * BASE, 3),
    ("a point of kind 65,535", 1, 0, 65535 * BASE, 3),
    ("a range of kind 1", 4, 0, PUT * BASE, 3),
    ("a range of kind 4", 4, 0, 4 * BASE, 3),
    ("points descend", 3, 1, 9 + BASE * 9, 3),
    ("two points of one docket", 3, 1, 8 + BASE * 8, 3),
    ("stamp 0", 1, 3, 0, 3),
    ("a stamp after the last clock", 1, 3, 5, 3),
    ("the last clock before a stamp", 0, 1, 3, 3),
]

LEVEL_WORDS = [
    ("as it was", 0, 3, 0),
    ("L 1", 0, 1, 2),
    ("L 2 over the rows of 3", 0, 2, 2),
    ("L 4 over the rows of 3", 0, 4, 2),
    ("L 7", 0, 7, 2),
    ("L 4294967295", 0, JUNK, 2),
    ("T 1", 1, 1, 2),
    ("T 10", 1, 10, 0),
    ("T 11", 1, 11, 2),
    ("B 0", 2, 0, 2),
    ("B 64", 2, 64, 0),
    ("B 65", 2, 65, 2),
    ("D 0", 3, 0, 2),
    ("D 4294967295", 3, JUNK, 0),
    ("a doubled slot: level 2's points are level 1's", 12, 3, 3),
    ("a doubled slot: level 1's ranges are its points", 9, 3, 3),
    ("first point past N", 12, 7, 3),
    ("first point 4294967295", 12, JUNK, 3),
    ("a lost chain of points", 4, 0, 3),
    ("a lost chain of ranges", 9, 0, 3),
    ("a count too low", 10, 2, 3),
    ("a count too high", 10, 4, 3),
    ("a count on an empty level", 14, 1, 3),
    ("owed 0 over a delete", 11, 0, 3),
    ("owed after a delete", 11, 3, 3),
    ("owed before every delete", 11, 1, 0),
    ("owed after the last clock", 11, 5, 3),
    ("owed on a level of puts", 7, 4, 0),
    ("owed after the last clock on a level of puts", 7, 5, 3),
    ("owed on an empty level", 15, 1, 3),
    ("owed on the deepest level", 19, 1, 3),
]


class Check(unittest.TestCase):
    def test_entry_words(self):
        for name, slot, at, word, number in ENTRY_WORDS:
            with self.subTest(name):
                entries = changed(ENTRIES, WORDS * slot + at, word)
                self.assertEqual((tables.refusal(entries, LEVELS), library.check(entries, LEVELS)), (number, number))

    def test_level_words(self):
        for name, at, word, number in LEVEL_WORDS:
            with self.subTest(name):
                self.assertEqual(library.check(ENTRIES, changed(LEVELS, at, word)), number)

    def test_a_level_of_puts_on_the_deepest_level_and_deletes_there(self):
        puts = LEVELS[:4] + [0] * 4 + LEVELS[8:12] + [0] * 4 + [1, 0, 1, 0]
        self.assertEqual(library.check(ENTRIES, puts), 0)
        for owed in (2, 0):
            deletes = LEVELS[:8] + [0] * 8 + [3, 4, 3, owed]
            self.assertEqual(library.check(ENTRIES, deletes), 3)

    def test_short_tables(self):
        for words in (0, 1, 4, 5, 8, 9, 28, 34):
            self.assertEqual(library.check(ENTRIES[:words], LEVELS), 1)
            self.assertEqual(library.check(ENTRIES[:words], LEVELS[:3]), 1)
        self.assertEqual(library.check(ENTRIES[:10], LEVELS), 3)
        for words in (0, 1, 3, 4, 7, 8, 19):
            self.assertEqual(library.check(ENTRIES, LEVELS[:words]), 2)

    def test_the_largest(self):
        for slots, number in ((65535, 0), (65536, 1)):
            answer, entries, levels = library.make([JUNK] * WORDS * (slots + 1), [JUNK] * 16, *RIGHT)
            self.assertEqual(answer, number)
            self.assertEqual(library.check(entries, levels), number)
        whole = tables.made([0] * WORDS * BASE, [0] * 16, *RIGHT)[1]
        for back in range(1, WORDS + 1):
            self.assertEqual(library.check(changed(whole, WORDS * BASE - back, 1), levels=[*RIGHT] + [0] * 12), 3)


class Prices(unittest.TestCase):
    def test_only_a_put_has_a_price(self):
        """In tables of every kind: any price in a put is sound, and none in slot 0, a free slot or a delete."""
        seed = random.randrange(1 << 32)
        rng, met = random.Random(seed), {}
        for _ in range(300):
            entries, levels = random_tables(rng)
            for at in range(0, len(entries), WORDS):
                put = at > 0 and entries[at] // BASE == PUT
                met[put] = met.get(put, 0) + 1
                for price in (1, JUNK, 1 << rng.randrange(32)):
                    self.assertEqual(library.check(changed(entries, at + 4, price), levels), 0 if put else 3, f"seed {seed}: {entries} {levels}, slot {at // WORDS}")
        self.assertEqual(set(met), {False, True}, f"seed {seed}: an outcome was not met")


class Random(unittest.TestCase):
    def test_against_the_text(self):
        seed = random.randrange(1 << 32)
        rng, met = random.Random(seed), {}
        for _ in range(4000):
            entries, levels = random_tables(rng)
            self.assertEqual(library.check(entries, levels), 0, f"seed {seed}: {entries} {levels}")
            for e, l in [(entries, levels)] + [damage(rng, entries, levels) for _ in range(4)]:
                expected = tables.refusal(e, l)
                met[expected] = met.get(expected, 0) + 1
                self.assertEqual(library.check(e, l), expected, f"seed {seed}: {e} {l}")
        self.assertEqual(set(met), {0, 1, 2, 3}, f"seed {seed}: an outcome was not met")
        self.assertGreater(met[3], sum(met.values()) // 2, f"seed {seed}: single words were hardly damaged")
        print(f"seed {seed}: {sum(met.values())} tables; {met[0]} sound, " + ", ".join(f"{met[n]} refused {n}" for n in (1, 2, 3)))


if __name__ == "__main__":
    unittest.main()
