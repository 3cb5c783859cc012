"""Making by the proved library, against the plain text of document 01, every word of both tables."""
import unittest

import library
import tables
from tables import WORDS

JUNK = 4294967295
RIGHT = (2, 2, 1, 1)


class Make(unittest.TestCase):
    def same(self, entry_words, level_words, settings):
        entries, levels = [JUNK] * entry_words, [JUNK] * level_words
        expected = tables.made(entries, levels, *settings)
        self.assertEqual(library.make(entries, levels, *settings), expected)
        return expected[0]

    def test_every_word(self):
        for slots in (1, 2, 3, 100, 65535):
            for deepest in range(2, 7):
                self.assertEqual(self.same(WORDS * (slots + 1), 4 * (deepest + 2), (deepest, 10, 64, JUNK)), 0)

    def test_lengths(self):
        for words in (0, 1, 4, 5, 8, 9, 11, 14, 16, 262144, 327679, 327681, 327684, 327685):
            self.assertEqual(self.same(words, 16, RIGHT), 1)
        for words in (0, 1, 3, 4, 7, 8, 12, 15, 17, 20):
            self.assertEqual(self.same(10, words, RIGHT), 2)

    def test_settings(self):
        for settings in ((1, 2, 1, 1), (7, 2, 1, 1), (JUNK, 2, 1, 1), (2, 1, 1, 1), (2, 11, 1, 1), (2, 2, 0, 1), (2, 2, 65, 1), (2, 2, 1, 0)):
            self.assertEqual(self.same(10, 16, settings), 6)

    def test_order(self):
        self.assertEqual(self.same(7, 16, (7, 2, 1, 1)), 1)
        self.assertEqual(self.same(7, 3, (7, 2, 1, 1)), 1)
        self.assertEqual(self.same(8, 3, (7, 2, 1, 1)), 1)
        self.assertEqual(self.same(10, 3, (7, 2, 1, 1)), 6)


if __name__ == "__main__":
    unittest.main()
