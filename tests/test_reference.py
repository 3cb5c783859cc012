"""The reference reproduces document 01's script and cases."""
import itertools
import unittest

from cases import CASES
from reference import Store


class Document01(unittest.TestCase):
    def test_cases(self):
        for name, settings, calls, answers in CASES:
            with self.subTest(name):
                store = Store(*settings)
                self.assertEqual([self.asked(store, *c) for c in calls], answers)

    def asked(self, store, letter, *numbers):
        return store.lookup(*numbers) if letter == "G" else store.wake() if letter == "W" else store.call(letter, *numbers)

    def test_limits(self):
        for l, t, d, limits in [(3, 2, 9, [1, 3, 9]), (4, 4, 100, [1, 5, 24, 100]), (3, 10, 10, [0, 0, 10]), (6, 2, 1, [0, 0, 0, 0, 0, 1])]:
            self.assertEqual([Store(1, l, t, 1, d).limit(i) for i in range(l)], limits)
        for t, d in itertools.product(range(2, 11), (1, 9, 10, 11, 12, 100, 4294967295)):
            self.assertEqual([Store(1, 2, t, 1, d).limit(i) for i in range(2)], [d // (t + 1), d])


if __name__ == "__main__":
    unittest.main()
