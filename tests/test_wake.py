"""When to wake, by the proved library: on tables of every kind against the plain text, and what a controller that sleeps relies on."""
import random
import unittest

import library
import tables
from loads import LARGEST, RandomCalls, damage, fresh_store, random_settings, random_tables


def merges_at_most(levels):
    """L × (L + 1) / 2, for tables that are not refused."""
    return levels[0] * (levels[0] + 1) // 2


class Wake(unittest.TestCase):
    def test_against_the_text(self):
        seed = random.randrange(1 << 32)
        rng, met = random.Random(seed), {}
        for _ in range(3000):
            entries, levels = random_tables(rng)
            for e, l in [(entries, levels)] + [damage(rng, entries, levels) for _ in range(3)]:
                expected = tables.wake(e, l)
                met[expected[0], expected[1] is None] = True
                self.assertEqual(library.wake(e, l), expected, f"seed {seed}: {e} {l}")
        self.assertEqual(set(met), {(0, False), (0, True), (1, True), (2, True), (3, True)}, f"seed {seed}: an outcome was not met")

    def test_the_largest_clock(self):
        """The last clock of 32 bits and the longest term, on the level whose limit is the term."""
        entries, levels = [0, LARGEST, 0, 0, 0, 2 << 16, 0, 0, LARGEST, 0], [2, 2, 64, LARGEST] + [0] * 4 + [1, 0, 1, LARGEST] + [0] * 4
        self.assertEqual(library.wake(entries, levels), (0, 2 * LARGEST))
        self.assertEqual(library.wake(entries, levels[:15]), (2, None))

    def test_what_the_deepest_level_owes_is_not_asked(self):
        """Tables whose deepest level owes are no store's: refused 3."""
        entries, levels = [0, 1, 0, 0, 0, 1 << 16, 0, 0, 1, 0], [2, 2, 64, 9] + [0] * 8 + [1, 0, 1, 1]
        self.assertEqual(library.wake(entries, levels), (3, None))


class Sleep(unittest.TestCase):
    def after_accepted(self, rng, store, note):
        """Ticks before the clock, on a copy, then one at it; the outcome."""
        entries, levels = store.tables()
        refusal, wake = library.wake(entries, levels)
        self.assertEqual(refusal, 0, note)
        copy, last = library.Store(entries, levels), LARGEST if wake is None or wake > LARGEST else wake - 1
        self.assertLessEqual(entries[1], last, note)
        for t in sorted(rng.randint(entries[1], last) for _ in range(3)) + [last]:
            self.assertEqual(copy.call("T", t), (0, 0, 0), note)
            self.assertEqual(copy.tables(), ([entries[0], t] + entries[2:], levels), note)
        if wake is None or wake > LARGEST:
            return "never" if wake is None else "past 32 bits"
        answer = copy.call("T", wake)
        self.assertTrue(answer[0] == 0 and answer[1] >= 1, note)
        return "woken"

    def test_after_accepted_calls(self):
        seed = random.randrange(1 << 32)
        rng, met = random.Random(seed), {}
        for n, lists, calls in ((1, 30, 40), (3, 60, 60), (10, 60, 80), (60, 10, 150)):
            for _ in range(lists):
                settings = random_settings(rng, n)
                store, drawn, clock = fresh_store(*settings), RandomCalls(rng, rng.choice((n + 1, 2 * n + 2)), settings[4]), 0
                for i in range(calls):
                    call = drawn.draw(clock)
                    if store.call(*call)[0] == 0:
                        clock, outcome = call[1], self.after_accepted(rng, store, f"seed {seed}: {settings}, call {i}: {call}")
                        met[outcome] = met.get(outcome, 0) + 1
        self.assertEqual(set(met), {"never", "woken", "past 32 bits"}, f"seed {seed}: an outcome was not met")
        print(f"seed {seed}: " + ", ".join(f"{met[k]} {k}" for k in sorted(met)))

    def test_any_sound_tables_after_one_call(self):
        """Tables that no list of calls reaches, once any timed call was accepted on them."""
        seed = random.randrange(1 << 32)
        rng, accepted, early = random.Random(seed), 0, 0
        for _ in range(2000):
            entries, levels = random_tables(rng)
            store, call = library.Store(entries, levels), RandomCalls(rng, rng.choice((4, 30)), 9).draw(entries[1])
            wake = library.wake(entries, levels)[1]
            # Without an accepted call before it, a tick before that clock may merge.
            at = max(entries[1], 1)
            early += (wake is None or at < wake) and library.Store(entries, levels).call("T", at)[1] != 0
            if store.call(*call)[0] == 0:
                accepted += 1
                self.after_accepted(rng, store, f"seed {seed}: {entries} {levels} {call}")
        self.assertGreater(accepted, 500, f"seed {seed}: hardly a call was accepted")
        self.assertGreater(early, 0, f"seed {seed}: no tick merged early")
        print(f"seed {seed}: {accepted} tables slept, {early} merged early where no call had been accepted")

    def test_lists_without_writes(self):
        """Ticks and flushes, refused ones too, on tables of every kind: at most L × (L + 1) / 2 merges. A case meets it, for L = 2."""
        seed = random.randrange(1 << 32)
        rng, most = random.Random(seed), {}
        for _ in range(2000):
            entries, levels = random_tables(rng)
            e, l = damage(rng, entries, levels) if rng.random() < .1 else (entries, levels)
            store, merges, calls, sound = library.Store(e, l), 0, [], tables.refusal(e, l) == 0
            for _ in range(30):
                wake, clock = store.wake()[1], store.tables()[0][1] if len(e) > 1 else 1
                t = wake if wake is not None and wake <= LARGEST and rng.random() < .7 else rng.choice((clock, min(LARGEST, clock + 2), clock // 2, 0))
                calls.append((rng.choice("TTTTF"), t))
                merges += store.call(*calls[-1])[1]
            self.assertLessEqual(merges, merges_at_most(l) if sound else 0, f"seed {seed}: {e} {l} {calls}")
            if sound:
                most[l[0]] = max(merges, most.get(l[0], 0))
        self.assertTrue(all(most.get(l, 0) >= l for l in range(2, 7)), f"seed {seed}: hardly a list merged: {most}")
        print(f"seed {seed}: most merges by L: {dict(sorted(most.items()))}")


if __name__ == "__main__":
    unittest.main()
