"""The timed calls of the proved library: document 01's cases, long random lists against its steps written plainly, damaged tables,
and twin runs in which one put carries another count or price, or all puts other prices."""
import itertools
import random
import unittest

import library
import reference
import tables
from cases import CASES
from example import ENTRIES, LEVELS
from loads import LARGEST, RandomCalls, damage, fresh_store, random_settings, random_tables, read_levels, reference_of, reprice


class Document01(unittest.TestCase):
    def test_cases(self):
        for name, settings, calls, answers in CASES:
            with self.subTest(name):
                store = fresh_store(*settings)
                self.assertEqual([self.asked(store, *c) for c in calls], answers)

    def test_the_worked_example_of_the_format(self):
        store = fresh_store(6, 3, 2, 2, 9)
        for call in (("P", 1, 7, 70, 14), ("P", 1, 8, 80, 16), ("D", 2, 7), ("R", 3, 20, 29), ("P", 4, 9, 90, 18)):
            self.assertEqual(store.call(*call)[0], 0)
        self.assertEqual(store.tables(), (ENTRIES, LEVELS))

    def asked(self, store, letter, *numbers):
        if letter == "W":
            refusal, clock = store.wake()
            self.assertEqual(refusal, 0)
            return clock
        return self.looked_up(store, *numbers) if letter == "G" else store.call(letter, *numbers)

    def looked_up(self, store, docket):
        """Found, count, price and stamp; the grower is told the same but the price."""
        answer = store.lookup(docket)
        self.assertEqual(store.lookup_count(docket), tables.without_price(answer))
        return answer[1:]


class Random(unittest.TestCase):
    def same(self, store, expected, call, note):
        """One call on both; the answers, and every level read along its chains, are the same."""
        before = store.words()
        answer = store.call(*call)
        self.assertEqual(answer, expected.call(*call), note)
        if answer[0] not in (0, 7):
            self.assertEqual(store.words(), before, note)
            return answer
        entries, levels = store.tables()
        self.assertEqual(tables.refusal(entries, levels), 0, note)
        self.assertEqual(entries[1], expected.clock, note)
        self.assertEqual(list(read_levels(entries, levels)), [(x.points, x.ranges, x.owed) for x in expected.levels], note)
        self.assertEqual(store.wake(), (0, expected.wake()), note)
        return answer

    def test_lists_from_a_fresh_store(self):
        seed = random.randrange(1 << 32)
        rng, met = random.Random(seed), {}
        for n, lists, calls in ((1, 30, 60), (3, 60, 100), (10, 60, 200), (60, 20, 400), (400, 3, 1200)):
            for _ in range(lists):
                settings = random_settings(rng, n)
                store, expected = fresh_store(*settings), reference.Store(*settings)
                dockets = rng.choice((n + 1, 2 * n + 2, 65536))
                drawn = RandomCalls(rng, dockets, settings[4])
                for i in range(calls):
                    call = drawn.draw(expected.clock)
                    note = f"seed {seed}: {settings}, call {i}: {call}"
                    answer = self.same(store, expected, call, note)
                    met[answer[0]] = met.get(answer[0], 0) + 1
                    docket = rng.randrange(dockets)
                    self.assertEqual(store.lookup(docket), (0, *expected.lookup(docket)), note)
                    self.assertEqual(store.lookup_count(docket), tables.without_price(store.lookup(docket)), note)
        self.assertEqual(set(met), {0, 4, 5, 7, 10}, f"seed {seed}: an outcome was not met")
        print(f"seed {seed}: {sum(met.values())} calls; " + ", ".join(f"{met[k]} answered {k}" for k in sorted(met)))

    def test_each_limit_to_the_tick(self):
        """A delete sinks level by level from the buffer on, at every L and T and at terms of every size: a tick before each limit, at it and after it."""
        for l, t, d in itertools.product(range(2, 7), range(2, 11), (1, 9, 100, 10 ** 6, LARGEST - 1, LARGEST)):
            settings = 6, l, t, 3, d
            store, expected = fresh_store(*settings), reference.Store(*settings)
            ticks = sorted({1 + expected.limit(i) + k for i in range(l) for k in (-1, 0, 1)})
            for call in [("P", 1, 7, 70, 7), ("D", 1, 7)] + [("T", tick) for tick in ticks if 1 <= tick <= LARGEST]:
                self.same(store, expected, call, f"{settings}: {call}")

    def test_each_capacity_to_the_record(self):
        """Puts fill level after level: the one that is too many, and those before it, of levels 1 and 2 at every T and of level 3 up to T = 7."""
        for l, t in itertools.product((2, 3, 4), range(2, 11)):
            settings = 400, l, t, 1, 9
            store, expected = fresh_store(*settings), reference.Store(*settings)
            for docket in range(min(399, sum(t ** i + 1 for i in range(1, l)) + 1)):
                self.same(store, expected, ("P", 1, docket, docket, 7), f"{settings}: {docket}")

    def test_any_tables(self):
        """Sound tables that no list of calls reaches, and damaged ones, which are refused and stay as they are."""
        seed = random.randrange(1 << 32)
        rng, met = random.Random(seed), {}
        for _ in range(3000):
            entries, levels = random_tables(rng)
            for e, l in [(entries, levels)] + [damage(rng, entries, levels) for _ in range(2)]:
                refusal, store = tables.refusal(e, l), library.Store(e, l)
                call = RandomCalls(rng, rng.choice((4, 30)), 9).draw(e[1] if len(e) > 1 else 1)
                note = f"seed {seed}: {e} {l} {call}"
                if refusal:
                    self.assertEqual((store.call(*call), store.wake(), store.tables()), ((refusal, 0, 0), (refusal, None), (e, l)), note)
                    met[refusal] = met.get(refusal, 0) + 1
                elif call[1] < 1 << 32:
                    met[0] = met.get(0, 0) + 1
                    self.same(store, reference_of(e, l), call, note)
        self.assertEqual(set(met), {0, 1, 2, 3}, f"seed {seed}: an outcome was not met")
        print(f"seed {seed}: " + ", ".join(f"{met[k]} tables answered {k}" for k in sorted(met)))


def covers(call, docket, clock):
    """A delete covers a put of a docket; one with a date, which is not its own clock, asks for the put's clock too."""
    letter, at, *numbers = call
    if letter == "D":
        return numbers[0] == docket
    return letter in "RY" and numbers[0] <= docket <= numbers[1] and (letter == "R" or numbers[2] == at or clock <= numbers[2])


class Twins(unittest.TestCase):
    """Demand 3 on the built code: two runs that differ in the count or the price of one put, or in both, have the same words once it is erased."""

    def run_twins(self, rng, settings, calls, note):
        """Whether the words ever differed, whether the put was erased by the end of the list, whether by a delete with an earlier date, and whether only
        the price was another."""
        puts = [i for i, c in enumerate(calls) if c[0] == "P"]
        chosen = rng.choice(puts)
        _, clock, docket, count, price = calls[chosen]
        other, which = list(calls), rng.choice(("count", "price", "both"))
        other[chosen] = calls[chosen][:3] + (count ^ (which != "price") << rng.randrange(32), price ^ (which != "count") << rng.randrange(32))
        one, two, steps = fresh_store(*settings), fresh_store(*settings), reference.Store(*settings)
        deletes, differed, erased, dated = [], False, False, False
        for i, (a, b) in enumerate(zip(calls, other)):
            answer = one.call(*a)
            self.assertEqual(answer, two.call(*b), note)
            self.assertEqual(answer, steps.call(*a), note)
            if answer[0] == 0 and i > chosen and covers(a, docket, clock):
                deletes.append(a)
            due = [d for d in deletes if answer[0] == 0 and a[1] - d[1] >= settings[4]]
            dated = dated or not erased and bool(due) and all(d[0] == "Y" and d[4] < d[1] for d in due)
            erased = erased or bool(due)
            same = one.words() == two.words()
            differed = differed or not same
            self.assertTrue(same or not erased, f"{note}, call {i}: words differ")
        return differed, erased, dated, which == "price"

    def test_erased_tallies_leave_nothing(self):
        seed = random.randrange(1 << 32)
        rng, differed, erased, both, dated, priced = random.Random(seed), 0, 0, 0, 0, 0
        for n, lists, length in ((1, 100, 40), (2, 200, 60), (5, 300, 120), (30, 100, 300), (300, 10, 1500)):
            for k in range(lists):
                settings = random_settings(rng, n)
                drawn, clock, calls = RandomCalls(rng, rng.choice((n, n + 1, 3 * n)), settings[4]), 0, [("P", 1, 0, 7, 8)]
                for _ in range(length):
                    calls.append(drawn.draw(clock))
                    clock = max(clock, calls[-1][1])
                d, e, y, p = self.run_twins(rng, settings, calls, f"seed {seed}: list {k} of {settings}")
                differed, erased, both, dated, priced = differed + d, erased + e, both + (d and e), dated + (d and y), priced + (d and e and p)
        self.assertGreater(both, 50, f"seed {seed}: the twins hardly ever differed and then agreed")
        self.assertGreater(dated, 5, f"seed {seed}: the put was hardly ever erased by an earlier date")
        self.assertGreater(priced, 10, f"seed {seed}: a price alone hardly ever differed and was then erased")
        print(f"seed {seed}: {differed} lists in which words differed, {erased} in which the put was erased, {both} in which both held, {dated} of these by an "
              f"earlier date, {priced} of a price alone")


class PriceTwins(unittest.TestCase):
    """Two stores that differ in the prices of puts alone give the grower the same answers, and stay alike in every word but these prices."""

    def same(self, one, two, call, other, note):
        """One call on both, then what the grower can ask. Whether words differ."""
        self.assertEqual(one.call(*call), two.call(*other), note)
        (entries, levels), (other_entries, other_levels) = one.tables(), two.tables()
        self.assertEqual(levels, other_levels, note)
        self.assertTrue(tables.same_but_prices(entries, other_entries), note)
        self.assertEqual((one.check(), one.wake()), (two.check(), two.wake()), note)
        for docket in (call[2] if len(call) > 2 else 0, 3):
            self.assertEqual(one.lookup_count(docket), two.lookup_count(docket), note)
        for room in (0, 1, 40):
            rows = [(0xdead, 0xbeef, 0xfeed)] * room
            self.assertEqual(one.scan_counts(0, 65535, rows), two.scan_counts(0, 65535, rows), note)
        return entries != other_entries

    def test_lists_with_other_prices(self):
        seed = random.randrange(1 << 32)
        rng, differed, calls = random.Random(seed), 0, 0
        for n, lists, length in ((1, 30, 40), (3, 40, 80), (10, 40, 150), (60, 8, 300)):
            for _ in range(lists):
                settings = random_settings(rng, n)
                one, two, drawn, clock = fresh_store(*settings), fresh_store(*settings), RandomCalls(rng, rng.choice((n + 1, 2 * n + 2)), settings[4]), 0
                for _ in range(length):
                    call = drawn.draw(clock)
                    clock, other = max(clock, call[1]), call[:4] + (drawn.price(),) if call[0] == "P" else call
                    differed += self.same(one, two, call, other, f"seed {seed}: {settings}, {call} and {other}")
                    calls += 1
        self.assertGreater(differed, calls // 4, f"seed {seed}: prices hardly ever differed")
        print(f"seed {seed}: {calls} calls, after {differed} of them prices differed")

    def test_any_tables(self):
        """Sound tables that no list of calls reaches, and damaged ones, with other prices in their puts."""
        seed = random.randrange(1 << 32)
        rng, met = random.Random(seed), {}
        for _ in range(1500):
            entries, levels = random_tables(rng)
            for e, l in [(entries, levels), damage(rng, entries, levels)]:
                other = reprice(rng, e) if len(e) % tables.WORDS == 0 else e
                call = RandomCalls(rng, rng.choice((4, 30)), 9).draw(min(e[1], 1000) if len(e) > 1 else 1)
                self.same(library.Store(e, l), library.Store(other, l), call, call, f"seed {seed}: {e} {l} {call}")
                number = tables.refusal(e, l)
                met[number] = met.get(number, 0) + 1
        self.assertEqual(set(met), {0, 1, 2, 3}, f"seed {seed}: an outcome was not met")


if __name__ == "__main__":
    unittest.main()
