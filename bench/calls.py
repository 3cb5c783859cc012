"""Runs the timing of whole calls, of merges with range deletes and of scans in lookups, prints them as Markdown tables, and writes docs/BENCHMARK.md and
docs/benchmark.svg."""
import os
import pathlib
import subprocess

import plot

ROOT = pathlib.Path(__file__).parent.parent
CALLS, MERGES, SCANS = (ROOT / "target" / f"bench_{name}" for name in ("calls", "merges", "scans"))
REPORT, PLOT = ROOT / "docs" / "BENCHMARK.md", ROOT / "docs" / "benchmark.svg"
MEANINGS = {
    "mixed": "40 % puts, 30 % lookups, 10 % deletes, 10 % ticks, 5 % range deletes, 5 % flushes; dockets half the slots",
    "lookup": "a docket, after as many mixed calls as slots",
    "grower's lookup": "the same without the price",
    "delete-heavy": "45 % puts, 45 % deletes, 10 % ticks",
    "range-heavy": "50 % puts, 40 % range deletes of one to five dockets, 10 % ticks",
    "dated": "50 % puts, 35 % range deletes of one to five dockets and 5 % of all, each with any date, 10 % ticks",
    "owing": "ticks where each level from 0 to 5 owes and none is due; L = 6, D = 4,294,967,295",
    "wake": "when to wake, on the same tables",
    "full table": "80 % puts, 10 % deletes, 10 % ticks on one docket more than slots, every slot taken at the start",
    "scan": "all dockets, with a row for each slot",
    "grower's scan": "the same into rows without the price",
    "check": "the check that every call begins with, alone",
}
HEAD = """# Time per call

`bash scripts/bench calls` writes this page: the proved library beside the same calls written plainly in C
(`native/native_store.c`, gcc -O3), by turns in one process, the same calls on copies of the same tables. Medians of 15
to 61 rounds, each but at the largest N on new tables, in microseconds of processor time; a ratio is the median of the
rounds' own ratios. Each call includes the check of both tables, which is linear in N. L = 3, T = 4, B = 8, D = 1,000.
When this was measured the machine had {processors} processors and a load average of {load:.1f}.

![Time per call and time per slot against the slots, on logarithmic axes](benchmark.svg)
"""


FORMS = {
    "narrow": "each over one live docket",
    "one wide": "the same behind one over all dockets",
    "eight wide": "the same behind eight, each over nearly all dockets",
    "nested": "each within the one before, with a later date",
}
IN_MERGES = """## A tick that merges range deletes onto live dockets

Half the slots are live dockets in the deepest level, the others range deletes in the level above; none covers a docket,
since its date is before the put. Each tick is on a copy of the same tables; medians of 5 to 61 rounds. Two places in
the chain of ranges, the first that has not ended and the first behind it that has not, keep narrow ranges under one
wide one linear. Where two or more wide ranges overlap, the time grows with dockets × ranges.
"""


SHAPES = {
    "mixed calls": "half the slots' worth of dockets, then as many mixed calls as slots",
    "put at random": "every slot live, dockets put in random order",
    "put ascending": "every slot live, dockets put in ascending order",
    "two by turns": "every slot live, dockets in the two deepest levels by turns, in the order of slots: laid out, not put",
    "three by turns": "the same in three levels",
    "seven by turns": "the same in seven, L = 6",
    "two at random": "the same in two levels, which of them drawn for each docket",
    "seven at random": "the same in seven, L = 6",
    "ranges between": "half the slots live in the deepest level, between each two a range delete in the level above",
    "and one wide": "the same with a range delete over all dockets, its date before every put",
    "put twice": "half the slots live: each docket in both of the two deepest levels",
}
IN_LOOKUPS = """## A scan of all live dockets, in lookups on the same tables

Proved, and in brackets C. Each round goes through all sizes, and at each times lookups of live dockets, scans of all,
and lookups again, on the same tables; so a change of the machine's speed falls on both. There are sixteen tables of
each size but the largest, used one after the other, each with rows of its own: 4,000 slots are then read from as much
memory as 65,535, and written to as much, and a processor cannot learn the order of a table's levels by heart. Medians
of 41 rounds. The last column is what a round found at 65,535 over what it found at 4,000: the median, and between which
numbers the middle half of the rounds lies.
"""


class Measured:
    """One load at one size."""

    def __init__(self, line):
        self.load, slots, *times = line.split("\t")
        self.slots, (self.proved, self.native, self.ratio) = int(slots), map(float, times)


class Scanned:
    """Scans of one shape of tables at one size."""

    def __init__(self, line):
        self.shape, slots, *times = line.split("\t")
        self.slots, (self.lookup, self.scan, self.native, self.ratio, self.lookups, self.native_lookups, self.growth, self.least, self.most) = int(slots), map(float, times)


def measure(program, kind):
    with subprocess.Popen([program], stdout=subprocess.PIPE, text=True) as running:
        for line in running.stdout:
            yield kind(line.rstrip("\n"))
    if running.returncode != 0:
        raise SystemExit(f"{program.name} failed")


def table(head, rows):
    lines = [head, ["---"] * len(head), *rows]
    return "\n".join("| " + " | ".join(line) + " |" for line in lines) + "\n"


def times(results, head="Load"):
    rows = ([r.load, f"{r.slots:,}", f"{r.proved:,.3f}", f"{r.native:,.3f}", f"{r.ratio:.2f}", f"{1000 * r.proved / r.slots:.2f}"] for r in results)
    return table([head, "N", "Proved, µs", "C, µs", "Ratio", "Proved, ns a slot"], rows)


def meanings(head, words):
    return table(head, ([name, meaning] for name, meaning in words.items()))


def grown(scanned):
    return f"{scanned.growth:.2f} ({scanned.least:.2f} to {scanned.most:.2f})"


def scans_in_lookups(scans):
    sizes = sorted({s.slots for s in scans})
    found = {(s.shape, s.slots): s for s in scans}
    rows = ([shape, *(f"{found[shape, n].lookups:.2f} ({found[shape, n].native_lookups:.2f})" for n in sizes), grown(found[shape, sizes[-1]])] for shape in SHAPES)
    return table(["Tables", *(f"N = {n:,}" for n in sizes), "growth"], rows)


def scan_times(scans):
    rows = ([s.shape, f"{s.slots:,}", f"{s.lookup:,.3f}", f"{s.scan:,.3f}", f"{s.native:,.3f}", f"{s.ratio:.2f}"] for s in sorted(scans, key=lambda s: (list(SHAPES).index(s.shape), s.slots)))
    return table(["Tables", "N", "Lookup, µs", "Scan, µs", "C's scan, µs", "Ratio"], rows)


def report(results, merges, scans, load):
    parts = [HEAD.format(processors=os.cpu_count(), load=load), meanings(["Load", "What is timed"], MEANINGS), times(results),
             IN_MERGES, meanings(["Range deletes", "What they are over"], FORMS), times(merges, "Range deletes"),
             IN_LOOKUPS, meanings(["Tables", "What they hold"], SHAPES), scans_in_lookups(scans), scan_times(scans)]
    return "\n".join(parts)


def main():
    load = os.getloadavg()[0]
    results, merges, scans = list(measure(CALLS, Measured)), list(measure(MERGES, Measured)), list(measure(SCANS, Scanned))
    page = report(results, merges, scans, load)
    print(page[page.index("| Load | N"):], end="")
    REPORT.write_text(page)
    PLOT.write_text(plot.picture(results))


if __name__ == "__main__":
    main()
