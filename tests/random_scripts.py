"""Random scripts for the script program, and what it prints by the papers: refusals, merges and purged by the plain steps, lookups by a plain map.

`python3 tests/random_scripts.py LINES [SEED]` runs so many random lines."""
import collections
import pathlib
import random
import re
import subprocess
import sys

import reference
import tables
from plain_map import PlainMap

ROOT = pathlib.Path(__file__).parent.parent
PROGRAM = ROOT / "target" / "bin" / "run_script"
FAILING = ROOT / "target" / "failing"
LARGEST, LAST_DOCKET, MOST_SLOTS = 4294967295, 65535, 3275
FIELDS = {"M": 5, "P": 4, "D": 2, "R": 3, "Y": 4, "F": 1, "T": 1, "G": 1}
FORM = re.compile(rb"[MPDRYFTG]( [0-9]{1,10})+")
NO_FORM = (9, 0, 0)
PATIENCE = 60   # seconds after which a program that should have answered or ended is stuck


def read_line(line):
    """The letter and its numbers, or nothing where the line is of no form."""
    if not FORM.fullmatch(line):
        return None
    letter, *fields = line.decode("ascii").split(" ")
    numbers = [int(field) for field in fields]
    return (letter, numbers) if len(numbers) == FIELDS[letter] and max(numbers) <= LARGEST else None


def lines_of(script):
    """A line ends with a line feed, which the last line may lack."""
    lines = script.split(b"\n")
    return lines if lines[-1] else lines[:-1]


class Model:
    """What a script prints. The map knows only which calls were accepted, and the answers to lookups are the map's."""

    def __init__(self):
        self.store, self.map = None, PlainMap()
        self.counts = collections.Counter()
        self.disagreements = []   # lines on which the plain steps and the map differ

    def print_script(self, script):
        answers = [self.answer(line) for line in lines_of(script)]
        self.counts["lines"] += len(answers)
        self.counts.update(answer[0] for answer in answers)
        return "".join(" ".join(map(str, answer)) + "\n" for answer in answers).encode("ascii")

    def answer(self, line):
        said = read_line(line)
        if said is None or self.store is None and said[0] != "M":
            return NO_FORM
        letter, numbers = said
        if letter == "M":
            return self.make(*numbers)
        return self.lookup(*numbers) if letter == "G" else self.call(letter, *numbers)

    def make(self, n, *settings):
        refusal = 9 if n > MOST_SLOTS else 1 if n == 0 else 0 if tables.settings_fit(*settings) else 6
        if refusal == 0:
            self.store, self.map = reference.Store(n, *settings), PlainMap()
        return (refusal, 0, 0)

    def call(self, letter, *numbers):
        full = letter == "P" and self.map.is_full(self.store.n, numbers[1])
        answer = self.store.call(letter, *numbers)
        if answer[0] in (0, 7) and (answer[0] == 7) != full:
            self.disagreements.append((letter, *numbers))
        if answer[0] == 0:
            self.map.change(letter, *numbers)
        self.counts.update(merges=answer[1], purged=answer[2])
        return answer

    def lookup(self, docket):
        """Four numbers, also where it is refused."""
        if docket > LAST_DOCKET:
            return (4, 0, 0, 0)
        found, count, price, stamp = self.map.lookup(docket)
        if self.store.lookup(docket) != (found, count, price, stamp):
            self.disagreements.append(("G", docket))
        self.counts["found" if found else "absent"] += 1
        return (0, found, count, price)


# Most slots, most lines, and how often such a store is drawn: to the plain steps, full tables of many slots are dear.
SIZES = ((2, 60), (8, 250), (30, 500), (300, 1500), (MOST_SLOTS, 6000))
SIZE_WEIGHTS = (300, 400, 200, 40, 4)
MIXES = ("PPPPPPGGGD", "PPPPDDRYFTTGGGG", "PPDDDGGGT", "PPPPRYGGGT", "PPPPYYGGGT", "PPPPYYYFGGG", "PGPGPGPF", "PPPPPPPPPPPPDRYGGT")
OTHER_BYTES = bytes(byte for byte in range(256) if byte != ord("\n"))
ODD_SHARE = 0.05


class Load:
    """How the lines on one store are drawn."""

    def __init__(self, rng):
        most, lines = rng.choices(SIZES, SIZE_WEIGHTS)[0]
        self.rng, self.slots, self.lines = rng, rng.randint((most + 1) // 2, most), rng.randint(1, lines)
        self.term = rng.choice((1, 2, 9, 40, 1000, LARGEST, rng.randint(1, LARGEST)))
        self.settings = [rng.randint(2, 6), rng.randint(2, 10), rng.choice((1, 2, 3, 8, 64)), self.term]
        # With as many dockets as slots no put is refused; with one more the full store meets 7.
        self.dockets = rng.choice((self.slots // 2 + 1, self.slots, self.slots + 1, 2 * self.slots + 2, LAST_DOCKET + 1))
        self.first = rng.choice((0, LAST_DOCKET + 1 - self.dockets))
        self.width = rng.choice((0, 2, self.dockets // 4, self.dockets))
        self.letters = rng.choice(MIXES)
        # A clock that stands still, goes on, goes in jumps, and jumps by the term.
        self.steps = rng.choice(((0,), (0, 0, 0, 1), (1,), (0, 1, 2, 5), (0, 0, 1, self.term), (0, self.term // 2, self.term + 1)))
        self.clock = rng.choice((1, 1, 1, rng.randint(1, LARGEST), LARGEST - 3))
        # Spans and clocks come back, so that ranges are alike and dates fall on stamps.
        self.spans, self.clocks = collections.deque([(0, 0)], 12), collections.deque([1], 12)

    def script(self):
        yield self.show("M", self.slots, *self.settings)
        for _ in range(self.lines):
            yield self.odd_line() if self.rng.random() < ODD_SHARE else self.line()

    def line(self):
        self.clock = min(LARGEST, self.clock + self.rng.choice(self.steps))
        lo, hi = self.span()
        self.spans.append((lo, hi))
        self.clocks.append(self.clock)
        return self.call(self.rng.choice(self.letters), self.clock, lo, hi, self.date())

    def docket(self):
        return self.first + self.rng.randrange(self.dockets)

    def span(self):
        if self.rng.random() < 0.2:
            return self.rng.choice(self.spans)
        lo = self.docket()
        return lo, min(lo + self.rng.randint(0, self.width), LAST_DOCKET)

    def date(self):
        old = self.rng.choice(self.clocks)
        return max(1, self.rng.choice((self.clock, self.clock - 1, self.clock // 2, 1, old, old, old, old - 1)))

    def call(self, letter, clock, lo, hi, date=1):
        """Behind the dockets stand a put's count and price, or a range's date."""
        count, price = (self.rng.choice((self.rng.getrandbits(32), self.rng.randrange(10), LARGEST)) for _ in range(2))
        numbers = {"P": (clock, lo, count, price), "D": (clock, lo), "R": (clock, lo, hi), "Y": (clock, lo, hi, date), "F": (clock,), "T": (clock,), "G": (lo,)}
        return self.show(letter, *numbers[letter])

    def show(self, letter, *numbers):
        """Now and then with leading zeros."""
        width = self.rng.randint(1, 10) if self.rng.random() < 0.02 else 1
        return " ".join([letter] + [str(number).zfill(width) for number in numbers]).encode("ascii")

    def odd_line(self):
        return self.rng.choice((self.early_line, self.far_line, self.misdated_line, self.refused_make, self.malformed_line))()

    def early_line(self):
        """The date may be wrong too."""
        clock = self.rng.choice((0, self.clock - 1, self.rng.randrange(self.clock)))
        return self.call(self.rng.choice("PDRYFT"), clock, self.docket(), LAST_DOCKET, self.rng.choice((0, 1, clock, self.clock)))

    def far_line(self):
        """Dockets past the last and ranges with lo above hi; the clock and the date may be wrong too."""
        lo, hi = self.rng.choice(((1, 0), (LAST_DOCKET, 0), (0, LAST_DOCKET + 1), (LAST_DOCKET + 1,) * 2, (LARGEST,) * 2, (LAST_DOCKET + 1, 5)))
        letter = self.rng.choice("RY" if lo <= LAST_DOCKET else "PDRYG")
        return self.call(letter, self.rng.choice((self.clock, self.clock, 0)), lo, hi, self.rng.choice((0, 1, self.clock)))

    def misdated_line(self):
        lo, hi = self.span()
        return self.call("Y", self.clock, lo, hi, self.rng.choice((0, min(LARGEST, self.clock + 1), LARGEST)))

    def refused_make(self):
        slots = self.rng.choice((0, 1, self.slots, MOST_SLOTS, MOST_SLOTS + 1, LARGEST))
        settings = list(self.settings)
        if 0 < slots <= MOST_SLOTS or self.rng.random() < 0.5:
            at, number = self.rng.choice(((0, 0), (0, 1), (0, 7), (0, LARGEST), (1, 0), (1, 1), (1, 11), (2, 0), (2, 65), (2, LARGEST), (3, 0)))
            settings[at] = number
        return self.show("M", slots, *settings)

    def malformed_line(self):
        line, rng = self.line(), self.rng
        while read_line(line) is not None:
            at, byte = rng.randrange(len(line) + 1), bytes([rng.choice(OTHER_BYTES)])
            line = rng.choice((b"", byte, line[:at], line[at:], line[:at] + byte + line[at:], line[:at] + byte + line[at + 1:], line[:at] + b" " + line[at:],
                               line.replace(b" ", b"\t"), line.replace(b" ", b" +"), line.replace(b" ", b" 0000000000"), line.lower(),
                               line + b"\r", line + b" 1", line + byte * rng.randint(1, 200), line * rng.randint(2, 2000)))
        return line


def random_script(rng):
    """Some lines before the first store, then some stores one after the other."""
    lines = []
    if rng.random() < 0.3:
        early = Load(rng)
        lines += [rng.choice((early.line, early.odd_line))() for _ in range(rng.randint(1, 8))]
    for _ in range(rng.randint(1, 30)):
        lines += Load(rng).script()
    return b"\n".join(lines) + rng.choice((b"\n", b""))


def keep(name, script, expected, printed):
    """Keeps a script that failed with both outputs; gives where, and the first line that differs."""
    FAILING.mkdir(parents=True, exist_ok=True)
    for ending, content in (("script", script), ("expected", expected), ("printed", printed)):
        (FAILING / f"{name}.{ending}").write_bytes(content)
    pairs = enumerate(zip(expected.split(b"\n"), printed.split(b"\n")), 1)
    return f"{FAILING / name}.script, line {next((i for i, (a, b) in pairs if a != b), 'none')}"


def run_program(script):
    """Output, errors and status; a program that is stuck is ended."""
    try:
        ended = subprocess.run([PROGRAM], input=script, capture_output=True, timeout=PATIENCE)
    except subprocess.TimeoutExpired as stuck:
        return stuck.stdout or b"", stuck.stderr or b"", "stuck"
    return ended.stdout, ended.stderr, ended.returncode


def run_random(seed, lines):
    """Runs random scripts of so many lines in all, and counts what was met. The first that differs is kept and told."""
    rng, counts = random.Random(seed), collections.Counter()
    while counts["lines"] < lines:
        script, model = random_script(rng), Model()
        expected = model.print_script(script)
        printed, errors, status = run_program(script)
        if (printed, errors, status) != (expected, b"", 0) or model.disagreements:
            kept = keep(f"seed-{seed}-script-{counts['scripts']}", script, expected, printed)
            raise AssertionError(f"{kept}; status {status}, errors {errors[:200]!r}; the plain steps and the map differ on {model.disagreements[:1]}")
        counts.update(model.counts, scripts=1)
    return counts


def told(counts):
    refusals = ", ".join(f"{counts[number]} answered {number}" for number in range(11) if counts[number])
    return f"{counts['lines']} lines in {counts['scripts']} scripts; {refusals}; " + ", ".join(f"{name} {counts[name]}" for name in ("merges", "purged", "found", "absent"))


def main(lines, seed=None):
    seed = random.randrange(1 << 32) if seed is None else int(seed)
    print(f"seed {seed}", flush=True)
    print(told(run_random(seed, int(lines))))


if __name__ == "__main__":
    main(*sys.argv[1:])
