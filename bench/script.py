"""Times the script program beside the same program in C: a million lines at N = 100, by turns in one run, and compares every byte that they print."""
import pathlib
import random
import statistics
import subprocess
import time

TARGET = pathlib.Path(__file__).parent.parent / "target"
# C stands there twice: its ratio to itself shows what a ratio is worth on the machine of the day.
PROGRAMS = {"proved": TARGET / "bin" / "run_script", "C": TARGET / "native_script", "C again": TARGET / "native_script"}
LINES, ROUNDS, SEED = 1000000, 12, 1
MAKE = "M 100 3 4 8 1000"
LETTERS = "P" * 40 + "D" * 12 + "R" * 3 + "Y" * 2 + "F" * 3 + "T" * 10 + "G" * 30
WIDEST = 4
# By how many dockets there are for the 100 slots.
LOADS = (("half full", 50), ("full", 200))


def script(dockets):
    rng, clock = random.Random(SEED), 1
    yield MAKE
    for _ in range(LINES - 1):
        clock += rng.getrandbits(1)
        letter, lo = rng.choice(LETTERS), rng.randrange(dockets)
        hi, date = lo + rng.randint(0, WIDEST), rng.randint(1, clock)
        numbers = {"P": (clock, lo, rng.getrandbits(32), rng.getrandbits(32)), "D": (clock, lo), "R": (clock, lo, hi), "Y": (clock, lo, hi, date), "F": (clock,), "T": (clock,), "G": (lo,)}
        yield " ".join(map(str, (letter, *numbers[letter])))


def seconds(program, load, output):
    with load.open("rb") as lines, output.open("wb") as answers:
        begin = time.perf_counter()
        subprocess.run([program], stdin=lines, stdout=answers, check=True)
        return time.perf_counter() - begin


def measure(name, dockets):
    load, outputs = TARGET / "bench_script.txt", {who: TARGET / f"bench_script.{i}.out" for i, who in enumerate(PROGRAMS)}
    load.write_text("\n".join(script(dockets)) + "\n")
    times = {who: [] for who in PROGRAMS}
    for turn in range(ROUNDS):
        # Each program comes first in a third of the rounds.
        for who in sorted(PROGRAMS, key=lambda who: (list(PROGRAMS).index(who) + turn) % len(PROGRAMS)):
            times[who].append(seconds(PROGRAMS[who], load, outputs[who]))
        if len({output.read_bytes() for output in outputs.values()}) > 1:
            raise SystemExit(f"{name}: the outputs differ: {', '.join(map(str, outputs.values()))} for {load}")
    for who, own in times.items():
        # The machine's pace changes from round to round, so programs are compared within a round.
        ratio = statistics.median(mine / native for mine, native in zip(own, times["C"]))
        print(f"{name:10}  {who:8}{min(own):8.3f}{statistics.median(own):8.3f}{ratio:8.2f}{min(own) / min(times['C']):8.2f}", flush=True)


def main():
    print(f"{LINES} lines at N = 100, seconds of {ROUNDS} rounds by turns; every output is the same bytes. Ratios are to C: median of the rounds, and of the bests.")
    print("load        program     best  median   ratio of bests")
    for load in LOADS:
        measure(*load)


if __name__ == "__main__":
    main()
