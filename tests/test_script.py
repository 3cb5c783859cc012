"""The script program: the papers' script, cases and edges, lines of every kind, how its input is cut, calls that fail for a while, how its output ends, and
random scripts."""
import contextlib
import os
import random
import resource
import select
import signal
import socket
import struct
import subprocess
import tempfile
import time
import unittest

import random_scripts
from cases import CASES
from random_scripts import PATIENCE, PROGRAM

LINES = 1000000
NO_FORM = b"9 0 0\n"

INPUT = b"M 6 3 2 2 9\nP 1 7 70 0\nP 1 8 80 0\nD 2 7\nP 3 9 90 0\nG 7\nP 4 7 71 0\nT 5\nG 7\nT 11\nF 10\n"
OUTPUT = b"0 0 0\n0 0 0\n0 1 0\n0 0 0\n0 1 1\n0 0 0 0\n0 0 0\n0 1 0\n0 1 71 0\n0 1 1\n5 0 0\n"

# Name, lines, answers.
EDGES = [
    ("limits 1, 3, 9", "M 4 3 2 2 9/D 1 5/T 1/T 2/T 3/T 4/T 9/T 10", "0 0 0/0 0 0/0 0 0/0 1 0/0 0 0/0 1 0/0 0 0/0 1 1"),
    ("limits 1, 5, 24, 100", "M 4 4 4 2 100/D 1 5/T 1/T 2/T 5/T 6/T 24/T 25/T 100/T 101", "0 0 0/0 0 0/0 0 0/0 1 0/0 0 0/0 1 0/0 0 0/0 1 0/0 0 0/0 1 1"),
    ("limits 0, 0, 10", "M 4 3 10 2 10/D 1 5/T 10/T 11", "0 0 0/0 2 0/0 0 0/0 1 1"),
    ("limits 0, 0, 0, 0, 0, 1", "M 4 6 2 2 1/D 1 5/T 1/T 2", "0 0 0/0 5 0/0 0 0/0 1 1"),
    ("a third of the term, then the term", "M 4 2 2 2 4/D 1 5/T 1/T 2/T 4/T 5", "0 0 0/0 0 0/0 0 0/0 1 0/0 0 0/0 1 1"),
    ("the longest term", "M 4 2 2 1 4294967295/D 1 5/T 4294967295/F 4294967295", "0 0 0/0 1 0/0 0 0/0 0 0"),
    ("a term that ends at the last clock", "M 4 2 2 1 4294967294/D 1 5/T 4294967294/T 4294967295", "0 0 0/0 1 0/0 0 0/0 1 1"),
    ("one slot", "M 1 2 2 1 4/P 1 5 50 0/P 2 5 51 0/P 3 6 60 0/G 5/G 6/D 4 5/P 5 6 60 0/G 5/G 6",
     "0 0 0/0 1 0/0 1 1/7 0 0/0 1 51 0/0 0 0 0/0 0 2/0 1 0/0 0 0 0/0 1 60 0"),
    ("the widest range", "M 6 3 2 2 9/R 1 0 65535", "0 0 0/0 0 0"),
    ("lo above hi", "M 6 3 2 2 9/R 1 1 0/R 0 1 0/R 1 65536 65536/R 1 0 65536", "0 0 0/4 0 0/4 0 0/4 0 0/4 0 0"),
    ("dates", "M 6 3 2 2 9/Y 5 0 9 0/Y 5 0 9 6/Y 5 0 9 4294967295/Y 5 0 9 5/Y 5 0 65535 1", "0 0 0/10 0 0/10 0 0/10 0 0/0 0 0/0 1 0"),
    ("a date is asked for after dockets and the clock", "M 6 3 2 2 9/P 3 5 50 0/Y 3 1 0 0/Y 2 1 0 0/Y 2 0 1 0/Y 0 0 1 0/Y 3 0 65536 4/Y 3 0 1 0",
     "0 0 0/0 0 0/4 0 0/4 0 0/5 0 0/5 0 0/4 0 0/10 0 0"),
    ("everything up to a day", "M 8 3 2 2 9/P 1 7 70 0/P 2 8 80 0/P 3 9 90 0/Y 9 0 65535 2/G 7/G 8/G 9/F 9/G 8/G 9",
     "0 0 0/0 0 0/0 1 0/0 0 0/0 1 2/0 0 0 0/0 0 0 0/0 1 90 0/0 0 0/0 0 0 0/0 1 90 0"),
    ("clocks", "M 6 3 2 2 9/T 0/P 3 5 50 0/P 3 6 60 0/T 3/T 2/P 0 65536 1 0", "0 0 0/5 0 0/0 0 0/0 1 0/0 0 0/5 0 0/4 0 0"),
    ("a lookup past the last docket", "M 6 3 2 2 9/P 1 65535 7 0/G 65535/G 65536/G 131071/G 4294967295", "0 0 0/0 0 0/0 1 7 0/4 0 0 0/4 0 0 0/4 0 0 0"),
    ("counts of 32 bits", "M 6 3 2 2 9/P 1 0 4294967295 0/G 0/P 1 0 0 0/G 0", "0 0 0/0 0 0/0 1 4294967295 0/0 0 1/0 1 0 0"),
    ("before a store", "P 1 7 70 0/D 1 7/R 1 7 8/Y 1 7 8 1/F 1/T 1/G 7/G 65536/M 6 3 2 2 9/G 7",
     "9 0 0/9 0 0/9 0 0/9 0 0/9 0 0/9 0 0/9 0 0/9 0 0/0 0 0/0 0 0 0"),
    ("a refused M makes no store", "M 6 1 2 2 9/G 7/M 0 3 2 2 9/G 7/M 3276 3 2 2 9/G 7/M 6 3 2 2 9/G 7", "6 0 0/9 0 0/1 0 0/9 0 0/9 0 0/9 0 0/0 0 0/0 0 0 0"),
    ("settings at both ends", "M 1 2 2 1 1/M 3275 6 10 64 4294967295", "0 0 0/0 0 0"),
    ("L and T past the ends", "M 6 1 2 2 9/M 6 7 2 2 9/M 6 4294967295 2 2 9/M 6 3 1 2 9/M 6 3 11 2 9", "6 0 0/6 0 0/6 0 0/6 0 0/6 0 0"),
    ("B and D past the ends", "M 6 3 2 0 9/M 6 3 2 65 9/M 6 3 2 2 0", "6 0 0/6 0 0/6 0 0"),
    ("refusals of M in order", "M 3276 7 2 2 9/M 4294967295 3 2 2 9/M 0 7 2 2 9/M 0 3 2 2 0/M 3275 7 2 2 9", "9 0 0/9 0 0/1 0 0/1 0 0/6 0 0"),
    ("a refused M leaves the store there was", "M 6 3 2 2 9/P 5 7 70 0/M 3276 3 2 2 9/M 4 7 2 2 9/M 0 3 2 2 9/G 7/T 4/T 5",
     "0 0 0/0 0 0/9 0 0/6 0 0/1 0 0/0 1 70 0/5 0 0/0 0 0"),
    ("a later M makes the store anew", "M 6 3 2 2 9/P 5 7 70 0/M 4 2 2 2 4/G 7/P 1 7 71 0/G 7/M 6 3 2 2 9/G 7",
     "0 0 0/0 0 0/0 0 0/0 0 0 0/0 0 0/0 1 71 0/0 0 0/0 0 0 0"),
    ("prices of 32 bits", "M 6 3 2 2 9/P 1 0 5 4294967295/G 0/P 1 0 5 0/G 0/P 1 0 4294967295 4294967295/G 0",
     "0 0 0/0 0 0/0 1 5 4294967295/0 0 1/0 1 5 0/0 0 1/0 1 4294967295 4294967295"),
    ("a price is put, put again and deleted", "M 6 3 2 2 9/P 1 7 70 12/G 7/P 2 7 70 13/G 7/D 3 7/G 7/P 4 7 70 0/G 7",
     "0 0 0/0 0 0/0 1 70 12/0 0 1/0 1 70 13/0 0 1/0 0 0 0/0 1 1/0 1 70 0"),
    ("a price on a full level L", "M 1 2 2 1 4/P 1 5 50 1/P 2 5 50 2/G 5/P 3 6 60 3/G 5/G 6/G 65536", "0 0 0/0 1 0/0 1 1/0 1 50 2/7 0 0/0 1 50 2/0 0 0 0/4 0 0 0"),
]

# Lines of no form, by what is wrong with them.
MALFORMED = {
    "nothing": [b""],
    "blanks": [b" ", b"  ", b" G 7", b"G 7 ", b"G  7", b"P 1  7 70 0", b"P 1 7  70 0", b"P 1 7 70  0", b"G ", b"P 1 7 70 ",
               b"P 1 7 70 0 ", b"M 6 3 2 2 9 "],
    "no blank": [b"G\t7", b"G 7\t", b"\tG 7", b"G7", b"D 2,7", b"G\x007", b"G\xa07", b"G\x0b7", b"G_7", b"G\r7"],
    "no digits": [b"G /", b"G :", b"G 7/", b"G 7:", b"G \xb7", b"G \x17"],
    "bytes past the end": [b"G 7\r", b"G 7\x00", b"G 7\xff", b"G 7\x1a", b"G 7\x0b"],
    "other bytes": [b"\r", b"\x00", b"\x00G 7", b"G \x007", b"\xff" * 9, b"G \xff", b"\x1a"],
    "UTF-8": [line.encode() for line in ("G ７", "G ٧", "G ²", "Ｇ 7", "G\u00a07", "\ufeffG 7", "G 7é")],
    "signs": [b"G +7", b"G -7", b"G -0", b"T -1", b"P 1 7 -1 0", b"P 1 7 70 -1", b"P 1 7 70 +1", b"P +1 7 70 0"],
    "other notations": [b"G 0x7", b"G 7h", b"G 7a", b"G 0b1", b"G 7.", b"G 7.0", b"G 1e1", b"G 7_0", b"G 7,000", b"G '7'"],
    "too large": [b"G 4294967296", b"G 4294967303", b"G 9999999999", b"T 4294967297", b"P 1 7 4294967296 0", b"P 1 7 70 4294967296",
                  b"M 6 3 2 2 4294967296", b"M 4294967302 3 2 2 9"],
    "too many digits": [b"G 42949672950", b"G 00000000007", b"G 18446744073709551623", b"G " + b"0" * 20 + b"7", b"P 1 7 00000000070 0", b"P 1 7 70 00000000000"],
    "lower case": [b"g 7", b"m 6 3 2 2 9", b"p 1 7 70 0", b"d 2 7", b"r 1 0 9", b"y 1 0 9 1", b"f 5", b"t 5"],
    "other letters": [b"S 7", b"A 7", b"N 7", b"Q 1 7 70 0", b"U 5", b"X 1 0 9 1", b"Z 1 0 9 1", b"GG 7", b"7", b"7 G", b"# G 7", b"\xc7 7"],
    "a letter alone": [b"M", b"P", b"D", b"R", b"Y", b"F", b"T", b"G"],
    "too few": [b"M 6 3 2 2", b"M 6", b"P 1 7 70", b"P 1 7", b"P 1", b"D 2", b"R 3 5", b"R 3", b"Y 3 5 6", b"Y 3"],
    "too many": [b"M 6 3 2 2 9 1", b"P 1 7 70 0 1", b"D 2 7 1", b"R 3 5 6 7", b"Y 3 5 6 3 8", b"F 10 1", b"T 11 1", b"G 7 1"],
}

# Of 56 bytes: no line of a form is longer.
LONGEST = b"M 0000000006 0000000003 0000000002 0000000002 0000000009"
LENGTHS = (55, 56, 57, 58, 63, 64, 65, 66, 67, 127, 128, 129, 8191, 8192, 8193, 65536)

READABLE = {
    b"G 0000000007": b"0 1 70 3\n", b"G 07": b"0 1 70 3\n", b"G 4294967295": b"4 0 0 0\n", b"T 0000000000": b"5 0 0\n",
    b"P 0000000001 0000000009 4294967295 4294967295": b"0 1 0\n", b"P 1 9 1 00": b"0 1 0\n",
    b"Y 4294967295 0000000000 0000065535 0000000001": b"0 0 1\n", LONGEST: b"0 0 0\n", LONGEST[:-1]: b"6 0 0\n", LONGEST[:-10] + b"4294967295": b"0 0 0\n",
}


def run(script):
    """What a script prints; the program itself ends well and has nothing to say."""
    printed, errors, status = random_scripts.run_program(script)
    assert (errors, status) == (b"", 0), f"status {status}, errors {errors[:200]!r}"
    return printed


@contextlib.contextmanager
def started(**options):
    """A running program, which does not outlive its test."""
    with subprocess.Popen([PROGRAM], bufsize=0, **options) as program:
        try:
            yield program
        finally:
            program.kill()


def text(lines):
    return "".join(" ".join(map(str, line)) + "\n" for line in lines).encode("ascii")


class Document01(unittest.TestCase):
    def test_the_script(self):
        self.assertEqual(run(INPUT), OUTPUT)

    def test_cases(self):
        for name, settings, calls, answers in CASES:
            with self.subTest(name):
                # A lookup prints no stamp, and no line asks when to wake.
                asked = [(call, answer) for call, answer in zip(calls, answers) if call[0] != "W"]
                printed = [(0, *answer[:3]) if call[0] == "G" else answer for call, answer in asked]
                self.assertEqual(run(text([("M", *settings)] + [call for call, _ in asked])), text([(0, 0, 0)] + printed))

    def test_edges(self):
        for name, lines, answers in EDGES:
            with self.subTest(name):
                self.assertEqual(run(lines.replace("/", "\n").encode()), answers.replace("/", "\n").encode() + b"\n")

    def test_the_largest_store(self):
        most = random_scripts.MOST_SLOTS
        puts = [("P", 1, docket, docket, docket + 1) for docket in range(most)]
        full = [("P", 1, most, 1, 1), ("G", most - 1), ("D", 1, 0), ("P", 1, most, 1, 2), ("G", most), ("G", 0)]
        printed = run(text([("M", most, 6, 10, 64, 1)] + puts + full)).splitlines()
        self.assertEqual({line.split()[0] for line in printed[:most + 1]}, {b"0"})
        self.assertEqual(printed[most + 1:], [b"7 0 0", b"0 1 3274 3275", b"0 0 2", b"0 0 0", b"0 1 1 2", b"0 0 0 0"])

    def test_the_model(self):
        """The random scripts' own model prints what the tables here say."""
        self.assertEqual(random_scripts.Model().print_script(INPUT), OUTPUT)
        for name, lines, answers in EDGES:
            self.assertEqual(random_scripts.Model().print_script(lines.replace("/", "\n").encode()), answers.replace("/", "\n").encode() + b"\n", name)
        self.assertEqual([line for lines in MALFORMED.values() for line in lines if random_scripts.read_line(line)], [])


class Lines(unittest.TestCase):
    before, made = b"M 6 3 2 2 9\nP 1 7 70 3\n", b"0 0 0\n0 0 0\n"

    def check(self, line, answer, after, answers):
        """A line between others and as the last, which no line feed ends."""
        with self.subTest((line[:99], len(line))):
            self.assertEqual(run(self.before + line + b"\n" + after), self.made + answer + answers)
            self.assertEqual(run(self.before + line), self.made + (answer if line else b""))

    def check_malformed(self, line):
        """It is refused, the store is as it was, and the next line is read right."""
        self.check(line, NO_FORM, b"G 7\nG 8\nT 1\n", b"0 1 70 3\n0 0 0 0\n0 0 0\n")

    def test_malformed(self):
        for lines in MALFORMED.values():
            for line in lines:
                self.check_malformed(line)

    def test_readable(self):
        self.assertEqual(len(LONGEST), 56)
        for line, answer in READABLE.items():
            self.check(line, answer, b"R 1 1 0\nM 4 2 2 1 4\nP 1 5 50 6\nG 5\n", b"4 0 0\n0 0 0\n0 1 0\n0 1 50 6\n")

    def test_long_lines(self):
        """None may be read as its beginning, as its end, or as what lies past some buffer."""
        for length in LENGTHS:
            for start, filler, end in ((b"", b"7", b""), (b"G 7", b" ", b""), (b"G ", b"0", b"7"), (b"", b" ", b"G 7"), (b"", b"\x00", b"G 7"), (b"", b"\xff", b"T 9")):
                self.check_malformed(start + filler * (length - len(start) - len(end)) + end)
            self.check_malformed(b"7" * length + b"G 7")
            for filler in (b" ", b"0", b"\x00"):
                self.check_malformed(LONGEST + filler * max(1, length - len(LONGEST)))

    def test_ten_megabytes_without_a_line_feed(self):
        for line in (b"7" * 10000000, b"G " + b"0" * 9999997 + b"7", b"\x00" * 10000000, b" " * 9999997 + b"G 7"):
            self.check_malformed(line)


class Input(unittest.TestCase):
    def test_ends(self):
        self.assertEqual(run(INPUT[:-1]), OUTPUT)
        self.assertEqual(run(b""), b"")
        self.assertEqual(run(b"G"), NO_FORM)
        for feeds in (1, 2, 3, 8191, 8192, 8193, 100000):
            self.assertEqual(run(b"\n" * feeds), NO_FORM * feeds)
            self.assertEqual(run(b"\n" * feeds + INPUT), NO_FORM * feeds + OUTPUT)

    def test_a_line_across_two_blocks(self):
        """With every number of its bytes in the first block of 8,192."""
        for before in range(8192 - len(LONGEST) - 2, 8194):
            self.assertEqual(run(b"x" * before + b"\n" + LONGEST + b"\nT 1\n"), NO_FORM + b"0 0 0\n0 0 0\n")

    def run_pieces(self, pieces, kind=socket.SOCK_SEQPACKET, **options):
        """What is printed where each read gets one piece: packets are never joined, as the bytes of a stream are."""
        ours, theirs = socket.socketpair(socket.AF_UNIX, kind)
        ours.settimeout(PATIENCE)
        with ours, tempfile.TemporaryFile() as out, started(stdin=theirs, stdout=out, **options) as program:
            theirs.close()
            for piece in pieces:
                ours.sendall(piece)
            ours.shutdown(socket.SHUT_WR)
            self.assertEqual(program.wait(PATIENCE), 0)
            out.seek(0)
            return out.read()

    def test_cuts(self):
        script = INPUT + b"\nG 7\r\n" + b"x" * 70 + b"\n" + LONGEST + b"\n" + INPUT[:-1]
        whole = run(script)
        self.assertEqual(whole, OUTPUT + NO_FORM * 3 + b"0 0 0\n" + OUTPUT)
        for size in (1, 2, 3, 5, 7, 11, 13, 56, 57, 64, 65):
            self.assertEqual(self.run_pieces(script[i:i + size] for i in range(0, len(script), size)), whole, size)
        for cut in range(1, len(script)):
            self.assertEqual(self.run_pieces((script[:cut], script[cut:])), whole, cut)

    def test_constant_memory(self):
        """A hundred megabytes through a program that may have a third of that: one line, then many."""
        room, blocks, lines = 32 << 20, 800, 1000
        pieces = (piece for part in (b"7" * 64 * lines, (b"x" * 63 + b"\n") * lines) for piece in [part] * blocks)
        printed = self.run_pieces(pieces, socket.SOCK_STREAM, preexec_fn=lambda: resource.setrlimit(resource.RLIMIT_AS, (room, room)))
        self.assertTrue(printed == NO_FORM * lines * blocks, "not one refusal for each line")

    def ask(self, program, lines):
        """What is printed while the program waits for more."""
        program.stdin.write(lines)
        printed = b""
        while printed.count(b"\n") < lines.count(b"\n"):
            self.assertTrue(select.select([program.stdout], [], [], PATIENCE)[0], f"no answer to {lines!r}")
            printed += os.read(program.stdout.fileno(), 65536)
        return printed

    def test_answers_come_before_the_next_read(self):
        with started(stdin=subprocess.PIPE, stdout=subprocess.PIPE) as program:
            for line, answer in zip(INPUT.splitlines(True), OUTPUT.splitlines(True)):
                self.assertEqual(self.ask(program, line), answer)
            self.assertEqual(self.ask(program, INPUT), OUTPUT)
            program.stdin.write(b"G")
            self.assertEqual(self.ask(program, b" 7\n"), b"0 1 71 0\n")
            program.stdin.close()
            self.assertEqual(program.wait(PATIENCE), 0)


class Waiting(unittest.TestCase):
    """Reads and writes that fail for a while are made again, and nothing is lost."""
    stall = 0.5   # seconds

    def test_an_output_that_does_not_wait(self):
        """A pipe that refuses what it has no room for, and a reader that pauses."""
        lines = 300000
        read, write = os.pipe()
        os.set_blocking(write, False)
        with open(read, "rb") as output, tempfile.TemporaryFile() as script:
            script.write(b"\n" * lines)
            script.seek(0)
            with started(stdin=script, stdout=write, stderr=subprocess.PIPE) as program:
                os.close(write)
                printed = b""
                for size in (500000, 500000, -1):
                    time.sleep(self.stall)
                    printed += output.read(size)
                self.assertEqual(program.wait(PATIENCE), 0)
                self.assertEqual(program.stderr.read(), b"")
        self.assertEqual(len(printed), lines * len(NO_FORM))
        self.assertTrue(printed == NO_FORM * lines, "not one refusal for each line")

    def test_an_input_that_does_not_wait(self):
        read, write = os.pipe()
        os.set_blocking(read, False)
        with open(write, "wb", buffering=0) as script, started(stdin=read, stdout=subprocess.PIPE, stderr=subprocess.PIPE) as program:
            os.close(read)
            for piece in (INPUT[:50], INPUT[50:]):
                time.sleep(self.stall)
                script.write(piece)
            time.sleep(self.stall)
            script.close()
            self.assertEqual(program.communicate(timeout=PATIENCE), (OUTPUT, b""))

    def test_an_input_that_fails_for_good(self):
        """A directory, which no waiting makes readable."""
        folder = os.open("/", os.O_RDONLY)
        with started(stdin=folder, stdout=subprocess.PIPE, stderr=subprocess.PIPE) as program:
            os.close(folder)
            self.assertEqual(program.communicate(timeout=PATIENCE), (b"", b"run_script: the input was cut\n"))

    def test_a_signal(self):
        """Where a socket has a time limit, a read that a stop interrupted fails once the program goes on, though it handles no signal."""
        ours, theirs = socket.socketpair()
        theirs.setsockopt(socket.SOL_SOCKET, socket.SO_RCVTIMEO, struct.pack("ll", PATIENCE, 0))
        with ours, started(stdin=theirs, stdout=subprocess.PIPE, stderr=subprocess.PIPE) as program:
            theirs.close()
            for piece in (INPUT[:50], INPUT[50:]):
                ours.sendall(piece)
                time.sleep(self.stall)
                program.send_signal(signal.SIGSTOP)
                program.send_signal(signal.SIGCONT)
                time.sleep(self.stall)
            ours.shutdown(socket.SHUT_WR)
            self.assertEqual(program.communicate(timeout=PATIENCE), (OUTPUT, b""))


class Output(unittest.TestCase):
    def run_closed(self, restore_signals):
        """The status with an output that nobody reads and an input that stays open, and what is said about it."""
        read, write = os.pipe()
        os.close(read)
        with started(stdin=subprocess.PIPE, stdout=write, stderr=subprocess.PIPE, restore_signals=restore_signals) as program:
            os.close(write)
            program.stdin.write(INPUT)
            return program.wait(PATIENCE), program.stderr.read()

    def test_a_closed_output_ends_the_program(self):
        # The program's own runtime ignores SIGPIPE, whether or not it was started so.
        self.assertEqual(self.run_closed(restore_signals=True), (0, b"run_script: the output was cut\n"))
        self.assertEqual(self.run_closed(restore_signals=False), (0, b"run_script: the output was cut\n"))

    def test_a_full_output_ends_the_program(self):
        with open("/dev/full", "wb") as full, started(stdin=subprocess.PIPE, stdout=full, stderr=subprocess.PIPE) as program:
            program.stdin.write(INPUT)
            self.assertEqual((program.wait(PATIENCE), program.stderr.read()), (0, b"run_script: the output was cut\n"))


class Random(unittest.TestCase):
    def test_random_scripts(self):
        seed = random.randrange(1 << 32)
        print(f"seed {seed}", flush=True)
        counts = random_scripts.run_random(seed, LINES)
        self.assertGreaterEqual(counts["lines"], 500000)
        self.assertEqual({number for number in range(11) if counts[number]}, {0, 1, 4, 5, 6, 7, 9, 10}, f"seed {seed}: the refusals that were met")
        for name in ("merges", "purged", "found", "absent"):
            self.assertGreater(counts[name], 0, f"seed {seed}: {name}")
        print(random_scripts.told(counts))


if __name__ == "__main__":
    unittest.main()
