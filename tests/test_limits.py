"""What the program `print_limits` prints is what the formulas of document 01 give."""
import pathlib
import re
import subprocess
import unittest

PROGRAM = pathlib.Path(__file__).parent.parent / "target" / "bin" / "print_limits"


class Limits(unittest.TestCase):
    def test_every_line(self):
        shown = {}
        for line in subprocess.run([PROGRAM], capture_output=True, text=True, check=True).stdout.splitlines():
            numbers = [int(x) for x in re.findall(r"\d+", line)]
            if line.startswith("L="):
                settings = tuple(numbers[:4])
                shown[settings] = [] if "refused" not in line else "refused 6"
            else:
                shown[settings].append(tuple(numbers))
        self.assertEqual(shown.pop((7, 2, 2, 9)), "refused 6")
        self.assertEqual(len(shown), 6)
        for (l, t, b, d), levels in shown.items():
            limits = [d * (t ** (i + 1) - 1) // (t ** l - 1) for i in range(l)]
            self.assertEqual(levels, [(0, limits[0])] + [(i, limits[i], b * t ** i) for i in range(1, l)])


if __name__ == "__main__":
    unittest.main()
