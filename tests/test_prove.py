"""`scripts/prove` with a stand-in for rt: how far it is, what failed, and its exit status."""
import os
import pathlib
import pty
import shutil
import subprocess
import tempfile
import unittest

ROOT = pathlib.Path(__file__).parent.parent
# All that it and the stand-ins run, so that no other rt is on the path.
TOOLS = ["bash", "dirname", "mkdir", "awk", "tee", "sleep", "cat", "find", "sort", "xargs", "sha256sum", "nproc", "cmp", "cp", "chmod"]
CRATES = "# Ground: below, nothing\nbelow:\nbeside:\n\nmiddle: below\ntop: below middle io\nelse staticlib: beside\n"
LOGIC = "logic=proved functions=1 sum=dac8208d650f15bf native=nat,char,string logic-built=trusted libraries-built=trusted"
ENDS = 'echo "== summary"; for name in below middle top; do echo "$name: ok"; done; echo "3 of 3 crates ok"\n'
PROVED = f"""echo "note: src/lib.rt:1:1: a note of the quick pass over all sources"
for name in below middle top; do echo "== $name"; echo "note: src/lib.rt:1:1: a note"; echo "fn $name::first: proved"
echo "crate $name: modules loaded=29 checked=6"; echo "{LOGIC}"; done
""" + ENDS
# One that was proved before has a part with nothing in it, but that the top one is looked through again.
UNCHANGED = f"""for name in below middle top; do echo "== $name"; done
echo "fn top::first: proved"; echo "library below: modules loaded=18 checked=0"; echo "crate top: modules loaded=54 checked=0"; echo "{LOGIC}"
""" + ENDS
REFUSED = f"""echo "== below"; echo "note: src/lib.rt:7:1: a note"; echo "crate below: modules loaded=29 checked=6"; echo "{LOGIC}"
echo "== middle"
echo "warning: src/lib.rt:2:1: a warning"
echo "note: src/lib.rt:35:1: it is not proved that what the function ensures holds when it returns (\\`returns\\`)"
echo "note: src/lib.rt:40:1: a second one"
echo "fn middle::first: no proof: expected answers in ./proofs/first/Answers.antt; \\`search\\` did not prove \\`returns\\`"
echo "crate middle: modules loaded=26 checked=7"
echo "logic=not-proved"
echo "rattle build: nothing was built, since only a proved crate is built"
echo "== summary"; echo "below: ok"; echo "middle: failed (1)"; echo "top: not run, since middle failed"
echo "(1: not proved or not passed, 2: rattle failed, 3: antt could not tell)"; echo "1 of 3 crates ok"
exit 1
"""
# No part begins: the quick pass over all sources has found it.
NO_CODE = """echo "$(cd ../.. && echo "$PWD")/crates/middle/src/lib.rt:12:15: error[mismatched-types]: expected \\`usize\\`, found \\`bool\\`"
echo "rt: mend these first: no library was built, and no proof was checked"
exit 1
"""
NO_CODE_AT_THE_TOP = NO_CODE.replace('$(cd ../.. && echo "$PWD")/crates/middle/', "")
NO_CRATE = 'echo "rt: $(cd ../.. && echo "$PWD")/crates.txt: io is no line of this file and no library of the kit" >&2\nexit 2\n'
# A program that writes what it reads.
WRITES = 'if [ "$1" = run ]; then echo "rt: running out/top" >&2; mkdir -p out; echo built >out/top; chmod +x out/top; exec cat; fi\n'


def read_all(terminal):
    """What a terminal was sent; once its other end is closed, reading past that is an error."""
    shown = b""
    with open(terminal, "rb", buffering=0) as file:
        try:
            while part := file.read(1 << 16):
                shown += part
        except OSError:
            pass
    return shown.decode()


class Prove(unittest.TestCase):
    def setUp(self):
        self.place = pathlib.Path(tempfile.mkdtemp())
        self.addCleanup(shutil.rmtree, self.place)
        (self.place / "scripts").mkdir()
        shutil.copy(ROOT / "scripts" / "prove", self.place / "scripts")
        (self.place / "crates.txt").write_text(CRATES)
        for crate in ("below", "beside", "middle", "top", "else"):
            self.write(f"crates/{crate}/src/lib.rt", f"// {crate}\n")

    def write(self, path, text):
        (self.place / path).parent.mkdir(parents=True, exist_ok=True)
        (self.place / path).write_text(text)

    def read(self, path):
        return (self.place / path).read_text()

    def prove(self, stand_in, *names, **options):
        """Runs it with a stand-in of these lines, or with none."""
        tools = self.place / "bin"
        if not tools.exists():
            tools.mkdir()
            for tool in TOOLS:
                (tools / tool).symlink_to(shutil.which(tool))
        rt = tools / "rt"
        if stand_in is not None:
            rt.write_text('#!/usr/bin/env bash\nif [ "$1" = version ]; then echo a kit; exit; fi\n' + stand_in)
            rt.chmod(0o755)
        environment = os.environ | {"PATH": str(tools)}
        return subprocess.run([tools / "bash", self.place / "scripts" / "prove", *names], env=environment, text=True, **options)

    def test_proved(self):
        ran = self.prove(PROVED, "top", capture_output=True)
        self.assertEqual((ran.returncode, ran.stdout), (0, ""))
        self.assertRegex(ran.stderr, r"^3 of 3 crates proved, \d+ s\n$")
        self.assertEqual(self.read("target/prove.log").count("\n"), 2 + 3 * 5 + 5)

    def test_several_names(self):
        ran = self.prove(PROVED, "top", "else", "below", capture_output=True)
        self.assertRegex(ran.stderr, r"^3 of 5 crates proved")

    def test_unchanged_is_silent(self):
        ran = self.prove(UNCHANGED, "top", capture_output=True)
        self.assertEqual((ran.returncode, ran.stdout, ran.stderr), (0, "", ""))

    def test_what_stands_proved_is_not_asked_for(self):
        """Until a file of it changes, or one of a crate that it uses."""
        self.assertEqual(self.prove(PROVED, "top", capture_output=True).returncode, 0)
        again = self.prove("exit 1\n", "top", capture_output=True)
        self.assertEqual((again.returncode, again.stdout, again.stderr), (0, "", ""))
        self.write("crates/beside/src/lib.rt", "// not used\n")
        self.assertEqual(self.prove("exit 1\n", "top", capture_output=True).returncode, 0)
        self.write("crates/below/src/lib.rt", "// changed\n")
        self.assertEqual(self.prove("exit 1\n", "top", capture_output=True).returncode, 1)

    def test_refused(self):
        ran = self.prove(REFUSED, "top", capture_output=True)
        self.assertEqual(ran.returncode, 1)
        self.assertEqual(ran.stderr.split("\n")[1:], [
            "FAILED: middle is not proved: crates/middle/src/lib.rt:35:1: it is not proved that what the function ensures holds when it returns (`returns`)",
            "all that was said: target/prove.log", ""])
        self.assertEqual(ran.stderr.split(" crates proved")[0], "1 of 3")
        self.assertIn("a second one", self.read("target/prove.log"))
        self.assertEqual(self.prove("exit 1\n", "top", capture_output=True).returncode, 1)

    def test_other_failures(self):
        for stand_in, status, told in ((NO_CRATE, 2, "rt: crates.txt: io is no line of this file and no library of the kit"),
                                       (NO_CODE, 1, "crates/middle/src/lib.rt:12:15: error[mismatched-types]: expected `usize`, found `bool`"),
                                       (NO_CODE_AT_THE_TOP, 1, "crates/top/src/lib.rt:12:15: error[mismatched-types]: expected `usize`, found `bool`")):
            ran = self.prove(stand_in, "top", capture_output=True)
            self.assertEqual(ran.returncode, status)
            self.assertTrue(ran.stderr.startswith(f"FAILED: {told}\n"), ran.stderr)
        ran = self.prove(PROVED, "topp", capture_output=True)
        self.assertEqual((ran.returncode, ran.stderr.split("\n")[0]), (2, "FAILED: there is no crate topp"))

    def test_a_later_name_that_fails(self):
        ran = self.prove(f'if [ "${{PWD##*/}}" = else ]; then {PROVED} exit; fi\n' + NO_CODE_AT_THE_TOP, "else", "top", capture_output=True)
        self.assertEqual(ran.returncode, 1)
        self.assertIn("\nFAILED: crates/top/src/lib.rt:12:15: error", ran.stderr)

    def make_program(self):
        self.write("crates/top/src/main.rt", "// top\n")
        self.write("crates/top/stdin", "4\n")
        self.write("crates/top/stdout", "4\n")

    def test_a_program(self):
        self.make_program()
        self.assertEqual(self.prove(WRITES + PROVED, "top", capture_output=True).returncode, 0)
        self.assertEqual(self.read("target/bin/top"), "built\n")
        (self.place / "target" / "bin" / "top").unlink()
        self.assertEqual(self.prove(WRITES + UNCHANGED, "top", capture_output=True).stderr, "")
        self.assertEqual(self.read("target/bin/top"), "built\n")

    def test_a_program_that_prints_something_else(self):
        self.make_program()
        self.write("crates/top/stdin", "5\n")
        ran = self.prove(WRITES + PROVED, "top", capture_output=True)
        self.assertEqual(ran.returncode, 1)
        self.assertIn("\nFAILED: top: what the program wrote, target/top.stdout, is not its file stdout\n", ran.stderr)
        self.assertFalse((self.place / "target" / "bin" / "top").exists())

    def test_a_program_that_fails(self):
        self.make_program()
        ran = self.prove(WRITES.replace("exec cat", "exit 3") + PROVED, "top", capture_output=True)
        self.assertEqual(ran.returncode, 1)
        self.assertIn("\nFAILED: top: rt run ended with status 3\n", ran.stderr)

    def test_no_rt(self):
        ran = self.prove(None, "top", capture_output=True)
        self.assertEqual((ran.returncode, ran.stderr.count("\n")), (2, 1))
        self.assertTrue(ran.stderr.startswith("rt is not on the path"))

    def test_on_a_terminal(self):
        """One line, rewritten also while nothing is printed, and none of it left."""
        reader, writer = pty.openpty()
        ran = self.prove(UNCHANGED.replace('"; done', '"; sleep 0.6; done', 1), "top", stderr=writer)
        os.close(writer)
        shown = read_all(reader)
        self.assertEqual(ran.returncode, 0)
        self.assertIn("1 of 3 crates proved, the last below, ", shown)
        self.assertIn("3 of 3 crates proved, the last top, ", shown)
        self.assertTrue(shown.endswith("\r\033[K"))
        self.assertNotIn("\n", shown)


if __name__ == "__main__":
    unittest.main()
