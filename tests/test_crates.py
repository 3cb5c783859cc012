"""crates.txt names for each crate exactly the crates that its files use, below them and in a section; docs/architecture.svg is drawn from it."""
import pathlib
import re
import sys
import unittest

ROOT = pathlib.Path(__file__).parent.parent
CRATES = ROOT / "crates"
sys.path.insert(0, str(ROOT / "scripts"))
import picture  # noqa: E402

COMMENT = re.compile(r"(?://|--).*$", re.M)
# `Rattle.crate.specs.File` in definitions, proofs and contracts, `crate::name` in code. The toolchain's `std` is never listed, and nothing else of it is used.
IN_PROOFS, IN_CODE = re.compile(r"\bRattle\.(\w+)(?=\.)"), re.compile(r"(?<![\w.:])(\w+)(?=::)")


def used(crate, known):
    found = set()
    for path in (CRATES / crate).rglob("*"):
        if path.suffix in (".rt", ".antt") and path.is_file():
            text = COMMENT.sub("", path.read_text())
            found |= set(IN_PROOFS.findall(text)) | (set(IN_CODE.findall(text)) if path.suffix == ".rt" else set())
    return found & known - {crate}


class Crates(unittest.TestCase):
    def setUp(self):
        self.text = (ROOT / "crates.txt").read_text()
        self.sections = picture.sections(self.text)
        self.named = {crate: uses for section in self.sections for crate, uses in section.crates.items()}

    def test_every_crate_stands_once(self):
        lines = [line.partition(":")[0].split()[0] for line in self.text.split("\n") if line and not line.startswith("#")]
        self.assertEqual(sorted(lines), sorted(p.name for p in CRATES.iterdir() if p.is_dir()), "lines of crates.txt and folders of crates/")

    def test_sections(self):
        self.assertTrue(self.text.startswith("# "), "crates.txt begins with a comment line")
        self.assertEqual([s.title for s in self.sections if not s.crates], [], "sections without a crate")

    def test_a_line_names_what_the_files_use(self):
        wrong = []
        for crate, uses in self.named.items():
            found = used(crate, set(self.named))
            wrong += [f"crates.txt, {crate}: its files use {u}, its line does not name it" for u in sorted(found - set(uses))]
            wrong += [f"crates.txt, {crate}: its line names {u}, which no file of it uses" for u in sorted(set(uses) - found)]
        self.assertEqual(wrong, [], "\n" + "\n".join(wrong))

    def test_order(self):
        """A line names crates above it alone, in the order of the file."""
        order, wrong = list(self.named), []
        for crate, uses in self.named.items():
            wrong += [f"crates.txt, {crate}: {u} stands below it" for u in uses if order.index(u) >= order.index(crate)]
            if uses != sorted(uses, key=order.index):
                wrong.append(f"crates.txt, {crate}: not in the order of the file: {' '.join(uses)}")
        self.assertEqual(wrong, [], "\n" + "\n".join(wrong))

    def test_picture(self):
        drawn = picture.PICTURE.read_text() == picture.picture(self.text)
        self.assertTrue(drawn, "docs/architecture.svg is not drawn from crates.txt as it is: run python3 scripts/picture.py")


if __name__ == "__main__":
    unittest.main()
