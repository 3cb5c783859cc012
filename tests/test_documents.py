"""What the documents say of the code is there, and what the code has public is told: names, functions, edits, sections, counts, tests and links."""
import functools
import pathlib
import re
import sys
import unittest

ROOT = pathlib.Path(__file__).parent.parent
CRATES = ROOT / "crates"
DOCS = ROOT / "docs"
README = ROOT / "README.md"
# But for the records of the port and of the design pass, which name what is gone.
PAGES = [README, *sorted(page for page in DOCS.glob("*.md") if page.name not in ("PORT.md", "DESIGN-PASS.md"))]
WIDTH = 120
# The crates of the public calls.
CALLS = ("make", "check_refusal", "call_any", "call_timed", "lookup", "scan", "guontrem", "script_lines", "script_command", "script_prints")
sys.path[:0] = [str(ROOT / "scripts"), str(ROOT / "tests")]
import picture  # noqa: E402
import reference  # noqa: E402

# crate/specs/File.name.field, crate/proofs/File, crate/src/lib.function, crate/must-fail/edit
CITED = re.compile(r"(?:crates/)?(\w+)/(specs|proofs|src|must-fail)(?:/([\w-]+)((?:[.:]+[^\s.`,]+)*))?(?:/)?")
# Definition in `crates/tables/specs`: the names of the column stand there.
COLUMN = re.compile(r"`crates/(\w+)/(specs|proofs)`")
PUBLIC = re.compile(r"^\s*pub (?:extern \"C\" )?(?:fn|struct|enum|trait|const) (\w+)", re.M)
# Words of the languages that the documents speak of, and names that stand for any.
WORDS = {"requires", "std", "Unit", "slot", "stdout", "Natural"}


def page_text(page):
    return page.read_text()


def spans(text):
    """What stands between backticks, also across a line's end, with the number of its line."""
    for found in re.finditer(r"`([^`]+)`", text):
        yield text.count("\n", 0, found.start()) + 1, found[1].replace("\n", " ")


@functools.cache
def defined_in(path):
    """The names that a file declares: definitions, records, fields, modules and functions."""
    text = path.read_text()
    if path.suffix == ".rt":
        return set(re.findall(r"\b(?:fn|struct|enum|trait|const|impl) (\w+)", text))
    return set(re.findall(r"^\s*(?:(?:abbrev|unfoldable|pub|data|record|mod) )*([^\s:(){}=]+)(?=\s+(?::|\(|\{|where\b))", text, re.M))


def missing(crate, folder, file, names):
    """What of a citation is not there, or nothing."""
    place = CRATES / crate / folder
    if file is None:
        return None if place.is_dir() else f"there is no {crate}/{folder}"
    if folder == "must-fail":
        return None if (place / f"{file}.edit").is_file() else f"there is no edit {crate}/{folder}/{file}"
    # What is written of a function's proof stands in two files of its folder.
    names_of = (place / f"{file}.antt", place / f"{file}.rt", place / file / "Answers.antt", place / file / "Invariants.antt")
    found = [p for p in names_of if p.is_file()]
    if not found:
        return f"there is no file {crate}/{folder}/{file}"
    there = set().union(*map(defined_in, found))
    lost = [n for n in re.split(r"[.:]+", names) if n and n not in ("antt", "rt") and n not in there]
    return f"{found[0].relative_to(ROOT)} has no {', '.join(lost)}{elsewhere(lost[0])}" if lost else None


def elsewhere(name):
    """Where a name that was not found is declared, as a help to mend the page."""
    found = sorted({str(p.relative_to(CRATES)) for p in CRATES.glob("*/*/*.*t*") if p.suffix in (".antt", ".rt") and name in defined_in(p)})
    return f" (it stands in {', '.join(found[:4])})" if found else ""


def citations(page):
    """Line number, crate, folder, file and names of each citation of a page."""
    text = page_text(page)
    for number, span in spans(text):
        found = CITED.fullmatch(span)
        if found:
            yield number, *found.groups()
    columns = {}
    for number, line in enumerate(text.split("\n"), 1):
        cells = line.strip("|").split("|") if line.startswith("|") else []
        columns = columns if cells else {}
        for k, cell in enumerate(cells):
            if COLUMN.search(cell) and not columns:
                columns = {k: COLUMN.search(cell).groups()}
            for _, span in spans(cell) if k in columns else ():
                if re.fullmatch(r"[A-Z]\w*\.[\w-]+", span):
                    file, names = span.split(".", 1)
                    yield number, *columns[k], file, "." + names


def sources():
    for pattern in ("crates/*/src/*.rt", "crates/*/specs/*.antt", "crates/*/proofs/*.antt", "include/*.h", "native/*", "tests/*.py", "tests/native/*",
                    "rust/**/*.rs", "bench/*", "scripts/*", "examples/*", "crates.txt"):
        yield from (p for p in ROOT.glob(pattern) if p.is_file() and p.suffix != ".pyc" and p != pathlib.Path(__file__))


@functools.cache
def known_words():
    words = set(WORDS) | {p.stem for p in sources()} | {p.stem for p in CRATES.glob("*/must-fail/*.edit")} | {p.name for p in CRATES.iterdir()}
    for path in sources():
        words |= set(re.findall(r"[^\s(){}\[\].,;:`'\"|&*=<>λ→]+", path.read_text()))
    return words


def public_names(crate):
    return [name for path in sorted((CRATES / crate / "src").glob("*.rt")) for name in PUBLIC.findall(path.read_text())]


def own_names(crate):
    """Every name that a crate declares, in code, definitions and proofs."""
    return {name for path in CRATES.glob(f"{crate}/*/*.*t*") if path.suffix in (".antt", ".rt") for name in defined_in(path)}


def entries(text):
    """The entries of ARCHITECTURE's sections: title, then crate and text of each."""
    part = text[text.index("## The sections"):text.index("## Words for")]
    for section in part.split("\n### ")[1:]:
        title, _, body = section.partition("\n")
        yield title.strip(), re.findall(r"^- `(\w+)`: (.*?)(?=^- |\Z)", body, re.M | re.S)


def anchors(page):
    """The anchors of a page's headings."""
    heads = re.findall(r"^#+ (.*)$", page_text(page), re.M)
    return {re.sub(r"[^\w\- ]", "", head.lower()).replace(" ", "-") for head in heads}


def definition_lines(file, *without):
    """Lines of definition of a file, without imports, blank lines and comments, and without some definitions."""
    blocks = re.split(r"\n\s*\n", (CRATES / file).read_text())
    kept = [b for b in blocks if not any(re.search(rf"^(?:(?:abbrev|unfoldable|pub|record) )+{re.escape(name)} ", b, re.M) for name in without)]
    lines = (line.strip() for block in kept for line in block.split("\n"))
    return sum(bool(line) and not line.startswith(("--", "use ", "pub mod ")) for line in lines)


def cited_by_calls(crate):
    """The files of definitions that the contracts of a crate's public functions cite."""
    text = (CRATES / crate / "src" / "lib.rt").read_text()
    imports = [found for found in re.findall(r"^ghost use Rattle\.(\w+)\.specs\.(\w+)\.\{([^}]*)\}", text, re.M) if found[0] != "std"]
    homes = {name.strip(): f"{home}/specs/{file}" for home, file, names in imports for name in names.split(",")}
    contracts = " ".join(re.findall(r"^pub (?:extern \"C\" )?fn .*?^\{", text, re.M | re.S))
    return {home for name, home in homes.items() if re.search(rf"(?<![\w-]){re.escape(name)}(?![\w-])", contracts)}


class Pages(unittest.TestCase):
    def none(self, found, what="found"):
        """Fails with one line for each thing that was found wrong."""
        if found:
            self.fail(f"{len(found)} {what}:\n" + "\n".join(found))


class Form(Pages):
    def test_width(self):
        lines = ((page.name, number, len(line)) for page in PAGES for number, line in enumerate(page_text(page).split("\n"), 1))
        wide = [f"{page}:{number}: {length} characters" for page, number, length in lines if length > WIDTH]
        self.none(wide, f"lines wider than {WIDTH}")

    def test_backticks(self):
        parts = ((page.name, part.strip()) for page in PAGES for part in re.split(r"\n\s*\n|\n(?=- |\d+\. |\|)", page_text(page)))
        odd = [f"{page}: {part[:60]} …" for page, part in parts if part.count("`") % 2]
        self.none(odd, "parts with an odd number of backticks")

    def test_nothing_twice(self):
        """A name twice in a row is what a renaming leaves behind."""
        twice = [f"{page.name}: `{name}`, `{name}`" for page in PAGES for name in re.findall(r"`([^`]+)`(?:,| and)\s+`\1`", page_text(page))]
        self.none(twice, "names twice in a row")

    def test_links(self):
        lost = []
        for page in PAGES:
            for target, anchor in re.findall(r"\]\(([^)#\s]*)(?:#([^)]*))?\)", page_text(page)):
                path = page.parent / target if target else page
                if not path.exists():
                    lost.append(f"{page.name}: there is no {target}")
                elif anchor and anchor not in anchors(path):
                    lost.append(f"{page.name}: {path.name} has no heading #{anchor}")
        self.none(lost, "names or places that are not there, or not told")


class Names(Pages):
    def test_citations(self):
        lost, count = [], 0
        for page in PAGES:
            for number, *cited in citations(page):
                count += 1
                what = missing(*cited)
                if what:
                    lost.append(f"{page.name}:{number}: {what}")
        self.none(lost, "names or places that are not there, or not told")
        self.assertGreater(count, 400)

    def test_functions(self):
        """crate::function"""
        lost = []
        for page in PAGES:
            for number, line in enumerate(page_text(page).split("\n"), 1):
                for crate, name in re.findall(r"(?<![\w:])(\w+)::(\w+)", line):
                    code = CRATES / crate / "src"
                    if code.is_dir() and not any(name in defined_in(p) for p in code.glob("*.rt")):
                        lost.append(f"{page.name}:{number}: {crate} has no {name}{elsewhere(name)}")
        self.none(lost, "names or places that are not there, or not told")

    def test_words(self):
        """A name between backticks stands somewhere in the code, the definitions, the proofs or the tests."""
        lost = []
        for page in PAGES:
            for number, span in spans(page_text(page)):
                if re.fullmatch(r"[A-Za-z_][\w-]*", span) and len(span) > 1 and span not in known_words():
                    lost.append(f"{page.name}:{number}: `{span}` stands in no source")
        self.none(lost, "names or places that are not there, or not told")

    def test_edits(self):
        """In THEOREMS' list of edits a crate is named, then edits of it."""
        text = page_text(DOCS / "THEOREMS.md")
        part = text[text.index("## Must-fail edits"):]
        lost, crate, count = [], None, 0
        for number, span in spans(part):
            place = f"THEOREMS.md:{text.count(chr(10), 0, text.index(part)) + number}"
            if (CRATES / span).is_dir():
                crate = span
            elif re.fullmatch(r"\w+", span):
                count += 1
                if not (CRATES / str(crate) / "must-fail" / f"{span}.edit").is_file():
                    homes = sorted(p.parent.parent.name for p in CRATES.glob(f"*/must-fail/{span}.edit"))
                    lost.append(f"{place}: {crate} has no edit {span}" + (f" (but {', '.join(homes)})" if homes else ""))
        self.none(lost, "names or places that are not there, or not told")
        self.assertGreater(count, 60)

    def test_every_crate_has_its_edits_told(self):
        """A crate that has edits is named in THEOREMS' list of them."""
        text = page_text(DOCS / "THEOREMS.md")
        told = {span for _, span in spans(text[text.index("## Must-fail edits"):])}
        self.none(sorted({p.parent.parent.name for p in CRATES.glob("*/must-fail/*.edit")} - told), "crates whose edits THEOREMS does not tell")

    def test_tests(self):
        lost = []
        for page in PAGES:
            for file, name in re.findall(r"`tests/(test_\w+\.py)`(?:,?\s+`([\w.]+)`)?", page_text(page)):
                path = ROOT / "tests" / file
                names = set(re.findall(r"\b(?:class|def) (\w+)", path.read_text())) if path.is_file() else set()
                lost += [f"{page.name}: {file} {name}"] if not path.is_file() or not set(name.split(".")) - {""} <= names else []
        told = "\n".join(map(page_text, PAGES))
        lost += [f"no page names {p.name}" for p in sorted((ROOT / "tests").glob("test_*.py")) if f"`tests/{p.name}`" not in told]
        self.none(lost, "names or places that are not there, or not told")

    def test_files_of_a_folder(self):
        """`Files of crate/folder` names files of it; all of them where they are definitions."""
        lost = []
        for page in PAGES:
            for folder, text in re.findall(r"^Files of `(\w+/\w+)`:(.*?)\n\n", page_text(page), re.M | re.S):
                there = {p.stem for p in (CRATES / folder).glob("*.antt")} - {"Lib"}
                told = {span for _, span in spans(text) if re.fullmatch(r"[A-Z]\w*", span)}
                lost += [f"{page.name}: {folder} has no file {name}" for name in sorted(told - there)]
                lost += [f"{page.name}: {folder} has a file {name} that is not told" for name in sorted(there - told) if folder.endswith("/specs")]
        self.none(lost, "files that are not there, or not told")

    def test_decisions(self):
        """Decisions are numbered from 1, and a page that names one names one that is there."""
        numbers = [int(n) for n in re.findall(r"^(\d+)\. \*\*", page_text(DOCS / "DECISIONS.md"), re.M)]
        self.assertEqual(numbers, list(range(1, len(numbers) + 1)))
        groups = ((page.name, group) for page in PAGES for group in re.findall(r"(?:DECISIONS|[Dd]ecision) ((?:\d+(?:, )?)+)", page_text(page)))
        named = [(page, int(n)) for page, group in groups for n in re.findall(r"\d+", group)]
        self.none([f"{page}: decision {n}" for page, n in named if n not in numbers], "decisions that are not there")


class Architecture(Pages):
    def setUp(self):
        self.entries = list(entries(page_text(DOCS / "ARCHITECTURE.md")))

    def test_sections(self):
        told = {title: [crate for crate, _ in own] for title, own in self.entries}
        listed = {s.title: list(s.crates) for s in picture.sections((ROOT / "crates.txt").read_text())}
        self.assertEqual(told, listed, "ARCHITECTURE's sections and crates are those of crates.txt, in their order")
        self.assertEqual(list(told), list(listed))

    def test_public_names_are_told(self):
        lost = []
        for crate, text in (entry for _, own in self.entries for entry in own):
            told = {part for _, span in spans(text) for part in span.split("::")}
            lost += [f"ARCHITECTURE.md, entry of {crate}: lacks `{name}`" for name in public_names(crate) if name not in told]
        self.none(lost, "names or places that are not there, or not told")

    def test_told_names_are_there(self):
        lost = []
        for crate, text in (entry for _, own in self.entries for entry in own):
            for _, span in spans(text):
                names = span.split("::") if re.fullmatch(r"\w+(::\w+)*", span) else []
                names = [n for n in names if n not in own_names(crate) | WORDS and not (CRATES / n).is_dir()]
                lost += [f"ARCHITECTURE.md, entry of {crate}: it has no `{n}`{elsewhere(n)}" for n in names]
        self.none(lost, "names or places that are not there, or not told")


class Counts(Pages):
    def test_lines_to_believe(self):
        """THEOREMS says how many lines of definition each file has, and their sums by column."""
        wrong, rows = [], []
        for line in page_text(DOCS / "THEOREMS.md").split("\n"):
            cells = [cell.strip() for cell in line.split("|")[1:-1]]
            named = re.findall(r"`([^`]+)`", cells[0]) if cells else []
            if named and re.fullmatch(r"\w+/specs/\w+\.antt", named[0]):
                found = definition_lines(*named) if (CRATES / named[0]).is_file() else "no"
                wrong += [f"THEOREMS.md: {named[0]} has {found} lines, not {cells[1]}"] if str(found) != cells[1] else []
                rows.append((int(cells[1]), [True, *map(bool, cells[2:])]))
            elif cells and cells[0] == "together":
                sums = [str(sum(lines for lines, marks in rows if marks[k])) for k in range(len(cells) - 1)]
                wrong += [f"THEOREMS.md: together {' '.join(cells[1:])} should be {' '.join(sums)}"] if cells[1:] != sums else []
            elif not cells:
                rows = []
        self.none(wrong, "wrong counts")

    def test_cited_definitions_are_told(self):
        """What the contract of a public call cites is to be believed: its file has a row, or is named beside the tables."""
        text = page_text(DOCS / "THEOREMS.md")
        part = text[text.index("## What must be believed"):text.index("## Must-fail edits")]
        lost = {f"THEOREMS.md, What must be believed: {file}, for {crate}" for crate in CALLS for file in cited_by_calls(crate) if f"`{file}" not in part}
        self.none(sorted(lost), "files of definitions that are not told")


class Readme(unittest.TestCase):
    def test_third_demand_is_the_headers(self):
        """One wording: README says of erasure what the header says."""
        claim = re.compile(r"once a delete was accepted.*?any other count or price")
        header, said = (claim.search(" ".join(page_text(p).split())) for p in (ROOT / "include" / "guontrem.h", README))
        self.assertTrue(header and said, "the sentence on erasure stands in include/guontrem.h and in README.md")
        self.assertEqual(said[0], header[0])

    def test_worked_hall(self):
        """The lines of the worked hall print what the table says, by document 01's steps."""
        text = page_text(README)
        hall = text[text.index("**A worked hall.**"):]
        store = reference.Store(*map(int, re.search(r"`M ([\d ]+)`", hall)[1].split()))
        put = list(map(int, re.search(r"`P ([\d ]+)`", hall)[1].split()))
        for pallet in range(400):
            call = [1 + pallet // 4, 100 + pallet, pallet, 2 * pallet]
            store.call("P", *(put if put[:2] == call[:2] else call))
        rows = re.findall(r"^\| `(\w) ([\d ]+)` \| `([\d ]+)` \|", hall, re.M)
        for letter, numbers, printed in rows:
            numbers = list(map(int, numbers.split()))
            answer = (0, *store.lookup(*numbers)[:3]) if letter == "G" else store.call(letter, *numbers)
            self.assertEqual(" ".join(map(str, answer)), printed, f"{letter} {numbers}")
        self.assertGreater(len(rows), 5)
        self.assertIn(" ".join(map(str, put[2:])), [printed[4:] for letter, _, printed in rows if letter == "G"], "the price of the line shown")
        told = " ".join(hall.split())
        for level in (0, 1, 2):
            self.assertIn(f"= {store.limit(level):,}", told)
        for level in (1, 2):
            self.assertIn(f"= {store.capacity(level)}", told)


if __name__ == "__main__":
    unittest.main()
