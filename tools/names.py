#!/usr/bin/env python3
"""Brings the repository's own names to today's spelling: `names.py [--check]`, once, right after port.py.

Definitions, records' fields and local names are in snake case, types in camel case. In a lemma's name a dash stays between two parts that are
each a name in the lemma's statement, as in length-select; every other dash becomes an underscore. Names of the kit's libraries, of Rust items, and those
that the checker makes of the code (behind `tie.`, or answers to them) stay. Prints each name that changes and each that would meet another.
"""
import collections
import pathlib
import re
import sys

ROOT = pathlib.Path(__file__).resolve().parent.parent
CRATES = ROOT / "crates"
COMMENT = re.compile(r"--[^\n]*")
WORD = re.compile(r'[^\s(){}.;,@"«»]+')
DECLARED = re.compile(r'(?m)^ *((?:(?:abbrev|unfoldable|pub|record|data|open) )*)([^\s(){}.;,@"«»]+)((?: \{[^{}\n]*\})*(?: \([^()\n]*\))*) :\s*(\S+)')
BOUND = re.compile(r'\blet ([^\s(){}.;,@"«»]+)|λ ([^.]*)\.|[({]([^\s(){}.;,@"«»]+(?: [^\s(){}.;,@"«»]+)*) :|\| ([^↦\n]*) ↦')
USE = re.compile(r"\buse ([^\s;{]+)\.\{([^}]*)\}")
CLAUSE = re.compile(r"(?:requires|ensures)\s*\*?\s*(?:\w+\s*)?\{|ghost use\b|ghost\s*(?:\w+\s*:\s*)?\{")


def files():
    for path in sorted(CRATES.rglob("*.antt")):
        if "out" not in path.relative_to(CRATES).parts:
            yield path


def dashed(name):
    return bool(re.match(r"[^\W\d_].*-[\w]", name)) or bool(re.search(r"[a-z][A-Z]", name)) and name[0].islower()


def camel_to_snake(name):
    return re.sub(r"(?<=[a-z0-9])[A-Z]", lambda m: "_" + m[0].lower(), name)


def snake(name):
    return camel_to_snake(name).replace("-", "_")


def pieces(name):
    return [p for p in camel_to_snake(name).split("-") if p]


def segments(parts, known):
    """The fewest segments, known ones first; each is a run of parts."""
    n, best = len(parts), {}
    best[n] = (0, [])
    for i in range(n - 1, -1, -1):
        choices = []
        for j in range(i + 1, n + 1):
            word = "_".join(parts[i:j])
            cost, rest = best[j]
            is_known = word in known
            if is_known or j == i + 1:
                choices.append((cost + (1 if is_known else 3), [(word, is_known)] + rest))
        best[i] = min(choices, key=lambda c: c[0])
    return best[0][1]


def lemma(name, known):
    out, before = "", None
    for word, is_known in segments(pieces(name), known):
        if before is not None:
            out += "-" if before and is_known else "_"
        out, before = out + word, is_known
    return out


def camel(name):
    return "".join(p[:1].upper() + p[1:] for p in name.split("-"))


def is_field(text, at):
    """Whether the line at `at` is in a record: the nearest line above it that is not indented begins one."""
    for line in reversed(text[:at].split("\n")):
        if line and not line[0].isspace():
            return bool(re.match(r"(pub |abbrev )*record ", line))
    return False


def statement(text, declared):
    """The names in a lemma's statement: what stands from its colon to the first line that defines it, or to the next blank line."""
    rest = text[declared.end(3):]
    end = re.search(r"(?m)^ *" + re.escape(declared[2]) + r"(?=[ =]|$)|^\s*$", rest)
    return {snake(w) for w in WORD.findall(rest[: end.start()] if end else rest) if re.match(r"[^\W\d_]", w)}


class Names:
    def __init__(self):
        self.specs, self.types, self.lemmas, self.fields, self.local, self.imported, self.plain = set(), set(), {}, set(), set(), set(), set()
        for path in files():
            text = COMMENT.sub("", path.read_text())
            in_specs = "specs" in path.relative_to(CRATES).parts
            for where, names in USE.findall(text):
                if not re.match(r"Rattle\.(?!std\b|core\b|std_)", where):
                    self.imported |= {n.split(" as ")[0].strip() for n in names.split(",")}
            for m in DECLARED.finditer(text):
                words, name, _, kind = m.groups()
                if kind.startswith("tie."):
                    continue
                self.plain.add(name)
                if m[0].startswith("  pub ") and is_field(text, m.start()):
                    self.fields.add(name)
                elif "record" in words or "data" in words or name[0].isupper() and not in_specs and "abbrev" in words:
                    self.types.add(name)
                elif in_specs:
                    (self.types if name[0].isupper() else self.specs).add(name)
                else:
                    self.lemmas.setdefault(name, set()).update(statement(text, m))
            for m in BOUND.finditer(text):
                for words in m.groups():
                    if words:
                        self.local |= {w for w in WORD.findall(words) if dashed(w)}

    def table(self):
        table = {}
        for name in sorted(self.specs | self.types | set(self.lemmas) | self.fields | self.local):
            if not dashed(name) or name in self.imported:
                continue
            if name in self.specs or name in self.fields:
                new = snake(name)
            elif name in self.types and name[0].isupper() and "-" in name:
                new = camel(name)
            elif name in self.lemmas:
                new = lemma(name, self.lemmas[name])
            else:
                new = snake(name)
            if new != name:
                table[name] = new
        return table


def clauses(text):
    """The spans of a .rt file that are antt: clauses, ghost items and `ghost use` lines."""
    at = 0
    for m in CLAUSE.finditer(text):
        if m.start() < at:
            continue
        if m[0].startswith("ghost use"):
            end = text.find(";", m.end())
        else:
            depth, end = 1, m.end()
            while depth and end < len(text):
                depth += {"{": 1, "}": -1}.get(text[end], 0)
                end += 1
        at = end
        yield m.end(), end


def turn(text, table):
    return WORD.sub(lambda m: table.get(m[0], m[0]), text)


def turn_code(text, table):
    out, at = "", 0
    for begin, end in clauses(text):
        out += text[at:begin] + turn(text[begin:end], table)
        at = end
    return out + text[at:]


def main():
    names = Names()
    table = names.table()
    meet = collections.defaultdict(set)
    for name in names.plain | names.imported | names.local:
        meet[table.get(name, name)].add(name)
    for new, olds in sorted(meet.items()):
        if len(olds) > 1:
            print("meet:", new, "from", " ".join(sorted(olds)))
    for old, new in sorted(table.items()):
        print("name:", old, new)
    if "--check" in sys.argv:
        return
    for path in files():
        text = path.read_text()
        new = turn(text, table)
        if new != text:
            path.write_text(new)
    for path in sorted(CRATES.rglob("*.rt")):
        text = path.read_text()
        new = turn_code(text, table)
        if new != text:
            path.write_text(new)


if __name__ == "__main__":
    main()
