"""Draws docs/architecture.svg: the sections of crates.txt with their crates, and which section uses which."""
import pathlib
from xml.sax.saxutils import escape

ROOT = pathlib.Path(__file__).parent.parent
CRATES, PICTURE = ROOT / "crates.txt", ROOT / "docs" / "architecture.svg"
LEFT, BOX, GAP, LANE, MARGIN = 20, 640, 22, 22, 16
TITLE, LINE, FOOT = 25, 18, 9
LETTERS = 88   # of a line of crates, so that it stays inside its box in any common font
BETWEEN = "\u00a0 \u00b7 \u00a0"


class Section:
    """A comment line of crates.txt, `# Title: what it is`, and the crates below it, each with those that it uses."""

    def __init__(self, comment):
        self.title, _, self.words = comment.partition(": ")
        self.crates = {}

    def lines(self):
        rows = [[]]
        for crate in self.crates:
            if len(BETWEEN.join([*rows[-1], crate])) > LETTERS:
                rows.append([])
            rows[-1].append(crate)
        return [BETWEEN.join(row) for row in rows]

    def height(self):
        return TITLE + LINE * len(self.lines()) + FOOT


def sections(text):
    """The sections in their order; the first comment line is the file's own."""
    found = []
    for line in text.split("\n")[1:]:
        if line.startswith("# "):
            found.append(Section(line[2:]))
        elif line:
            # A kind, as staticlib, stands behind the crate's name.
            crate, _, uses = line.partition(":")
            found[-1].crates[crate.split()[0]] = uses.split()
    return found


def uses(found):
    """For each section the ones it uses, by number, without those that it uses through another."""
    home = {crate: number for number, section in enumerate(found) for crate in section.crates}
    direct = [{home[u] for own in section.crates.values() for u in own if u in home} - {number} for number, section in enumerate(found)]
    through = []
    for own in direct:
        through.append(own.union(*(through[u] for u in own)))
    return [{u for u in own if not any(u in through[other] for other in own)} for own in direct]


def lanes(users):
    """A lane beside the boxes for each section that a section farther down uses; the shortest lie nearest."""
    taken, lane = [], {}
    for used in sorted((u for u in users if users[u]), key=lambda u: (users[u][-1] - u, u)):
        place = next((p for p, spans in enumerate(taken) if all(users[used][-1] <= a or b <= used for a, b in spans)), len(taken))
        if place == len(taken):
            taken.append([])
        taken[place].append((used, users[used][-1]))
        lane[used] = place
    return lane


def text(x, y, words, size=13, more=""):
    return f'<text x="{x}" y="{y}" font-size="{size}"{more}>{escape(words)}</text>'


def path(points, arrow=True):
    head = ' marker-end="url(#arrow)"' if arrow else ""
    return f'<polyline points="{" ".join(f"{x},{y}" for x, y in points)}" fill="none" stroke="#000000" stroke-width="1.2"{head}/>'


def box(section, top):
    yield f'<rect x="{LEFT}" y="{top}" width="{BOX}" height="{section.height()}" rx="3" fill="#ffffff" stroke="#000000" stroke-width="1.2"/>'
    words = f'<tspan font-weight="bold">{escape(section.title)}</tspan>' + escape(f"  {section.words}" if section.words else "")
    yield f'<text x="{LEFT + 12}" y="{top + 19}" font-size="14" xml:space="preserve">{words}</text>'
    for number, line in enumerate(section.lines()):
        yield text(LEFT + 12, top + TITLE + 13 + LINE * number, line)


def bus(found, tops, used, users, lane):
    """One line for all that use a section from farther down: out of each user, up the lane, and into the section."""
    edge, x, into = LEFT + BOX, LEFT + BOX + LANE * (lane + 1), tops[used] + found[used].height() - 8
    # No two lanes meet a box at the same height.
    middle = {u: tops[u] + 8 + 8 * lane for u in users}
    yield path([(edge, middle[users[-1]]), (x, middle[users[-1]]), (x, into), (edge + 1, into)])
    for u in users[:-1]:
        yield path([(edge, middle[u]), (x, middle[u])], arrow=False)
        yield f'<circle cx="{x}" cy="{middle[u]}" r="2.4"/>'


def picture(source):
    found = sections(source)
    used = uses(found)
    tops = [MARGIN]
    for section in found:
        tops.append(tops[-1] + section.height() + GAP)
    users = {u: [n for n, own in enumerate(used) if u in own and n > u + 1] for u in range(len(found))}
    lane = lanes(users)
    width, height = LEFT + BOX + LANE * (len(set(lane.values())) + 1) + MARGIN, tops[-1] - GAP + 36
    parts = [part for section, top in zip(found, tops) for part in box(section, top)]
    parts += [path([(LEFT + BOX / 2, tops[n]), (LEFT + BOX / 2, tops[n] - GAP + 1)]) for n, own in enumerate(used) if n - 1 in own]
    parts += [part for u, place in sorted(lane.items()) for part in bus(found, tops, u, users[u], place)]
    parts.append(text(LEFT, height - 14, "An arrow leads to a section that is used. One that is used through another has no arrow of its own.", 12))
    head = f'<svg xmlns="http://www.w3.org/2000/svg" viewBox="0 0 {width} {height}" width="{width}" height="{height}" font-family="sans-serif">'
    arrow = '<defs><marker id="arrow" markerWidth="9" markerHeight="8" refX="8" refY="4" orient="auto"><path d="M0,0 L9,4 L0,8 z"/></marker></defs>'
    return "\n".join([head, arrow, f'<rect width="{width}" height="{height}" fill="#ffffff"/>', *parts, "</svg>"]) + "\n"


if __name__ == "__main__":
    PICTURE.write_text(picture(CRATES.read_text()))
