"""Draws times against the slots on logarithmic axes, as SVG: one panel for a call, one for a slot."""
import math
from xml.sax.saxutils import escape

WIDTH, HEIGHT = 980, 440
TOP, BOTTOM, PANEL, LEFT, GAP = 48, 388, 340, 62, 78
LEGEND = LEFT + 2 * PANEL + GAP + 24
COLOURS = {"mixed": "#0072b2", "lookup": "#009e73", "grower's lookup": "#66c2a5", "delete-heavy": "#d55e00", "range-heavy": "#cc79a7", "dated": "#f0e442",
           "owing": "#7570b3", "wake": "#b2df8a", "full table": "#000000", "scan": "#e69f00", "grower's scan": "#a6761d", "check": "#56b4e9"}
LINE = 'fill="none" stroke-width="1.6"'
DASHES = ' stroke-dasharray="5 3"'


# What an axis may begin, end and be marked with: 1, 2 and 5 times each power of ten.
ROUND = [step * 10.0 ** power for power in range(-4, 8) for step in (1, 2, 5)]


class Axis:
    """From the last round number before the numbers to the first after them, laid from one place to another."""

    def __init__(self, numbers, begin, end):
        self.first, self.last = max(n for n in ROUND if n <= min(numbers)), min(n for n in ROUND if n >= max(numbers))
        self.begin, self.end = begin, end

    def at(self, number):
        share = math.log(number / self.first) / math.log(self.last / self.first)
        return round(self.begin + share * (self.end - self.begin), 1)

    def marks(self):
        """Every round number where they are few, else the powers of ten."""
        within = [n for n in ROUND if self.first <= n <= self.last]
        return within if len(within) < 8 else [n for n in within if n in ROUND[::3]]


def text(x, y, words, anchor="middle", size=12):
    return f'<text x="{x}" y="{y}" text-anchor="{anchor}" font-size="{size}">{escape(words)}</text>'


def grid_line(x1, y1, x2, y2):
    return f'<line x1="{x1}" y1="{y1}" x2="{x2}" y2="{y2}" stroke="#d0d0d0" stroke-width="1"/>'


def axes(across, up, title, unit):
    yield text((across.begin + across.end) / 2, TOP - 22, title, size=14)
    yield text((across.begin + across.end) / 2, BOTTOM + 36, "N, slots")
    yield text(across.begin - 6, TOP - 14, unit, "end", 11)
    for number in across.marks():
        yield grid_line(across.at(number), TOP, across.at(number), BOTTOM)
        yield text(across.at(number), BOTTOM + 18, f"{number:,.0f}", size=11)
    for number in up.marks():
        yield grid_line(across.begin, up.at(number), across.end, up.at(number))
        yield text(across.begin - 6, up.at(number) + 4, f"{number:,g}", "end", 11)


def curve(across, up, points, colour, dashed):
    places = [(across.at(x), up.at(y)) for x, y in points]
    path = " ".join(f"{x},{y}" for x, y in places)
    yield f'<polyline points="{path}" stroke="{colour}" {LINE}{DASHES if dashed else ""}/>'
    for x, y in places:
        yield f'<circle cx="{x}" cy="{y}" r="2.6" fill="{"#ffffff" if dashed else colour}" stroke="{colour}"/>'


def panel(results, left, title, unit, value):
    """Times as `value` gives them for a time and the slots."""
    numbers = [value(time, r.slots) for r in results for time in (r.proved, r.native)]
    across, up = Axis([r.slots for r in results], left, left + PANEL), Axis(numbers, BOTTOM, TOP)
    yield from axes(across, up, title, unit)
    for load, colour in COLOURS.items():
        own = [r for r in results if r.load == load]
        yield from curve(across, up, [(r.slots, value(r.native, r.slots)) for r in own], colour, True)
        yield from curve(across, up, [(r.slots, value(r.proved, r.slots)) for r in own], colour, False)


def legend():
    for i, (load, colour) in enumerate(COLOURS.items()):
        yield f'<line x1="{LEGEND}" y1="{TOP + 8 + 22 * i}" x2="{LEGEND + 22}" y2="{TOP + 8 + 22 * i}" stroke="{colour}" stroke-width="3"/>'
        yield text(LEGEND + 30, TOP + 12 + 22 * i, load, "start")
    for i, (name, dashes) in enumerate((("proved", ""), ("C", DASHES))):
        y = TOP + 14 + 22 * (len(COLOURS) + i)
        yield f'<line x1="{LEGEND}" y1="{y}" x2="{LEGEND + 22}" y2="{y}" stroke="#000000" {LINE}{dashes}/>'
        yield text(LEGEND + 30, y + 4, name, "start")


def picture(results):
    parts = [*panel(results, LEFT, "Time per call", "µs", lambda time, slots: time),
             *panel(results, LEFT + PANEL + GAP, "Time per call and slot", "ns", lambda time, slots: 1000 * time / slots), *legend()]
    head = f'<svg xmlns="http://www.w3.org/2000/svg" viewBox="0 0 {WIDTH} {HEIGHT}" width="{WIDTH}" height="{HEIGHT}" font-family="sans-serif">'
    return "\n".join([head, f'<rect width="{WIDTH}" height="{HEIGHT}" fill="#ffffff"/>', *parts, "</svg>"]) + "\n"
