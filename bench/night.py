"""Draws what the program night finds at each power cut as SVG, from what it prints: ./run | night.py."""

import re
import sys

from svg import COLOURS, box, line, show, text, title

WIDTH, LEFT, TOP, LANE = 900, 16, 140, 240
# The cuts: the middle of each, and the size of the card below it.
MIDDLES, CARD, HEIGHT = (141, 450, 759), 250, 100
DARK, FIRE, PALE = "#222", "#9c3210", "#e4eef8"
INK, GREY, MIDDLE = f'stroke="{DARK}" stroke-width="1.5"', 'fill="#555"', 'text-anchor="middle"'
INTRODUCTION = [
    "A guest takes a page back from its network card. The unit that translates for the card makes two stores for that: one removes",
    "the row by which the card reaches the page; one moves RD, the read index of the guest's command queue, by which the guest",
    "sees that it is done. Power may go after any store. This is what is found then, and what comes of it when power is back.",
]
# Each order: its name, and the head under which night tells of a cut after so many stores.
ORDERS = [
    ("The proved order", "Allowance {}"),
    ("The order of the fire night", "The fire night's order, RD first: power for {} of the two stores"),
]


def told(lines, pattern):
    """What the one place that fits says."""
    found = re.findall(pattern, lines, re.M)
    if len(found) != 1:
        sys.exit(f"night.py: {len(found)} places for {pattern}")
    return found[0]


class Found:
    """What a cut left, and what came of calling the unit then."""

    def __init__(self, lines):
        self.row = told(lines, "the mapping is (gone|still valid)$") == "still valid"
        self.moved = told(lines, r"RD \d+: RD has (not passed|passed) the command$") == "passed"
        self.fire = told(lines, "RD has passed the command and the mapping is still valid: (no|yes)$") == "yes"
        self.more = int(told(lines, r"called (?:again|then): ended Empty: .*stores (\d+),"))
        self.same = told(lines, "the same memory as with no cut: (no|yes)$") == "yes"

    def verdict(self):
        if self.fire:
            return "THE FIRE"
        return "safe: done" if self.moved else "safe: the guest still waits"

    def back(self):
        stores = f"{self.more or 'no'} store{'s' * (self.more > 1)}"
        return f"power is back: {stores}, {'all is done' if self.same else 'the row stays'}"


def store(before, after):
    """Which store lies between two cuts, by what it changed."""
    names = {(1, 0): "the row is removed", (0, 1): "RD moves on"}
    changed = (before.row - after.row, after.moved - before.moved)
    if changed not in names:
        sys.exit("night.py: no single store lies between two cuts")
    return names[changed]


def shape(points, extra):
    return f'<polygon points="{" ".join(f"{x:.1f},{y:.1f}" for x, y in points)}" {extra}/>'


def row_mark(x, y, there):
    """A filled box, or the dashed outline of one."""
    how = f'fill="{COLOURS["first"]}"' if there else 'fill="#fff" stroke-dasharray="3 2"'
    return [f'<rect x="{x}" y="{y - 12}" width="20" height="14" {how} {INK}/>']


def rd_mark(x, y, moved):
    """A flag, up and filled or down and empty."""
    top = y - 14 if moved else y - 5
    flag = [(x + 4, top), (x + 20, top + 4.5), (x + 4, top + 9)]
    return [line(x + 4, y - 15, x + 4, y + 5, INK), shape(flag, f'fill="{COLOURS["second"] if moved else "#fff"}" {INK}')]


def verdict_mark(x, y, fire):
    """A triangle with its exclamation mark, or a tick in a circle."""
    if fire:
        sign = text(x, y + 6, "!", f'{MIDDLE} font-weight="bold" fill="{FIRE}"')
        return [shape([(x, y - 10), (x + 11, y + 9), (x - 11, y + 9)], 'fill="#fff"'), sign]
    tick = f'<polyline points="{x - 5},{y} {x - 1},{y + 4} {x + 5},{y - 5}" fill="none" {INK}/>'
    return [f'<circle cx="{x}" cy="{y}" r="9" fill="#fff" {INK}/>', tick]


def band(x, y, width, fire, words):
    """A verdict: dark with white words where it is the fire, else pale."""
    how = f'fill="{"#fff" if fire else DARK}" font-weight="bold"'
    return [box(x, y, width, 32, FIRE if fire else PALE), *verdict_mark(x + 22, y + 16, fire), text(x + 42, y + 21, words, how)]


def card(middle, y, found):
    x = middle - CARD / 2
    colour, width = (FIRE, 4) if found.fire else (COLOURS["first"], 1.5)
    return [
        box(x, y, CARD, HEIGHT, "#fff"),
        *row_mark(x + 12, y + 25, found.row),
        text(x + 42, y + 25, "the row is still there" if found.row else "the row is gone"),
        *rd_mark(x + 12, y + 52, found.moved),
        text(x + 42, y + 52, "RD has moved on" if found.moved else "RD has not moved"),
        *band(x, y + HEIGHT - 32, CARD, found.fire, found.verdict()),
        f'<rect x="{x}" y="{y}" width="{CARD}" height="{HEIGHT}" fill="none" stroke="{colour}" stroke-width="{width}"/>',
        text(middle, y + HEIGHT + 19, found.back(), f"{MIDDLE} {GREY}"),
    ]


def cut(middle, y, stores, found):
    """A bolt on the time line, and the card of what is found."""
    bolt = [(2, -11), (-7, 2), (-1, 2), (-3, 11), (7, -3), (1, -3)]
    words = ["power goes before both", "power goes between the two", "power goes after both"][stores]
    return [
        text(middle, y - 22, words, MIDDLE),
        line(middle, y, middle, y + 26, f'{INK} stroke-dasharray="3 3"'),
        f'<circle cx="{middle}" cy="{y}" r="14" fill="#fff" {INK}/>',
        shape([(middle + right, y + down) for right, down in bolt], f'fill="{DARK}"'),
        *card(middle, y + 26, found),
    ]


def lane(y, name, founds):
    """One order: its stores along a line of time, and its cuts."""
    stores = [store(before, after) for before, after in zip(founds, founds[1:])]
    along, end = y + 54, WIDTH - LEFT - 10
    parts = [
        text(LEFT, y, f"{name}: {stores[0]}, then {stores[1]}", 'font-size="15" font-weight="bold"'),
        line(LEFT, along, end, along, INK),
        shape([(end, along - 5), (end + 10, along), (end, along + 5)], f'fill="{DARK}"'),
        text(end + 8, along - 9, "time", f'text-anchor="end" {GREY}'),
    ]
    for place, words in enumerate(stores):
        middle = (MIDDLES[place] + MIDDLES[place + 1]) / 2
        parts += [box(middle - 80, along - 13, 160, 26, DARK), text(middle, along + 5, words, f'{MIDDLE} fill="#fff"')]
    for place, found in enumerate(founds):
        parts += cut(MIDDLES[place], along, place, found)
    return parts


def legend(y):
    marks = [
        (row_mark, True, "the row is there: the card reaches the page"),
        (row_mark, False, "the row is gone: the card does not reach it"),
        (rd_mark, True, "RD has moved on: the guest uses the page again"),
        (rd_mark, False, "RD has not moved: the guest still waits"),
    ]
    parts = [line(LEFT, y - 30, WIDTH - LEFT, y - 30, 'stroke="#bbb"')]
    for place, (mark, state, words) in enumerate(marks):
        x, down = LEFT + 444 * (place // 2), y + 26 * (place % 2)
        parts += [*mark(x, down, state), text(x + 30, down, words)]
    safe = band(LEFT, y + 44, 424, False, "safe: card and guest never both use the page")
    return [*parts, *safe, *band(LEFT + 444, y + 44, 424, True, "the fire: card and guest both use the page")]


def main():
    sections = dict(part.split("\n", 1) for part in sys.stdin.read().split("\n\n"))
    cuts = range(len(MIDDLES))
    parts = [title("Two stores, and power may go between them")]
    parts += [text(LEFT, 54 + 20 * place, words) for place, words in enumerate(INTRODUCTION)]
    for place, (name, head) in enumerate(ORDERS):
        parts += lane(TOP + place * LANE, name, [Found(sections[head.format(stores)]) for stores in cuts])
    bottom = TOP + LANE * len(ORDERS) + 12
    show(WIDTH, bottom + 92, [*parts, *legend(bottom)])


if __name__ == "__main__":
    main()
