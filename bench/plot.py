"""Draws the ratios of a folder of bench/run as SVG: plot.py FOLDER."""

import math
import sys

from results import Results
from svg import COLOURS, FAINT, HALO, STRONG, box, legend, line, show, text, title

WIDTH, LEFT, RIGHT, TOP = 900, 350, 60, 84
BAR, GROUP = 15, 46
# The lines that goals stand at.
MARKED = (0.5, 1.0)


class Scale:
    """From ratios to places on a linear axis that starts at 0."""

    def __init__(self, highest):
        self.end = math.ceil(4 * max(highest, 1)) / 4
        self.unit = (WIDTH - LEFT - RIGHT) / self.end

    def x(self, ratio):
        return LEFT + ratio * self.unit

    def ticks(self):
        return [step / 4 for step in range(int(4 * self.end) + 1)]


def axis(scale, bottom):
    parts = []
    for tick in scale.ticks():
        parts.append(line(scale.x(tick), TOP, scale.x(tick), bottom, STRONG if tick in MARKED else FAINT))
        parts.append(text(scale.x(tick), bottom + 18, f"{tick:g}", 'text-anchor="middle"'))
    words = "unit / plain version (below 1: the unit takes less)"
    parts.append(text((scale.x(0) + scale.x(scale.end)) / 2, bottom + 40, words, 'text-anchor="middle"'))
    return parts


def bar(scale, y, ratio, end, colour):
    """A bar, and its number behind what else stands there."""
    return [
        box(scale.x(0), y, ratio * scale.unit, BAR, colour),
        text(scale.x(end) + 7, y + BAR / 2 + 4.5, f"{ratio:.2f}", HALO),
    ]


def whisker(scale, middle, low, high):
    ends = [line(scale.x(end), middle - 4, scale.x(end), middle + 4, STRONG) for end in (low, high)]
    return [line(scale.x(low), middle, scale.x(high), middle, STRONG), *ends]


def group(results, scale, place, letter):
    y = TOP + place * GROUP + 7
    times, per = results.times[letter], results.cases[letter]["per"]
    what = results.name(letter).split(" (")[0]
    ratio, counted = times.ratio, results.counted(letter)
    return [
        text(LEFT - 10, y + 12, what, 'text-anchor="end"'),
        text(LEFT - 10, y + 28, f"unit: {times.unit.middle:,.0f} ns a {per}", 'text-anchor="end" fill="#666"'),
        *bar(scale, y, ratio.middle, ratio.high, COLOURS["first"]),
        *whisker(scale, y + BAR / 2, ratio.low, ratio.high),
        *bar(scale, y + BAR + 2, counted, counted, COLOURS["second"]),
    ]


def main(folder):
    results = Results(folder)
    highest = max(max(results.times[letter].ratio.high, results.counted(letter)) for letter in results.cases)
    scale = Scale(highest)
    bottom = TOP + GROUP * len(results.cases)
    parts = [
        title("The proved unit beside the plain version"),
        text(WIDTH - 16, 26, "whiskers: lowest and highest median of a place or build", 'text-anchor="end" fill="#666"'),
        *legend(LEFT, 62, ["ratio of times", "ratio of instructions"]),
        *axis(scale, bottom),
    ]
    for place, letter in enumerate(results.cases):
        parts += group(results, scale, place, letter)
    show(WIDTH, bottom + 56, parts)


if __name__ == "__main__":
    main(*sys.argv[1:])
