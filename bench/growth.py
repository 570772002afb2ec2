"""Draws the growth with rows and with commands of a folder of bench/run as SVG: growth.py FOLDER."""

import math
import sys

from results import SIDES, Results
from svg import COLOURS, FAINT, STRONG, legend, line, show, text, title

WIDTH, HEIGHT, TOP, BOTTOM = 900, 460, 104, 400
PANEL, LEFT = 370, (70, 515)


class Axis:
    """A logarithmic axis from one place to another, over the values and a share beyond them."""

    def __init__(self, values, start, end, beyond=1):
        self.low, self.high = [math.log10(value) for value in (min(values) / beyond, max(values) * beyond)]
        self.start, self.end = start, end

    def at(self, value):
        share = (math.log10(value) - self.low) / (self.high - self.low)
        return self.start + share * (self.end - self.start)

    def tens(self):
        return [10.0**power for power in range(math.ceil(self.low), math.floor(self.high) + 1)]


def frame(left, across, up, ticks, names):
    """Lines and numbers of both axes, and what stands along them."""
    parts = []
    for tick in up.tens():
        parts.append(line(left, up.at(tick), left + PANEL, up.at(tick), FAINT))
        parts.append(text(left - 8, up.at(tick) + 4.5, f"{tick:,g}", 'text-anchor="end"'))
    for tick in ticks:
        parts.append(line(across.at(tick), BOTTOM, across.at(tick), BOTTOM + 4, STRONG))
        parts.append(text(across.at(tick), BOTTOM + 20, f"{tick:,}", 'text-anchor="middle" font-size="11"'))
    parts.append(line(left, BOTTOM, left + PANEL, BOTTOM, STRONG))
    parts.append(text(left + PANEL / 2, BOTTOM + 42, names[0], 'text-anchor="middle"'))
    parts.append(text(left - 40, TOP - 16, names[1], 'font-weight="bold"'))
    return parts


def curve(points, across, up, colour):
    places = [(across.at(x), up.at(y)) for x, y in points]
    joined = " ".join(f"{x:.1f},{y:.1f}" for x, y in places)
    dots = [f'<circle cx="{x:.1f}" cy="{y:.1f}" r="3.5" fill="{colour}"/>' for x, y in places]
    return [f'<polyline points="{joined}" fill="none" stroke="{colour}" stroke-width="2"/>', *dots]


def numbers(points, others, across, up, colour):
    """Each point's number: above the higher curve and left of its rise, below the lower."""
    parts = []
    for (x, y), (_, other) in zip(points, others):
        words = f"{y:,.0f}" if y >= 10 else f"{y:.1f}"
        right, down = (-9, -9) if y >= other else (0, 18)
        parts.append(text(across.at(x) + right, up.at(y) + down, words, f'text-anchor="middle" font-size="11" fill="{colour}"'))
    return parts


def panel(left, curves, names):
    values = [y for points in curves.values() for _, y in points]
    ticks = [x for x, _ in curves["unit"]]
    across, up = Axis(ticks, left + 16, left + PANEL - 16), Axis(values, BOTTOM, TOP, 2)
    parts = frame(left, across, up, ticks, names)
    unit, plain = [curves[side] for side in SIDES]
    for points, others, colour in zip((unit, plain), (plain, unit), COLOURS.values()):
        parts += curve(points, across, up, colour) + numbers(points, others, across, up, colour)
    return parts


def main(folder):
    growth = sorted(Results(folder).growth().items())
    most = max(commands for (_, commands), _ in growth)
    by_rows = {side: [(rows, getattr(times, side).middle) for (rows, commands), times in growth if commands == most] for side in SIDES}
    by_commands = {
        side: [(commands, getattr(times, side).middle * commands / 1000) for (rows, commands), times in growth if rows == 128]
        for side in SIDES
    }
    parts = [
        title("Growth: commands by address that hit no row"),
        *legend(LEFT[0], 58, ["unit", "plain version"]),
        *panel(LEFT[0], by_rows, (f"rows, at {most:,} commands", "nanoseconds a command")),
        *panel(LEFT[1], by_commands, ("commands, at 128 rows", "microseconds a run")),
    ]
    show(WIDTH, HEIGHT, parts)


if __name__ == "__main__":
    main(*sys.argv[1:])
