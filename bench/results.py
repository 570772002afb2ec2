"""Reads what bench/run leaves in its folder: the cases, times by setting, and callgrind's counts."""

import csv
import glob
import os
import re
import statistics

SIDES = ("unit", "plain")


def table(path):
    with open(path, newline="") as lines:
        return list(csv.DictReader(lines, delimiter="\t"))


def builds(folder, kind):
    """The lines of each build's file, and which build it is."""
    paths = sorted(glob.glob(os.path.join(folder, f"{kind}-*")))
    return [{**line, "build": path} for path in paths for line in table(path)]


class Figure:
    """A figure by setting, which is a build of the program and a place of the stack."""

    def __init__(self, by_setting):
        by_place = self.medians(by_setting, 1)
        by_build = self.medians(by_setting, 0)
        # Builds differ little but for noise, whose outliers a median drops. Places differ by themselves,
        # in some cases into two heaps of which a median would pick one.
        self.middle = statistics.mean(by_place)
        self.low = min(by_place + by_build)
        self.high = max(by_place + by_build)

    @staticmethod
    def medians(by_setting, part):
        groups = {}
        for setting, figure in by_setting.items():
            groups.setdefault(setting[part], []).append(figure)
        return [statistics.median(group) for group in groups.values()]


class Times:
    """Nanoseconds for a command or call, of lines with one for each setting."""

    def __init__(self, lines):
        self.by_setting = {side: {(line["build"], line["place"]): float(line[side]) for line in lines} for side in SIDES}
        self.unit, self.plain = [Figure(self.by_setting[side]) for side in SIDES]
        self.ratio = self.share_of(self)

    def share_of(self, other):
        """The unit's time as a share of the plain version's, of this case or of another."""
        plain = other.by_setting["plain"]
        return Figure({setting: unit / plain[setting] for setting, unit in self.by_setting["unit"].items()})


class Counts:
    """Callgrind's counts of one program: by function its own instructions."""

    def __init__(self, path):
        self.functions = {}
        with open(path) as lines:
            self.read(lines)
        self.all = sum(self.functions.values())

    def read(self, lines):
        function, of_callee = None, False
        for line in lines:
            if line.startswith("fn="):
                # A number behind the name tells calls within calls apart.
                function = re.sub(r"'\d+$", "", line[3:].strip())
            elif line.startswith("calls="):
                # The next line is what the callee cost, which its own lines say too.
                of_callee = True
            elif line[:1].isdigit():
                if not of_callee:
                    self.functions[function] = self.functions.get(function, 0) + int(line.split()[1])
                of_callee = False


class Split:
    """A run's instructions: the check, the commands over one row, and what the other rows add."""

    def __init__(self, counts, rows, commands):
        self.all = counts["once", rows].all
        self.check = counts["off", rows].all
        self.commands = counts["once", 1].all - counts["off", 1].all
        self.rows = self.all - self.check - self.commands
        self.each_row = self.rows / ((rows - 1) * commands)

    def share(self, part):
        return 100 * part / self.all


class Results:
    def __init__(self, folder):
        self.folder = folder
        self.cases = {line["case"]: self.case(line) for line in table(os.path.join(folder, "cases"))}
        self.times = {}
        for line in builds(folder, "time"):
            self.times.setdefault(line["case"], []).append(line)
        self.times = {letter: Times(lines) for letter, lines in self.times.items()}

    @staticmethod
    def case(line):
        numbers = ("calls", "parts", "rows", "removed")
        return {name: int(text) if name in numbers else text for name, text in line.items()}

    def name(self, letter):
        return f"{letter}: {self.cases[letter]['what']}"

    def counts(self, letter, side, how="once", rows=None):
        rows = rows or self.cases[letter]["rows"]
        return Counts(os.path.join(self.folder, f"count-{how}-{letter}-{side}-{rows}"))

    def each(self, letter, side):
        """Instructions for a command or call."""
        return self.counts(letter, side).all / self.cases[letter]["parts"]

    def counted(self, letter):
        """The ratio of instructions."""
        return self.each(letter, "unit") / self.each(letter, "plain")

    def split(self, letter, side):
        rows, commands = self.cases[letter]["rows"], self.cases[letter]["parts"]
        counts = {(how, some): self.counts(letter, side, how, some) for how in ("once", "off") for some in (1, rows)}
        return Split(counts, rows, commands)

    def growth(self):
        """Times for a command by rows and commands."""
        sizes = {}
        for line in builds(self.folder, "grow"):
            sizes.setdefault((int(line["rows"]), int(line["commands"])), []).append(line)
        return {size: Times(lines) for size, lines in sizes.items()}
