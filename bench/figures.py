"""Prints the figures of a folder of bench/run as Markdown: figures.py FOLDER."""

import os
import platform
import subprocess
import sys

import goals
import told
from markdown import head, number, ranged, row
from results import SIDES, Results

# Whose runs are split into their parts.
SPLIT = "abcj"
# How many functions are named of a case.
FUNCTIONS = 6


def machine():
    # x86-64 names its processors, AArch64 gives each a line of features only
    with open("/proc/cpuinfo") as lines:
        names = [line.split(":", 1)[1].strip() for line in lines if line.startswith("model name")]
    names = names or [platform.machine()] * os.cpu_count()
    rustc = subprocess.run(["rustc", "--version"], capture_output=True, text=True, check=True)
    version = " ".join(rustc.stdout.split()[:2])
    print(f"Measured on: {names[0]}, {len(names)} processors; {version}.\n")


def print_times(results):
    head(["nanoseconds", "per", "unit", "plain", "unit / plain"], 2)
    for letter, case in results.cases.items():
        times = results.times[letter]
        row([results.name(letter), case["per"], number(times.unit.middle), number(times.plain.middle), ranged(times.ratio)])
    print()


def print_counts(results):
    head(["instructions", "per", "unit", "plain", "unit / plain"], 2)
    for letter, case in results.cases.items():
        counts = [number(results.each(letter, side)) for side in SIDES]
        row([results.name(letter), case["per"], *counts, f"{results.counted(letter):.2f}"])
    print()


def print_splits(results):
    parts = ["all", "check of the image", "commands, over one row", "the other rows", "each of them, for one command"]
    head(["instructions of a run", "side"] + parts, 2)
    for letter in SPLIT:
        for side in SIDES:
            split = results.split(letter, side)
            cells = [f"{part:,} ({split.share(part):.1f} %)" for part in (split.check, split.commands, split.rows)]
            row([letter, side, f"{split.all:,}", *cells, f"{split.each_row:.1f}"])
    print()


def print_functions(results):
    head(["function of the unit", "own instructions", "share"], 1)
    for letter in "abc":
        counts = results.counts(letter, "unit")
        most = sorted(counts.functions.items(), key=lambda item: -item[1])[:FUNCTIONS]
        for function, own in most:
            row([f"{letter}: `{function}`", f"{own:,}", f"{100 * own / counts.all:.1f} %"])
    print()


def print_growth(results):
    head(["rows", "commands", "unit, ns a command", "plain, ns a command", "unit, ns a run", "plain, ns a run", "unit / plain"], 0)
    for (rows, commands), times in sorted(results.growth().items()):
        each = [times.unit.middle, times.plain.middle]
        cells = [number(time) for time in each] + [number(time * commands) for time in each]
        row([f"{rows:,}", f"{commands:,}", *cells, ranged(times.ratio)])
    print()


def main(folder):
    results = Results(folder)
    machine()
    print("![Ratios of times and of instructions](figures/bench.svg)\n")
    goals.print_asked(results)
    goals.print_goals(results)
    goals.print_without_scope(results)
    print_times(results)
    print_counts(results)
    print_splits(results)
    print_functions(results)
    print("![Growth with rows and with commands](figures/growth.svg)\n")
    print_growth(results)
    told.print_all(results)


if __name__ == "__main__":
    main(*sys.argv[1:])
