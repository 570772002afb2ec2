"""Prints the counts of bench/x86/run as Markdown: table.py FILE."""

import sys

from markdown import head, number, row
from results import table


def main(path):
    head(["instructions of the unit", "per", "x86-64", "AArch64", "x86-64 / AArch64"], 2)
    for line in table(path):
        counts = [int(line[machine]) / int(line["parts"]) for machine in ("x86_64", "aarch64")]
        ratio = f"{counts[0] / counts[1]:.2f}"
        row([f"{line['case']}: {line['what']}", line["per"], *map(number, counts), ratio])


if __name__ == "__main__":
    main(*sys.argv[1:])
