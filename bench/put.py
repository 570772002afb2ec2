"""Puts the lines of a file between a command's marks in another: put.py DOCUMENT COMMAND LINES."""

import sys


def main(document, command, lines):
    begin, end = [f"<!-- {command}: {mark} -->\n" for mark in ("begin", "end")]
    with open(document) as file:
        text = file.read()
    if text.count(begin) != 1 or text.count(end) != 1 or text.index(end) < text.index(begin):
        sys.exit(f"put.py: {document} has not one pair of marks of {command}")
    with open(lines) as file:
        figures = file.read()
    before, after = text.split(begin)[0], text.split(end)[1]
    with open(document, "w") as file:
        file.write(before + begin + figures + end + after)


if __name__ == "__main__":
    main(*sys.argv[1:])
