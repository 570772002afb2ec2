"""The goals set for T-13 beside what was reached."""

from markdown import head, number, ranged, row

# What, its cases, and the most that the unit's time may be of the plain version's.
GOALS = [
    ("commands that hit rows", "ag", 0.5),
    ("by address, none hit", "bh", 0.5),
    ("ranges", "jq", 0.5),
    ("Linux streams", "drks", 0.5),
    ("image check", "et", 1.0),
    ("a transaction of both stages", "fu", 1.0),
    ("a fill", "vi", 1.0),
    ("check of a batch", "wnxo", 1.0),
]
# What document 02 asks for, of a full queue over a full table.
ASKED, FULL = 1.5, "agbhjqdrkscpmy"
# Commands with no scope: the case, the one by address over the same rows, and the most.
WITHOUT_SCOPE = [("c", "b", 0.07), ("p", "h", 0.03)]


def reached(figure, goal):
    return "yes" if figure.middle <= goal else "no"


def beside(figure, goal):
    """With a digit more where two would not tell it from the goal."""
    return ranged(figure, 3 if f"{figure.middle:.2f}" == f"{goal:.2f}" else 2)


def print_asked(results):
    worst = max(FULL, key=lambda letter: results.times[letter].ratio.middle)
    ratio = results.times[worst].ratio
    over = "no more" if ratio.middle <= ASKED else "more"
    print(
        f"Document 02, T-13, asks for at most {ASKED} times the plain version's time for a full queue over a full table. The highest "
        f"of the cases that are one is {worst}, {ranged(ratio)}: {over}. The goals in the table are tighter ones that were set here.\n"
    )


def print_goals(results):
    head(["goal", "case", "rows", "time, at most", "time: unit / plain", "reached", "instructions: unit / plain"], 2)
    for what, letters, goal in GOALS:
        for letter in letters:
            ratio = results.times[letter].ratio
            rows = number(results.cases[letter]["rows"])
            row([what, letter, rows, f"{goal:.2f}", beside(ratio, goal), reached(ratio, goal), f"{results.counted(letter):.2f}"])
    print()


def print_without_scope(results):
    print(
        "For commands with no scope the goal is a share of the time of a version that asks every row about every command. "
        "The plain version tells such a command before it looks at rows, so its own time for them is no measure of that; "
        "in its place stands its time for a command by address over as many rows, of each of which it asks.\n"
    )
    head(["goal", "case", "rows", "at most", "of plain's time by address", "by that measure", "of plain's own time"], 2)
    for letter, other, goal in WITHOUT_SCOPE:
        times = results.times[letter]
        share = times.share_of(results.times[other])
        told = f"{share.middle:.3f} ({share.low:.3f} to {share.high:.3f}), case {other}"
        rows = number(results.cases[letter]["rows"])
        row(["commands with no scope", letter, rows, f"{goal:.2f}", told, reached(share, goal), ranged(times.ratio)])
    print()
