"""Says in words what the figures show; every number and name in it is read from them."""

from markdown import number
from results import SIDES

PARTS = {"rows": "the scan of the rows behind the first", "check": "the check of the image", "commands": "the commands over one row"}
DECODING = "commands::decoding::decode"


def listed(words):
    return words[0] if len(words) == 1 else ", ".join(words[:-1]) + " and " + words[-1]


def print_parts(results):
    """Which part of a run is largest, by case."""
    splits = {letter: results.split(letter, "unit") for letter in "abcj"}
    largest, shares = {}, []
    for letter, split in splits.items():
        part = max(PARTS, key=lambda part: getattr(split, part))
        largest.setdefault(part, []).append(letter)
        told = [f"{split.share(getattr(split, part)):.0f}" for part in PARTS]
        shares.append(f"{letter}: {listed(told)} %")
    parts = [f"{PARTS[part]} in {listed(letters)}" for part, letters in largest.items()]
    print(
        f"**Where a run's instructions go**: the largest part of the unit's is {' and '.join(parts)}. Of all of them "
        f"{listed(list(PARTS.values()))} take in {'; in '.join(shares)}.\n"
    )


def print_costs(results):
    """What a further row and a command cost, and what of it is decoding."""
    each = [f"{results.split(letter, side).each_row:.1f}" for letter in "bj" for side in SIDES]
    commands = [f"{results.split(letter, side).commands / results.cases[letter]['parts']:.0f}" for letter in "bc" for side in SIDES]
    counts = {letter: results.counts(letter, "unit") for letter in "abc"}
    # Missing where the compiler has put it into another.
    own = {letter: count.functions.get(DECODING) for letter, count in counts.items()}
    decoding = [f"{100 * own[letter] / count.all:.0f} % of {letter}" for letter, count in counts.items() if own[letter]]
    decodes = f" The unit's `{DECODING}` itself is {listed(decoding)}." if decoding else ""
    print(
        f"**What a row and a command cost**: a further row costs a command {each[0]} instructions in b (plain: {each[1]}) and "
        f"{each[2]} in j (plain: {each[3]}). A command over one row takes {commands[0]} in b (plain: {commands[1]}) and "
        f"{commands[2]} in c (plain: {commands[3]}).{decodes}\n"
    )


def print_check(results):
    unit, plain = [results.counts("e", side).all for side in SIDES]
    shares = [f"{100 * results.counts('e', side).all / results.counts('f', side).all:.0f}" for side in SIDES]
    rows = results.cases["e"]["rows"]
    print(
        f"**The check of the image**: every call starts with it, and e is nothing else. A row costs it {unit / rows:.0f} "
        f"instructions in the unit and {plain / rows:.0f} in the plain version. Over the same table it is {shares[0]} % of the "
        f"unit's instructions of f, {shares[1]} % of the plain version's.\n"
    )


def print_growth(results):
    growth = results.growth()
    few, usual, many = [growth[rows, 4096] for rows in (1, 128, 1000)]
    slope = {side: (getattr(many, side).middle - getattr(few, side).middle) / 999 for side in SIDES}
    first = growth[128, 1]
    print(
        f"**Growth**: over one row a command takes the unit {number(few.unit.middle)} ns and the plain version "
        f"{number(few.plain.middle)}, over 128 rows {number(usual.unit.middle)} and {number(usual.plain.middle)}, over 1,000 "
        f"{number(many.unit.middle)} and {number(many.plain.middle)}: {slope['unit']:.2f} and {slope['plain']:.2f} ns a row. The "
        f"ratio is {few.ratio.middle:.2f}, {usual.ratio.middle:.2f} and {many.ratio.middle:.2f}. A run of one command over 128 "
        f"rows takes {number(first.unit.middle)} and {number(first.plain.middle)} ns, that of 4,096 commands over 1,000 rows "
        f"{many.unit.middle * 4096 / 1e6:.1f} and {many.plain.middle * 4096 / 1e6:.1f} ms.\n"
    )


def print_ranges(results):
    """What a range costs beside the single address."""
    b, j = [results.times[letter] for letter in "bj"]
    unit, plain = [results.each("j", side) / results.each("b", side) for side in SIDES]
    print(
        f"**A range beside the single address**: over the same rows a command takes the unit {number(j.unit.middle)} ns in j and "
        f"{number(b.unit.middle)} in b, {j.unit.middle / b.unit.middle:.2f} times as long, by {unit:.2f} times the instructions; "
        f"the plain version takes {j.plain.middle / b.plain.middle:.2f} times as long, by {plain:.2f} times the instructions.\n"
    )


def print_regions(results):
    """What the second table costs a run that has no command for it."""
    added = [results.counts(full, side).all - results.counts(empty, side).all for full, empty in ("le", "mb") for side in SIDES]
    l, e = [results.times[letter] for letter in "le"]
    print(
        f"**The second table costs a run its check, once**: a full one instead of an empty row adds {added[0]:,} instructions to e "
        f"(plain: {added[1]:,}) and {added[2]:,} to b (plain: {added[3]:,}), none of whose commands is about it. The call takes "
        f"{number(l.unit.middle)} ns in l, beside {number(e.unit.middle)} in e (plain: {number(l.plain.middle)}, beside "
        f"{number(e.plain.middle)}).\n"
    )


def print_batches(results):
    """What a check of two batches costs beside two runs, one of each."""
    h, n, g, o = [results.times[letter].unit.middle for letter in "hngo"]
    by = [results.each(check, "unit") / results.each(run, "unit") for check, run in ("nh", "og")]
    print(
        f"**A check of a batch beside two runs**: for a command of either batch the unit's check takes {number(n)} ns in n, where no "
        f"row goes, and {number(o)} in o, where every row goes; a run of the same commands takes {number(h)} and {number(g)}. So it "
        f"takes {n / h:.2f} and {o / g:.2f} times as long as the runs of both batches, by {by[0]:.2f} and {by[1]:.2f} times the "
        f"instructions, and {n * results.cases['n']['parts'] / 1e6:.1f} ms in all in n."
    )


def print_all(results):
    print_parts(results)
    print_costs(results)
    print_check(results)
    print_growth(results)
    print_ranges(results)
    print_regions(results)
    print_batches(results)
