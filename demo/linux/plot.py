"""Draws what demo/linux/run left as SVG, time beside QEMU's own and cuts survived: plot.py FOLDER, which is target/demo/runs."""

import re
import sys
from pathlib import Path
from statistics import median

sys.path.insert(0, str(Path(__file__).resolve().parents[2] / "bench"))
from svg import COLOURS, STRONG, box, line, show, text, title  # noqa: E402

WIDTH, LEFT, RIGHT, TOP, BAR, STEP = 900, 300, 90, 84, 18, 30
BOOTS = {"stock": "QEMU's own", "unit": "the unit", "messages": "the unit, messages offered"}
KINDS = {"fill": "#4477aa", "run": "#cc6633", "answer_lost": "#aaaaaa", "event": "#228833"}
NAMES = {"fill": "in fills", "run": "in runs", "answer_lost": "with the answer lost", "event": "in event writes"}


def processor(folder):
    """The processor's seconds of a boot."""
    times = dict(word.split("=") for word in (folder / "time").read_text().split())
    return float(times["user"]) + float(times["sys"])


def counted(folder):
    pairs = (row.split("=") for row in (folder / "report").read_text().split())
    return {name: int(number) for name, number in pairs}


def bars(top, rows, end):
    """Rows of a name and its (length, colour) pieces, on an axis that ends at `end`."""
    parts, unit = [line(LEFT, top - 6, LEFT, top + STEP * len(rows), STRONG)], (WIDTH - LEFT - RIGHT) / end
    for place, (name, pieces, label) in enumerate(rows):
        x, y = LEFT, top + place * STEP
        for length, colour in pieces:
            parts.append(box(x, y, length * unit, BAR, colour))
            x += length * unit
        parts += [text(LEFT - 10, y + 13, name, 'text-anchor="end"'), text(x + 7, y + 13, label)]
    return parts


def times(folder, top):
    taken = {name: [processor(one) for one in sorted(folder.glob(f"{name}-[0-9]"))] for name in BOOTS}
    rows = []
    for name, found in taken.items():
        colour = COLOURS["first" if name == "stock" else "second"]
        rows.append((BOOTS[name], [(median(found), colour)], f"{median(found):.1f} s ({min(found):.1f} to {max(found):.1f})"))
    head = text(16, top - 20, "The processor's seconds for a boot and its work, the middle of three boots (least to most)")
    return [head, *bars(top, rows, 1.25 * max(median(found) for found in taken.values()))], len(rows)


def cuts(folder, top):
    rows = []
    for one in sorted(folder.glob("cuts-*")):
        found = counted(one)
        pieces = [(found["cuts_" + kind], colour) for kind, colour in KINDS.items()]
        name = re.sub(r"cuts-(?:(\w+)-)?(\d+)", lambda m: f"seed {m[2]}" + (f", {m[1]}" if m[1] else ""), one.name)
        rows.append((name, pieces, f"{sum(length for length, _ in pieces):,}"))
    head = [text(16, top - 40, "Power cuts survived in one boot")]
    x = LEFT
    for kind, colour in KINDS.items():
        head += [box(x, top - 32, 12, 12, colour), text(x + 17, top - 21, NAMES[kind])]
        x += 32 + 7 * len(NAMES[kind])
    return [*head, *bars(top, rows, max(sum(length for length, _ in row[1]) for row in rows))], len(rows)


def main():
    folder = Path(sys.argv[1])
    first, many = times(folder, TOP)
    second_top = TOP + many * STEP + 80
    second, more = cuts(folder, second_top)
    show(WIDTH, second_top + more * STEP + 20, [title("A Debian guest on the unit"), *first, *second])


main()
