"""Cells and tables of Markdown."""


def row(cells):
    print("| " + " | ".join(cells) + " |")


def head(cells, left):
    """A table's head, whose first cells stand left and the others right."""
    row(cells)
    row(["---"] * left + ["---:"] * (len(cells) - left))


def number(value):
    return f"{value:,.0f}" if value >= 100 else f"{value:.1f}"


def ranged(figure, digits=2):
    return f"{figure.middle:.{digits}f} ({figure.low:.{digits}f} to {figure.high:.{digits}f})"
