"""Parts of an SVG."""

from html import escape

COLOURS = {"first": "#4477aa", "second": "#cc6633"}
STRONG = 'stroke="#222" stroke-width="1.5"'
FAINT = 'stroke="#ddd"'
# Keeps a label readable across a line.
HALO = 'stroke="#fff" stroke-width="5" paint-order="stroke"'


def text(x, y, words, extra=""):
    return f'<text x="{x:.1f}" y="{y:.1f}" {extra}>{escape(words)}</text>'


def line(x1, y1, x2, y2, extra):
    return f'<line x1="{x1:.1f}" y1="{y1:.1f}" x2="{x2:.1f}" y2="{y2:.1f}" {extra}/>'


def box(x, y, width, height, colour):
    return f'<rect x="{x:.1f}" y="{y:.1f}" width="{width:.1f}" height="{height:.1f}" fill="{colour}"/>'


def title(words):
    return text(16, 26, words, 'font-size="17" font-weight="bold"')


def legend(x, y, names):
    """A square and a name for each colour, in a row."""
    parts = []
    for colour, name in zip(COLOURS.values(), names):
        parts += [box(x, y - 12, 14, 14, colour), text(x + 20, y, name)]
        x += 40 + 7 * len(name)
    return parts


def show(width, height, parts):
    size = f'viewBox="0 0 {width} {height}" width="{width}" height="{height}"'
    print(f'<svg xmlns="http://www.w3.org/2000/svg" {size} font-family="sans-serif" font-size="13">')
    print("\n".join([box(0, 0, width, height, "#fff"), *parts]))
    print("</svg>")
