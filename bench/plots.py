"""Horizontal bars as SVG, for docs/ and the README: no program but this one is needed to draw them."""

from html import escape

LABEL_WIDTH = 170
BAR_WIDTH = 420
VALUE_WIDTH = 60
BAR_HEIGHT = 14
GAP = 10
TITLE_HEIGHT = 22
COLOURS = ["#4c78a8", "#f58518", "#54a24b", "#b279a2"]
FONT = 'font-family="sans-serif" font-size="12"'


def text(x, y, words, anchor="start"):
    return f'<text x="{x}" y="{y}" text-anchor="{anchor}" fill="#333">{escape(words)}</text>'


def bar(y, length, colour):
    return f'<rect x="{LABEL_WIDTH}" y="{y}" width="{length:.1f}" height="{BAR_HEIGHT}" fill="{colour}"/>'


def legend(series):
    """A line with the name and the colour of each series."""
    x = LABEL_WIDTH
    for name, colour in zip(series, COLOURS):
        yield f'<rect x="{x}" y="{TITLE_HEIGHT + 8}" width="10" height="10" fill="{colour}"/>'
        yield text(x + 15, TITLE_HEIGHT + 17, name)
        x += 30 + 8 * len(name)


def group(y, name, values, greatest):
    """The bars of one row, below one another, and its name beside them."""
    yield text(LABEL_WIDTH - 8, y + BAR_HEIGHT - 3, name, "end")
    for index, (value, colour) in enumerate(zip(values, COLOURS)):
        top = y + index * BAR_HEIGHT
        length = BAR_WIDTH * value / greatest
        yield bar(top, length, colour)
        yield text(LABEL_WIDTH + length + 5, top + BAR_HEIGHT - 3, f"{value:.2f}")


def bars(title, series, rows):
    """A picture of rows of values, from 0 to 1 or to the greatest: `rows` has for each name a value of each series."""
    greatest = max(1, *(value for values in rows.values() for value in values))
    step = BAR_HEIGHT * len(series) + GAP
    height = TITLE_HEIGHT + 45 + step * len(rows)
    width = LABEL_WIDTH + BAR_WIDTH + VALUE_WIDTH
    one = LABEL_WIDTH + BAR_WIDTH / greatest
    parts = [f'<svg xmlns="http://www.w3.org/2000/svg" width="{width}" height="{height}" {FONT}>']
    parts.append(f"<title>{escape(title)}</title>")
    parts.append(f'<rect width="{width}" height="{height}" fill="#fff"/>')
    parts.append(text(8, 17, title))
    parts += legend(series)
    parts.append(f'<line x1="{one:.1f}" y1="{TITLE_HEIGHT + 25}" x2="{one:.1f}" y2="{height - 12}" stroke="#999" stroke-dasharray="3"/>')
    parts.append(text(f"{one:.1f}", height - 1, "Ninja = 1.0", "middle"))
    for index, (name, values) in enumerate(rows.items()):
        parts += group(TITLE_HEIGHT + 30 + index * step, name, values, greatest)
    return "\n".join([*parts, "</svg>"]) + "\n"
