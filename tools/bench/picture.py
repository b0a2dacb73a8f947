"""python3 picture.py PAGE OUT -- draws the figures of the tables in the page PAGE, as docs/SPEED.md has them, as the SVG
file OUT: instructions a byte by family, a mark a program, on a log scale. `run --picture OUT` draws those that it counts.

The same figures make the same bytes. A program that refused a text has no mark there, and a text that ours refuses no row.
"""
import math
import re
import sys
from collections import namedtuple
from html import escape

OURS = "ours"
PANELS = ("Reading alone", "Reading and writing again")  # the tables, by their headings
LABELS = {OURS: "this library"}
COLORS = {"basic-toml": "#0072b2", "toml++": "#00805b", "cpptoml": "#a0418f", OURS: "#d55e00"}
WIDTH, NAMES, GAP, MARGIN = 980, 244, 26, 16
TOP, ROW, SIZE = 122, 19, 4.5  # where rows begin, how high each is, and half of what a mark takes
FONT = "font-family=\"DejaVu Sans, Verdana, Helvetica, Arial, sans-serif\""

Panel = namedtuple("Panel", "title programs rows")  # rows: the figures by program, by the name of the text
Scale = namedtuple("Scale", "low high left right")


# ---- the figures


def cells(line):
    return [cell.strip() for cell in line.strip().strip("|").split("|")]


def figure(cell):
    """The number of a cell; None where the program refused the text, failed or was slow."""
    return float(cell.replace(",", "")) if re.fullmatch(r"[\d,]+\.\d", cell) else None


def panel(page, title):
    """The table below a heading, or None where the page has none."""
    found = re.search(rf"^## {re.escape(title)}$.*?^(\|.*?)(?:\n\n|\Z)", page, re.M | re.S)
    if not found:
        return None
    head, _, *lines = found[1].splitlines()
    programs = [name for name in cells(head)[2:] if not name.startswith("memory")]
    rows = {}
    for text, _, *figures in map(cells, lines):
        rows[text] = {name: figure(cell) for name, cell in zip(programs, figures)}
    return Panel(title, programs, rows)


def panels_of(page):
    return [found for found in (panel(page, title) for title in PANELS) if found]


# ---- the scale


def round_bound(value, way):
    """The nearest 1, 2 or 5 times a power of ten, not above the value (min) or not below it (max)."""
    power = 10.0 ** math.floor(math.log10(value))
    steps = [step * power for step in (1, 2, 5, 10)]
    return max(s for s in steps if s <= value) if way is min else min(s for s in steps if s >= value)


def at(scale, value):
    share = math.log(value / scale.low) / math.log(scale.high / scale.low)
    return scale.left + share * (scale.right - scale.left)


def ticks(scale):
    """Yields each 1, 2 and 5 times a power of ten on the scale, and whether it is a power of ten."""
    power = 10.0 ** math.floor(math.log10(scale.low))
    while power <= scale.high:
        for step in (1, 2, 5):
            if scale.low <= step * power <= scale.high:
                yield step * power, step == 1
        power *= 10


# ---- the drawing


def text(x, y, words, size=12, anchor="start", fill="#222", weight="normal"):
    return (f'<text x="{x:.1f}" y="{y:.1f}" font-size="{size}" text-anchor="{anchor}" fill="{fill}" '
            f'font-weight="{weight}">{escape(words)}</text>')


def line(x1, y1, x2, y2, stroke):
    return f'<line x1="{x1:.1f}" y1="{y1:.1f}" x2="{x2:.1f}" y2="{y2:.1f}" stroke="{stroke}"/>'


def mark(program, x, y):
    """Ours is a full circle; each of the others a hollow shape of its own, so that two at one place are seen."""
    color = COLORS.get(program, "#444")
    if program == OURS:
        return f'<circle cx="{x:.1f}" cy="{y:.1f}" r="{SIZE}" fill="{color}"/>'
    corners = {"basic-toml": ((0, -1.2), (1.2, 0), (0, 1.2), (-1.2, 0)), "cpptoml": ((0, -1), (1, 0.9), (-1, 0.9)),
               "toml++": ((-0.9, -0.9), (0.9, -0.9), (0.9, 0.9), (-0.9, 0.9))}.get(program, ((-1, 0), (1, 0)))
    points = " ".join(f"{x + SIZE * dx:.1f},{y + SIZE * dy:.1f}" for dx, dy in corners)
    return f'<polygon points="{points}" fill="none" stroke="{color}" stroke-width="1.6"/>'


def legend(programs, y):
    x = NAMES
    for program in programs:
        label = LABELS.get(program, program)
        yield mark(program, x + SIZE, y - 4)
        yield text(x + 16, y, label, weight="bold" if program == OURS else "normal")
        x += 48 + 8 * len(label)


def axis(scale, bottom):
    for value, is_power in ticks(scale):
        x = at(scale, value)
        yield line(x, TOP, x, bottom, "#c4c4c4" if is_power else "#ececec")
        if is_power:
            yield text(x, TOP - 8, f"{value:,.0f}", 11, "middle", "#555")
            yield text(x, bottom + 16, f"{value:,.0f}", 11, "middle", "#555")


def marks(table, names, scale):
    """The marks of each row, ours last and so on top, on a line from the least to the most."""
    for number, name in enumerate(names):
        y = TOP + ROW * (number + 0.5)
        there = {program: each for program, each in table.rows.get(name, {}).items() if each is not None}
        if there:
            yield line(at(scale, min(there.values())), y, at(scale, max(there.values())), y, "#b0b0b0")
        for program in sorted(there, key=lambda program: program == OURS):
            yield mark(program, at(scale, there[program]), y)


def rows_shown(panels):
    """The texts that ours reads in any of the tables, in their order."""
    names = dict.fromkeys(name for table in panels for name in table.rows)
    return [name for name in names if any(table.rows.get(name, {}).get(OURS) is not None for table in panels)], len(names)


def frame(names, count, programs, bottom, height):
    """All but the panels: the ground, the title, the legend, the names of the rows and what is left out."""
    yield (f'<svg xmlns="http://www.w3.org/2000/svg" width="{WIDTH}" height="{height}" '
           f'viewBox="0 0 {WIDTH} {height}" role="img" {FONT}>')
    yield "<title>Instructions a byte of text, by kind of text and by library</title>"
    yield f'<rect width="{WIDTH}" height="{height}" fill="#ffffff"/>'
    yield text(MARGIN, 30, "Instructions a byte of text", 18, weight="bold")
    yield text(NAMES + 56, 30, "by callgrind, less those for an empty text; log scale: less is further left", 12, fill="#555")
    yield from legend(programs, 58)
    for number, name in enumerate(names):
        if number % 2 == 0:
            yield f'<rect x="{MARGIN}" y="{TOP + ROW * number}" width="{WIDTH - 2 * MARGIN}" height="{ROW}" fill="#f6f6f6"/>'
        yield text(NAMES - 10, TOP + ROW * (number + 0.5) + 4, name, anchor="end")
    left_out = count - len(names)
    said = f" Left out of {count} texts: those that this library refuses ({left_out})." if left_out else ""
    yield text(MARGIN, bottom + 42, f"A library that refuses a text has no mark there.{said}", 11, fill="#555")


def drawing(page):
    """The picture of the tables of a page, as the text of an SVG file."""
    panels = panels_of(page)
    names, count = rows_shown(panels)
    figures = [each for table in panels for name in names for each in table.rows.get(name, {}).values() if each is not None]
    if not figures:
        raise ValueError("no table of instructions a byte")
    programs = list(dict.fromkeys(program for table in panels for program in table.programs))
    bottom = TOP + ROW * len(names)
    lines = list(frame(names, count, sorted(programs, key=lambda program: program != OURS), bottom, bottom + 56))
    wide = (WIDTH - MARGIN - NAMES - GAP * (len(panels) - 1)) / len(panels)
    for number, table in enumerate(panels):
        left = NAMES + number * (wide + GAP)
        scale = Scale(round_bound(min(figures), min), round_bound(max(figures), max), left, left + wide)
        lines.append(text(left, TOP - 32, table.title, 13, weight="bold"))
        lines += [*axis(scale, bottom), *marks(table, names, scale)]
    return "\n".join([*lines, "</svg>\n"])


def write(page, out):
    with open(out, "w", encoding="utf-8") as file:
        file.write(drawing(page))


def main(page, out):
    with open(page, encoding="utf-8") as file:
        write(file.read(), out)


if __name__ == "__main__":
    if len(sys.argv) != 3:
        sys.exit(__doc__)
    main(*sys.argv[1:])
