"""The limits of our programs: what was reached once and shall not be lost."""
import os

FILE = os.path.join(os.path.dirname(os.path.realpath(__file__)), "limits")
SHARE = 1.03  # of what was measured
PAGES = 40000  # bytes of memory besides, some ten pages
HEAD = """# FAMILY: instructions a byte of reading and writing again, of reading alone; memory in bytes a byte of the first.
# `tools/bench/run --set-limits` lowers them to 3 per cent above what it measures, that of memory with 40 KB besides.
"""


def of(again, alone):
    """The limits of one family, from what was measured."""
    ours, reading = again.figures["ours"], alone.figures["ours"]
    return ours.instructions * SHARE, reading.instructions * SHARE, ours.memory * SHARE + PAGES / again.size


def lowered(old, new):
    """What was reached is not lost: limits only fall."""
    return tuple(map(min, old, new))


def write(tidied, read):
    """Lowers these families' limits in the file, or adds them; those of others stay."""
    kept = load()
    for again, alone in zip(tidied, read):
        new = of(again, alone)
        kept[again.name] = lowered(kept[again.name], new) if again.name in kept else new
    with open(FILE, "w") as out:
        out.write(HEAD)
        out.writelines(f"{name}: {' '.join(f'{limit:.2f}' for limit in bounds)}\n" for name, bounds in kept.items())


def load():
    bounds = {}
    if os.path.exists(FILE):
        with open(FILE) as lines:
            for line in lines:
                if not line.startswith("#"):
                    name, figures = line.split(":")
                    bounds[name] = tuple(map(float, figures.split()))
    return bounds


def passed(tidied, read):
    """A line for each figure above its limit, or without one."""
    lines, bounds = [], load()
    for again, alone in zip(tidied, read):
        ours, reading = again.figures["ours"], alone.figures["ours"]
        figures = ours.instructions, reading.instructions, ours.memory
        limits = bounds.get(again.name)
        if limits is None:
            lines.append(f"{again.name}: no limit")
            continue
        for what, figure, limit in zip(("reading and writing", "reading", "memory"), figures, limits):
            if figure is not None and figure > limit:
                lines.append(f"{again.name}: {what} takes {figure:.2f} a byte, and not {limit} at most")
    return lines
