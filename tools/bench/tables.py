"""The tables, in markdown."""
from costs import READ, REFUSED, SLOW


def row(cells):
    return "| " + " | ".join(cells) + " |"


def head(cells):
    return row(cells) + "\n" + "|---" * len(cells) + "|"


def cell(figure):
    """Instructions a byte; `*` behind it: the text was refused. `failed` and `slow` stand for other ends."""
    if figure.status == SLOW:
        return "slow"
    if figure.instructions is None or figure.status not in (READ, *REFUSED):
        return "failed"
    return f"{figure.instructions:,.1f}" + ("*" if figure.status in REFUSED else "")


def beside(families, names):
    """A line a family: instructions a byte of each program, and then memory a byte of each."""
    lines = [head(["text", "bytes", *names, *("memory, " + name for name in names)])]
    for family in families:
        figures = [family.figures[name] for name in names]
        memory = (f"{figure.memory:.1f}" for figure in figures)
        lines.append(row([family.title, f"{family.size:,}", *map(cell, figures), *memory]))
    return "\n".join(lines)


def is_alike(one, other):
    """Whether both read the text, or both refused it."""
    return all(each.instructions is not None for each in (one, other)) and any(
        one.status in how and other.status in how for how in ((READ,), REFUSED))


def summary(families, peers):
    """A sentence a peer: in how many texts ours takes less, of those that both read, or both refused."""
    lines = []
    for peer in peers:
        pairs = [(family.figures["ours"], family.figures[peer]) for family in families]
        both = [pair for pair in pairs if is_alike(*pair)]
        fewer = sum(ours.instructions < theirs.instructions for ours, theirs in both)
        more = sum(ours.memory > theirs.memory for ours, theirs in both)
        lines.append(f"- {peer} answers {len(both)} of {len(families)} texts as ours does: of these ours takes "
                     f"fewer instructions in {fewer}, and more memory in {more}.")
    return "\n".join(lines)


def growth(read, tidy):
    lines = [head(["text", "reading and writing again", "reading alone"])]
    for alone, again in zip(read, tidy):
        lines.append(row([alone.title, number(again.growth), number(alone.growth)]))
    return "\n".join(lines)


def number(value):
    return "-" if value is None else f"{value:.2f}"
