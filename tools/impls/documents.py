"""TOML texts that are made at random."""
from structs import WORDS


def some_key(chance):
    shape = chance.random()
    word = chance.choice(WORDS)
    if shape < 0.6:
        return word
    if shape < 0.9:
        return "%s%s%s" % (word, chance.choice("-_"), chance.choice(WORDS))
    return chance.choice(("type", "1st", '"a b"', '"näme"', "Max", "error", "_"))


def some_value(chance, depth):
    shape = chance.random()
    if depth and shape < 0.25:
        return "[%s]" % ", ".join(some_value(chance, depth - 1) for _ in range(chance.randint(0, 3)))
    if depth and shape < 0.35:
        return "{%s}" % ", ".join(rows(chance, depth - 1))
    return chance.choice(("1", "-20", "true", "false", "1.5", "inf", '"text"', "'x'"))


def rows(chance, depth):
    keys = {some_key(chance) for _ in range(chance.randint(0, 5))}
    return ["%s = %s" % (key, some_value(chance, depth)) for key in sorted(keys)]


def document(chance):
    """Returns a text with rows, tables and arrays of tables."""
    lines = ["title = 'x'"] + [row for row in rows(chance, 2) if '"' not in row.split(" ")[0]]
    taken = {line.split(" ")[0] for line in lines}
    for name in sorted({chance.choice(WORDS) + "_table" for _ in range(chance.randint(0, 4))} - taken):
        if chance.random() < 0.5:
            lines += ["[%s]" % name] + rows(chance, 2)
            continue
        for _ in range(chance.randint(1, 4)):
            lines += ["[[%s]]" % name] + rows(chance, 2)
    return "\n".join(lines) + "\n"
