"""Texts that another party could choose: orders of keys, keys that stand twice, short runs, and much memory.

A text is the same at every run with the same seed. Each has two sizes: one that is counted by callgrind, which is some
fifty times slower, and one that is measured by the clock.
"""
import os
import random
from collections import namedtuple

import generate
import pivots

# What a ratio may be at most, unless `--most` says so. `status` is what reading it ends with: 1 where it is refused.
# `counted` and `timed` are sizes, in what `make` counts by: it makes a text of a size and a source of random numbers.
Text = namedtuple("Text", "name group most status counted timed make")
READ, REFUSED = 0, 1
# Rows. The counted ones are a quarter: a repeat is looked for among four times as many rows from one time to the next,
# so that one stands at the same place among these in both sizes.
COUNTED, TIMED = 75000, 300000
LETTERS = "abcdefghijklmnopqrstuvwxyz"


# ---- orders: the numbers of the keys, from 0 on, as they stand in the text


def rising(count, _):
    return list(range(count))


def falling(count, _):
    return list(range(count - 1, -1, -1))


def scattered(count, chance):
    numbers = list(range(count))
    chance.shuffle(numbers)
    return numbers


def interleaved(count, _):
    """Two rising runs, an element of each in turn."""
    half = (count + 1) // 2
    return [number // 2 + half * (number % 2) for number in range(count)]


def zigzag(count, _):
    """Up by the even numbers, and down by the odd ones."""
    return [*range(0, count, 2), *reversed(range(1, count, 2))]


def but_the_last(count, _):
    """Rising, but for the last eight, which are to go among the others."""
    late = [count * part // 9 for part in range(8, 0, -1)]
    among = set(late)
    return [number for number in range(count) if number not in among] + late


def sawtooth(count, _):
    """Many rising runs of sixteen."""
    runs = (count + 15) // 16
    return [place * runs + run for run in range(runs) for place in range(16) if place * runs + run < count]


ORDERS = {"rising": rising, "falling": falling, "scattered": scattered, "interleaved": interleaved, "zigzag": zigzag,
          "but-the-last": but_the_last, "sawtooth": sawtooth, "against-pivots": pivots.rising,
          "against-pivots-scattered": pivots.scattered}


# ---- keys of a number: an index compares their last eight bytes, and where these are the same the whole keys


def key(number):
    return "k%08d" % number


def key_of_one_ending(number):
    return "k%06d_same_end" % number


def long_key(number):
    """Of 1 KB, of one ending: the keys differ just before it."""
    return "k" * 1009 + "%06d_same_end" % number


def rows(keys):
    return "".join(name + " = 1\n" for name in keys)


def rows_in(order, name):
    """Rows of one table, whose keys stand in an order."""
    return lambda count, chance: rows(map(name, order(count, chance)))


def orders():
    for ending, name in (("", key), ("-one-ending", key_of_one_ending)):
        for order, numbers in ORDERS.items():
            yield Text(order + ending, "orders", 1.2, READ, COUNTED, TIMED, rows_in(numbers, name))
    yield Text("long-keys", "orders", 1.2, READ, 10000, 40000, rows_in(pivots.rising, long_key))


# ---- repeats: the row of the first key once more


def second(_):
    return 2


def past_eighth(count):
    return count // 8 + 2


def past_quarter(count):
    return count // 4 + 2


def past_half(count):
    return count // 2 + 2


def last(count):
    return count


def with_repeat(order):
    """An order in which a row, by a number from 1 on, is the first one again."""
    def numbers(count, row, chance):
        found = order(count, chance)
        found[row - 1] = found[0]
        return found
    return numbers


def repeat_at(row, order, name):
    """Rows of one table in such an order."""
    return lambda count, chance: rows(map(name, order(count, row(count), chance)))


PLACES = {"second-row": second, "past-eighth": past_eighth, "past-quarter": past_quarter, "past-half": past_half,
          "last-row": last}
REPEATED = {"rising": (with_repeat(rising), key), "scattered": (with_repeat(scattered), key),
            "one-ending": (with_repeat(scattered), key_of_one_ending),
            "against-pivots": (lambda count, row, _: pivots.rising_with_repeat(count, row), key_of_one_ending)}


def repeats():
    """A repeat is looked for among the first 64, 256 .. 16,384 rows, then among all: of 131,072, eight times these."""
    for place, row in PLACES.items():
        counted, timed = (32768, 131072) if row == past_eighth else (COUNTED, TIMED)
        for order, (numbers, name) in REPEATED.items():
            make = repeat_at(row, numbers, name)
            yield Text(f"repeat-{place}-{order}", "repeats", 1.2, REFUSED, counted, timed, make)


# ---- short runs: sizes are bytes, but of keys (sections) and of families (as in generate.py)


def filled(begin, piece, end):
    """A text of some size: as many pieces as go between its begin and its end."""
    return lambda size, _: begin + piece * ((size - len(begin) - len(end)) // len(piece)) + end


def keys_of(width):
    """Sections of twelve keys of so many bytes."""
    section = rows(letter.ljust(width, "k") for letter in LETTERS[:12])
    return lambda count, _: "".join("[%05d]\n%s" % (number, section) for number in range(count))


def family(name):
    return lambda size, _: generate.FAMILIES[name](size, random.Random("%s %d" % (name, size)))


PIECES = {
    "comment-empty": ("", "#\n", ""),
    "comment-a": ("", "#a\n", ""),
    "comment-ab": ("", "#ab\n", ""),
    "comment-abc": ("", "#abc\n", ""),
    "comment-long": ("", "# a comment of sixteen and more bytes, as most are\n", ""),
    "newlines-basic": ('a = """', "\n", '"""\n'),
    "newlines-literal": ("a = '''", "\n", "'''\n"),
    "bytes-basic": ('a = """', 'a"', 'a"""\n'),
    "bytes-literal": ("a = '''", "a'", "a'''\n"),
}
FAMILIES = {"headers_deep": READ, "header_keys": READ, "h_header_keys": REFUSED, "h_elements": READ, "h_suffix": READ}


def runs():
    for name, parts in PIECES.items():
        # a run of just as many bytes as go one by one takes a block besides
        most = 1.3 if name == "comment-abc" else 1.05
        yield Text(name, "runs", most, READ, 1000000, 10000000, filled(*parts))
    for width in (1, 2, 3, 8, 16, 40):
        yield Text(f"keys-of-{width}", "runs", 1.05, READ, 2000, 20000, keys_of(width))
    for name, status in FAMILIES.items():
        most = 1.2 if name == "h_suffix" else 1.05
        size = generate.SIZES[generate.FAMILIES[name]][-1]
        yield Text(name, "runs", most, status, size, size, family(name))


# ---- memory


def inline_tables(count, _):
    """Inline tables of exactly 64 rows: so many get an index."""
    table = "{" + ", ".join("k%02d = 1" % number for number in range(64)) + "}"
    return "".join("t%06d = %s\n" % (number, table) for number in range(count))


def memory():
    yield Text("inline-tables-of-64", "memory", 1.2, READ, 1000, 10000, inline_tables)
    yield Text("one-section", "memory", 1.2, READ, COUNTED, TIMED, rows_in(rising, key))


TEXTS = [*orders(), *repeats(), *runs(), *memory()]


def path_of(folder, text, size, seed):
    """The file of a text of some size, which is made where it is missing or older than what makes it."""
    path = os.path.join(folder, f"{text.name}-{size}-{seed}.toml")
    newest = max(os.path.getmtime(module) for module in (__file__, pivots.__file__, generate.__file__))
    if not os.path.exists(path) or os.path.getmtime(path) < newest:
        with open(path + ".new", "w") as out:
            out.write(text.make(size, random.Random(f"{text.name} {size} {seed}")))
        os.replace(path + ".new", path)
    return path
