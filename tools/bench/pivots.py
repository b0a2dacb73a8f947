"""An order that is made against the pivots of a quicksort: each of its partitions takes few elements off.

The sort is run on elements without values. Where it compares two of them, one gets the least value that is left, and
that is the one which seems to be the pivot. So all pivots are among the least elements.

The sort is a model of `sort_unstable` of Rattle's std. The pivot is the median of three elements, and from 64 elements
on of three such medians of an eighth each. One pass from left to right puts the others to its sides. After as many
partitions as twice the logarithm of their number a heap sort takes over. It gets nearly all, still without values.
"""
SMALL = 16  # so many elements are not partitioned


class Adversary:
    """Elements by their first positions, and the values of those that have one."""

    def __init__(self, count):
        self.none = count
        self.values = [count] * count
        self.given = 0
        self.candidate = None

    def give(self, element):
        self.values[element] = self.given
        self.given += 1

    def is_less(self, one, other):
        values, none = self.values, self.none
        if values[one] == none and values[other] == none:
            self.give(one if one == self.candidate else other)
        if values[one] == none:
            self.candidate = one
        elif values[other] == none:
            self.candidate = other
        return values[one] < values[other]


def median(adversary, row, places):
    """Of three places of a row, the one whose element is the middle one."""
    a, b, c = places
    is_a_first = adversary.is_less(row[a], row[b])
    if is_a_first != adversary.is_less(row[a], row[c]):
        return a
    return b if adversary.is_less(row[b], row[c]) == is_a_first else c


def pivot_of(adversary, row, starts, width):
    """The median of the medians of three stretches of the row."""
    if width >= 8:
        eighth = width // 8
        starts = [pivot_of(adversary, row, (at, at + 4 * eighth, at + 7 * eighth), eighth) for at in starts]
    return median(adversary, row, starts)


def upper_side(adversary, row, at):
    """Partitions a row by the element at a place: what goes above it, as it then stands."""
    row[0], row[at] = row[at], row[0]
    pivot, rest = row[0], row[1:]
    first = 0
    while first < len(rest) and adversary.is_less(rest[first], pivot):
        first += 1
    if first + 1 >= len(rest):
        return rest[first:]
    # The pivot has a value by now, so no other element gets one: the few that are less are among those that have one.
    bound, values = adversary.values[pivot], adversary.values
    below = [place for place in range(first + 2, len(rest)) if values[rest[place]] < bound]
    held, left = rest[first + 1], first
    rest[first + 1] = rest[first]
    for place in below:
        left += 1
        rest[place] = rest[left]
    rest[left] = held
    return rest[left + (values[held] < bound):]


def adversary_of(elements):
    """The adversary of a row of elements, once all partitions are made."""
    count, row = len(elements), list(elements)
    adversary = Adversary(count)
    adversary.is_less(row[1], row[0])
    adversary.is_less(row[2], row[1])
    for _ in range(2 * (count.bit_length() - 1)):
        if len(row) <= SMALL:
            break
        eighth = len(row) // 8
        starts = (0, 4 * eighth, 7 * eighth)
        at = pivot_of(adversary, row, starts, eighth) if eighth >= 8 else median(adversary, row, starts)
        row = upper_side(adversary, row, at)
    return adversary


def values_of(elements, in_order):
    """The values of a row of elements, from 0 on. Those that are left without one get theirs in an order."""
    adversary = adversary_of(elements)
    for element in in_order([element for element in elements if adversary.values[element] == adversary.none]):
        adversary.give(element)
    return [adversary.values[element] for element in elements]


def rising(count, _):
    """What the heap sort gets rises: an index that takes keys one after the other is fast at it."""
    return values_of(range(count), lambda left: left)


def scattered(count, chance):
    """What the heap sort gets is shuffled, so that most of its steps miss the cache."""
    return values_of(range(count), lambda left: chance.sample(left, len(left)))


def rising_with_repeat(count, row):
    """The first, where a row, by a number from 1 on, is the first one again."""
    elements = list(range(count))
    elements[row - 1] = elements[0]
    return values_of(elements, lambda left: list(dict.fromkeys(left)))
