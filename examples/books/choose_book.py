#!/usr/bin/env python3
"""Chooses a book for compact keys, by the keys of your own lines.

    uca keys TABLE DATA < lines | examples/books/choose_book.py TABLE > my.book
    uca keys --weighting non-ignorable TABLE DATA < lines | examples/books/choose_book.py --weighting non-ignorable TABLE > my.book

It reads what `uca keys` prints, with `--lines`, `--header` and `--identical` or without. TABLE is the table that made the keys. Stored keys serve as well:
one a line, as hexadecimal digits.

A compact key has one byte for a weight that is alone in its cell. It has two bytes in a cell of at most 256 weights, and three in any other one. This script
finds where cells begin, so that the letters of these lines (level 1) and their blanks and punctuation (level 4) take few bytes. Any rising starts keep the
order of the keys. So an error here makes keys longer, and no order wrong.

All weights of the table, and those of Han characters, which a table does not list, have a small share of the counts. So texts with other letters than those
of the lines are not dear. With `--others N` the share is one part in N: the more N is, the less other texts matter.

`--weighting both` takes shifted keys, and makes one book for both weightings: blanks and punctuation also count at level 1, where non-ignorable keys have them.

The same keys and table always make the same book. Its mean bytes a key at these levels are said on standard error.
"""
import argparse
import array
import collections
import itertools
import math
import re
import signal
import sys

# Level 1 ends with the greatest weight of two bytes, and the cells of level 4 end before FFFF.
ENDS = {1: 0x10000, 4: 0xFFFF}
# How many starts a level has at most, after its first cell, which begins at 1.
MOST = {1: 245, 4: 255}
# How many weights a cell has at most whose offsets take one byte.
SPAN = 256

# Each weight of the lines counts so often.
UNIT = 1_000_000
# All weights of the table together count as one part in OTHERS of the lines, and Han characters as one part in so many times OTHERS.
OTHERS, HAN_PART = 30, 5

# The prices of a start that are tried differ by one part in so many.
PRECISION = 256


# ---- What is counted


class Sample:
    """How often each weight occurs in some keys, at level 1 and at level 4."""

    def __init__(self, has_fourth):
        self.has_fourth, self.keys, self.marked = has_fourth, 0, 0
        self.letters, self.variables = array.array("H"), array.array("H")

    def add(self, digits):
        """Adds a key. It raises ValueError where this is none."""
        key = bytes.fromhex(digits.decode("ascii"))
        weights = array.array("H", key[: len(key) // 2 * 2])
        if sys.byteorder == "little":
            weights.byteswap()
        ends = list(itertools.islice((at for at, weight in enumerate(weights) if not weight), 4))
        if len(ends) < (3 if self.has_fourth else 2):
            raise ValueError
        self.keys += 1
        self.letters.extend(weights[: ends[0]])
        if self.has_fourth:
            fourth = weights[ends[2] + 1 : ends[3] if len(ends) > 3 else len(weights)]
            self.variables.extend(fourth)
            self.marked += fourth.count(0xFFFF) < len(fourth)

    def counts(self, level):
        """How often each weight occurs that a cell of this level may have."""
        found = collections.Counter(self.letters if level == 1 else self.variables)
        if level == 4:
            del found[0xFFFF]
        return found


def read_sample(file, weighting):
    """The sample of the keys that a file has."""
    sample = Sample(weighting != "non-ignorable")
    for number, line in enumerate(file, 1):
        digits = line.split(b"\t", 1)[0].rstrip(b"\r\n")
        if number == 1 and digits.startswith(b"#"):
            named = digits.decode("utf-8", "replace").split()[3:4]
            if named != ["shifted" if sample.has_fourth else "non-ignorable"]:
                sys.exit(f"standard input: the header names the weighting {' '.join(named)}. Name it by --weighting.")
            continue
        try:
            sample.add(digits)
        except ValueError:
            sys.exit(f"standard input, line {number}: this is no key of the weighting {weighting}. Give what `uca keys` prints.")
    if not sample.keys:
        sys.exit("standard input: there are no keys. Give what `uca keys` prints.")
    return sample


def table_weights(name):
    """The weights of level 1 in the rows of a table: those of variable elements, and all others."""
    try:
        with open(name, encoding="utf-8") as file:
            rows = [line.split("#")[0] for line in file]
    except (OSError, UnicodeDecodeError) as error:
        sys.exit(f"{name}: {getattr(error, 'strerror', None) or 'this is no text in UTF-8'}")
    found = {(mark, int(weight, 16)) for row in rows for mark, weight in re.findall(r"\[([.*])([0-9A-Fa-f]{4})\.", row)}
    if not found:
        sys.exit(f"{name}: this is no table: it has no rows with weights.")
    return (sorted(weight for mark, weight in found if mark == kind and weight) for kind in "*.")


def han_weights():
    """The two weights of each Han character of the first block: a table has no rows for them."""
    return [weight for code in range(0x4E00, 0xA000) for weight in (0xFB40 + (code >> 15), code & 0x7FFF | 0x8000)]


def with_shares(counts, *shares):
    """The counts with a share for other weights: each share is the weights, and which part of the whole they have together. The first of them get most."""
    total = sum(counts.values()) or 1
    found = collections.Counter({weight: count * UNIT for weight, count in counts.items()})
    for weights, part in shares:
        size = len(weights)
        for left, weight in zip(range(size, 0, -1), weights):
            found[weight] += 2 * left * total * UNIT // (part * size * (size + 1)) or 1
    return found


# ---- The cheapest cells


def sums_before(counts, end):
    """How often the weights below each weight occur, up to the end of the level."""
    return [0, *itertools.accumulate(counts.get(weight, 0) for weight in range(end))]


def cheapest(before, price):
    """Where the cells begin that cost least, if each start costs this price and each weight its bytes."""
    size = len(before)
    least, origin = [0] * size, [1] * size
    near = collections.deque()  # starts of cells of at most SPAN weights, by what they cost, rising
    wide, wide_start = None, 1
    for end in range(2, size):
        start = end - 1
        paid, passed, reached = least[start], before[start], before[end]
        while near and near[-1][0] >= paid - 2 * passed:
            near.pop()
        near.append((paid - 2 * passed, start))
        if near[0][1] < end - SPAN:
            near.popleft()
        if wide is None or paid - 3 * passed < wide:
            wide, wide_start = paid - 3 * passed, start
        best, first = paid + reached - passed, start
        if near[0][0] + 2 * reached < best:
            best, first = near[0][0] + 2 * reached, near[0][1]
        if wide + 3 * reached < best:
            best, first = wide + 3 * reached, wide_start
        least[end], origin[end] = best + price, first
    starts = [origin[-1]]
    while starts[-1] > 1:
        starts.append(origin[starts[-1]])
    return starts[::-1]


def choose(counts, level):
    """The starts of a level, the first one too: those that cost least among as many, and no more than there may be."""
    before = sums_before(counts, ENDS[level])
    low, high = 1, 3 * before[-1] + 1
    found = cheapest(before, low)
    if len(found) - 1 <= MOST[level]:
        return found
    found = cheapest(before, high)
    while high > low + low // PRECISION + 1:
        price = max(low + 1, math.isqrt(low * high))
        starts = cheapest(before, price)
        if len(starts) - 1 <= MOST[level]:
            high, found = price, starts
        else:
            low = price
    return found


def bytes_of(counts, starts, level):
    """How many bytes these weights take in such cells."""
    total = 0
    ends = [*starts[1:], ENDS[level]]
    widths = [end - start for start, end in zip(starts, ends)]
    cells = iter(zip(ends, widths))
    end, width = next(cells)
    for weight in sorted(counts):
        while weight >= end:
            end, width = next(cells)
        total += counts[weight] * (1 if width == 1 else 2 if width <= SPAN else 3)
    return total


# ---- The book


def level_one(sample, weighting, others, variables, letters):
    """The starts of level 1, and the bytes that this level takes with the end of each key."""
    counts = sample.counts(1)
    listed = letters if weighting == "shifted" else variables + letters
    own = with_shares(counts, (listed, others), (han_weights(), HAN_PART * others))
    if weighting == "both":
        # half of the keys are as they were counted, and half have the weights of level 4 too
        for weight, count in sample.counts(4).items():
            own[weight] += count * UNIT // 2
    starts = choose(own, 1)
    return starts, bytes_of(counts, starts, 1) + sample.keys


def level_four(sample, others, variables):
    """The starts of level 4, and the bytes that this level takes where it is not plain: each weight has a byte for the run before it."""
    counts = sample.counts(4)
    starts = choose(with_shares(counts, (variables, others)), 4)
    return starts, bytes_of(counts, starts, 4) + sum(counts.values()) + sample.marked


def mean(total, keys):
    """A mean with two digits after the point."""
    return "%d.%02d" % divmod((200 * total + keys) // (2 * keys), 100)


def book_by(sample, weighting, others, variables, letters):
    """The text of a book for the keys of a sample, and what it takes: the table's weights are those of variable elements and all others."""
    starts, taken = level_one(sample, weighting, others, variables, letters)
    book, said = [f"1 {start:04X}\n" for start in starts[1:]], f"level 1 {mean(taken, sample.keys)}"
    if sample.has_fourth:
        starts, taken = level_four(sample, others, variables)
        book += [f"4 {start:04X}\n" for start in starts[1:]]
        said += f", level 4 {mean(taken, sample.keys)}"
    return "@book 1\n" + "".join(book), f"{sample.keys} keys, mean bytes a key: {said}"


def starts_in(book, level):
    """The starts of a level in the text of a book, the first one too."""
    return [1, *(int(line[2:], 16) for line in book.splitlines() if line.startswith(f"{level} "))]


def positive(digits):
    """A number of at least 1, for argparse."""
    if not re.fullmatch("[0-9]{1,9}", digits) or not int(digits):
        raise argparse.ArgumentTypeError(f"{digits} is not a number from 1 on")
    return int(digits)


def main():
    signal.signal(signal.SIGPIPE, signal.SIG_DFL)
    parser = argparse.ArgumentParser(description=__doc__.split("\n")[0], epilog="examples/books/README.md says more.")
    parser.add_argument("--weighting", choices=("shifted", "non-ignorable", "both"), default="shifted", help="that of the keys, shifted unless named; both: shifted keys")
    parser.add_argument("--others", type=positive, default=OTHERS, metavar="N", help=f"all weights of the table count as one part in N of the lines ({OTHERS})")
    parser.add_argument("table", metavar="TABLE", help="the table that made the keys")
    given = parser.parse_args()
    variables, letters = table_weights(given.table)
    sample = read_sample(sys.stdin.buffer, given.weighting)
    book, said = book_by(sample, given.weighting, given.others, variables, letters)
    sys.stdout.write(book)
    print(said, file=sys.stderr)


if __name__ == "__main__":
    main()
