#!/usr/bin/env python3
"""Measures each command over files of the greatest size that it takes, in the worst shapes that we know.

    tools/build.py                 # proves and builds crates/uca/out/uca
    bench/worst.py                 # from the top of the repository; --only NAME for one group of shapes

The script makes its files in a temporary folder, and deletes them after each group. It prints a table in Markdown: wall and
processor seconds, and the greatest resident set seen by looking every millisecond. A run counts only if it ends as it has to,
in at most 30 seconds of processor time. A group holds at most 4.1 GB of files at a time. The bounds are those of docs/FORMATS.md.
"""

import argparse
import collections
import itertools
import os
import random
import shutil
import subprocess
import sys
import tempfile
import threading
import time

sys.dont_write_bytecode = True
import figures

ROWS, LINES, RELATIONS, LINE_BYTES = 200000, 1000000, 5000, 4096
POINTS = 1048576  # code points of one text, and bytes of rules
WORD_BYTES = 131071  # of one word of the command line, without its end
FAR = 0x40000  # code points from here on stay as they are in Normalization Form D, and are in no Han range
TARGETS = 0x80000  # after all code points of keys but marks
MARKS = 0x90000  # those from here on get classes by data files below
HEAD, DATA = "@version 1\n", "@data 1\n"
OUT_OF_ORDER = "\u0345\u0315\u0301\u0323"  # of classes 240, 232, 230 and 220

# given: the file of standard input. ending: what is said on standard error, with a status that is not 0, or nothing.
Run = collections.namedtuple("Run", "name bound words given ending", defaults=(None, ""))


def element(primary, secondary=0x20, tertiary=2):
    return "[.%04X.%04X.%04X]" % (primary, secondary, tertiary)


def in_turn(*greatest):
    """Elements of primaries, secondaries and tertiaries, each from 1 on in turn up to the greatest, and 32 again."""
    return "".join(element(*(1 + n % last for last in greatest)) for n in range(65535 + 32))


def of_row(row, elements):
    """32 of them, others for each row: an element has 17 bytes."""
    start = row * 32 % 65535 * 17
    return elements[start : start + 32 * 17]


LETTER = element(0x100)
FULL = in_turn(0x7FFF, 0xFFFF, 0xFFFF)


class Folder:
    def __init__(self, path):
        self.path = path

    def name(self, name):
        return os.path.join(self.path, name)

    def write(self, name, pieces):
        with open(self.name(name), "w", encoding="utf-8", newline="\n") as file:
            file.writelines([pieces] if isinstance(pieces, str) else pieces)

    def table(self, rows, name="table", end="\n", more=()):
        """A table of rows, each the code points of a key and the text of its elements, and of more lines."""
        lines = ("%s ; %s" % (" ".join("%04X" % point for point in points), elements) + end for points, elements in rows)
        self.write(name, itertools.chain([HEAD], lines, more))


def numbered(keys):
    return ((points, of_row(row, FULL)) for row, points in enumerate(keys))


def one_in_each(word, first, value=""):
    """Lines of the data file for 4,096 ranges of one code point each, the last first."""
    return ["%s %04X..%04X%s\n" % (word, first + 2 * n, first + 2 * n, value) for n in reversed(range(4096))]


def fronts(folder):
    """Condition 5 of well-formedness looks for the front of each long key."""
    folder.write("data", DATA + "ccc %X..10FFFF 230\n" % MARKS)
    long = [[FAR] * 14 + [FAR + n, MARKS] for n in range(ROWS // 2)]
    for name, keys in (
        ("all keys have one front, in the last row", [[FAR] * 15 + [MARKS + n] for n in range(ROWS - 1)] + [[FAR] * 15]),
        ("100,000 keys, each front 100,000 rows away", long + [points[:15] for points in reversed(long)]),
        ("each key the front of a longer one before it", ([FAR, FAR + n] + [MARKS + n] * more for more in range(14, -1, -1) for n in range(13333))),
    ):
        folder.table(numbered(keys))
        yield Run(name, "200,000 rows, 16 code points, 32 elements", "check table data")


def tries(folder):
    """Reading tables and making their tries."""
    folder.write("data", DATA)
    for name, keys in (
        ("keys of one code point, falling", ([FAR + n] for n in reversed(range(ROWS)))),
        ("keys of 16 code points that differ in the last, falling", ([FAR] * 15 + [FAR + n] for n in reversed(range(ROWS)))),
        ("keys of 16 code points that share nothing", ([FAR + n] * 16 for n in range(ROWS))),
    ):
        folder.table(numbered(keys))
        yield Run(name, "200,000 rows, 32 elements", "keys table data")


def lines_of_files(folder):
    """Files of as many lines as may be, each as long as may be. A row takes 16 * 6 + 2 + 32 * 17 bytes."""
    bound, comment, blank = "1,000,000 lines of 4,096 bytes", "#" * LINE_BYTES + "\n", " " * LINE_BYTES
    folder.write("data", DATA)
    rows = numbered([FAR] * 15 + [FAR + n] for n in range(ROWS))
    folder.table(rows, end=comment[642:], more=itertools.repeat(comment, LINES - ROWS - 1))
    yield Run("a table of 4.1 GB, of comments", bound, "check table data")
    folder.table([([0x61], LETTER)])
    ranges = one_in_each("ccc", FAR, " 230") + one_in_each("core", FAR) + one_in_each("other", FAR + 1)
    lines = [DATA] + ranges + [""] * (LINES - 1 - len(ranges))
    folder.write("data", ((line.strip() + blank)[:LINE_BYTES] + "\n" for line in lines))
    yield Run("a data file of 4.1 GB, of blanks", bound, "check table data")


def texts(folder):
    """Keys of one line: 1,048,576 code points."""
    folder.write("data", DATA)
    folder.write("line", "a" * POINTS)
    folder.table([([0x61], of_row(0, FULL))])
    bound = "a line of 1,048,576 code points"
    yield Run("32 elements for each code point", bound, "keys --identical table data", "line")
    keys = [[0x61] * length + [FAR + n] for length in range(1, 16) for n in range(ROWS // 15)]
    folder.table((points, LETTER) for points in [[0x61]] + keys)
    yield Run("a walk of 15 edges in vain at each, beside 13,333 others", bound, "keys table data", "line")
    marks = [MARKS + n for n in range(64)]
    folder.write("data", [DATA] + ["ccc %X..%X %d\n" % (mark, mark, n + 1) for n, mark in enumerate(marks)])
    folder.write("line", ("a" + "".join(map(chr, marks))) * (POINTS // 65))
    folder.table(([first, FAR + n], LETTER) for first in [0x61] + marks for n in range(3000))
    yield Run("64 marks after each letter, each tried after each in vain", bound, "keys table data", "line")
    folder.table((points, LETTER) for first in range(48) for points in [[0x61] + marks[first : first + length] for length in range(1, 16)])
    yield Run("64 marks after each letter, keys of 15 of them", bound, "keys table data", "line")
    folder.write("line", ("a" + OUT_OF_ORDER * 16) * (POINTS // 65))
    yield Run("64 marks after each letter, out of order", bound, "keys table data", "line")


def compacting(folder):
    """Compact keys of one line: runs of common weights, which other weights end."""
    folder.write("data", DATA)
    folder.write("book", "@book 1\n")
    folder.table([([0x61], LETTER), ([0x62], element(0x101, 0x24, 8))])
    for name, text in (("one run", "a" * (POINTS - 1) + "b"), ("runs of 100", ("a" * 100 + "b") * (POINTS // 101)), ("no runs", "b" * POINTS)):
        folder.write("line", text)
        yield Run(name + " of common weights", "a line of 1,048,576 code points", "keys --compact book table data", "line")


def ranges(folder):
    """Keys of one line whose code points have no rows, over the greatest data files; and lines that are rejected."""
    lines = one_in_each("ccc", FAR, " 230") + one_in_each("core", FAR) + one_in_each("other", FAR + 0x4000)
    folder.write("data", [DATA] + lines)
    leads = ("@implicitweights %04X..%04X; FB%02X\n" % (FAR + 2 * n, FAR + 2 * n, n % 64) for n in range(0xC000, 0xC100))
    folder.write("table", [HEAD, *leads, "0061 ; " + LETTER + "\n"])
    for name, first in (("in no range", MARKS), ("in ranges of Han", FAR + 0x4000), ("in ranges of the table", FAR + 0x18000)):
        folder.write("line", "".join(chr(first + 2 * (n % 250)) for n in range(POINTS)))
        yield Run("code points " + name, "a line of 1,048,576 code points, 12,288 ranges of data, 256 of the table", "keys table data", "line")
    folder.write("data", DATA + "ccc 0300..0345 230\n")
    for name, bound, text, ending in (
        ("Hangul syllables", "a line of 1,048,575 jamo", "".join(map(chr, range(0xAC01, 0xAC1C))) * (POINTS // 81), ""),
        ("marks alone, out of order", "a line of 1,048,576 code points", OUT_OF_ORDER * (POINTS // 4), "input line 1: LongRun at 0"),
        ("marks alone, out of order", "a line of 4,194,304 bytes", OUT_OF_ORDER * (POINTS // 2), "input line 1: TooLong"),
        ("code points that decompose into four", "a line of 4,194,304 bytes", "\u1f82" * (POINTS * 4 // 3), "input line 1: TooLong"),
    ):
        folder.write("line", text)
        yield Run(name, bound, "keys table data", "line", ending)


def sorting(folder):
    numbers = random.Random(1)
    folder.write("data", DATA)
    folder.table([([0x61 + n], LETTER) for n in range(26)] + [([0x41 + n], element(0x100, 0x20, 8)) for n in range(26)])
    folder.write("lines", ("".join(chr(0x61 + numbers.randrange(26)) for _ in range(10)) + "\n" for _ in range(LINES)))
    yield Run("lines of ten letters that weigh the same", "1,000,000 lines", "sort --identical table data", "lines")
    folder.write("lines", ("a" * 80 + "".join("aA"[number >> place & 1] for place in range(20)) + "\n" for number in reversed(range(LINES))))
    yield Run("lines of 100 letters that differ in the case of the last 20", "1,000,000 lines", "sort table data", "lines")
    folder.write("lines", ("a" * (POINTS - 20) + "".join("aA"[number >> place & 1] for place in range(20)) + "\n" for number in range(100)))
    yield Run("100 lines of 1,048,576 such letters", "memory (1,000,000 lines may be so long)", "sort table data", "lines")


def comparing(folder):
    """Compared texts as arguments, by code points of one byte. No table has to be well-formed here."""
    folder.write("data", DATA)
    kinds = [element(1, 0, 0), element(0, 1, 0), element(0, 0, 1)]
    folder.table([([0x61], of_row(0, FULL))] + [([0x62 + n], kind * 32) for n, kind in enumerate(kinds)])
    third = WORD_BYTES // 3
    for name, left, right in (
        ("equal texts, 32 elements for each code point", "a" * WORD_BYTES, "a" * WORD_BYTES),
        ("weights of three levels in opposite orders", "b" * third + "c" * third + "d" * third, "d" * third + "c" * third + "b" * third),
        ("weights of three levels, after one another or in turn", "b" * third + "c" * third + "d" * third, "dcb" * third),
    ):
        yield Run(name, "texts of 131,071 bytes (Linux)", "compare --identical table data %s %s" % (left, right))


def rules(folder):
    folder.write("data", DATA)
    folder.table([([0x61], LETTER)])
    far, same, every = [chr(FAR + n) for n in range(3 * RELATIONS)], chr(MARKS) * 15, range(RELATIONS)
    last = "".join("&%s%s<%s%s/%s%s" % (same, far[n], same, far[n + RELATIONS], same, far[n + 2 * RELATIONS]) for n in every)
    first = "".join("&%s%s<%s%s/%s%s" % (far[n], same, far[n + RELATIONS], same, far[n + 2 * RELATIONS], same) for n in every)
    chain = "".join("&%s%s<%s%s" % (far[n] if n else "a", same if n else "", far[n + 1], same) for n in every[:-1])
    for name, text, ending in (
        ("5,000 relations of three texts of 16 that differ in the last", last, "tailor relation 1: Anchor"),
        ("5,000 relations of three texts of 16 that differ in the first", first, "tailor relation 1: Anchor"),
        ("each anchor is a target, and the last target is in each", chain + "&a<" + same, ""),
        ("a range of 327,681 code points", "&a<*\\U00040000-\\U00090000", "rules byte 14: Limit"),
        ("5,000 code points of a range", "&a<*\\U00040000-\\U00041387", ""),
        ("a comment", "#" * POINTS, ""),
        ("a text that decomposes into fourfold", "&" + "\u1f82" * (POINTS // 3), "rules byte 1: Limit"),
    ):
        folder.write("rules", text)
        yield Run(name, "1,048,576 bytes of rules", "tailor table data rules made", None, ending)


def split(made):
    """The lines of this certificate with one run for each weight."""
    with open(made, encoding="utf-8") as lines:
        for level, first, to, count in map(str.split, lines):
            yield from ("%s %04X %04X 0001\n" % (level, int(first, 16) + n, int(to, 16) + n) for n in range(int(count, 16)))


def planned(folder, level, sign, long, name):
    """A base of letters and long keys, with as many weights as leave room for the targets; and each weight a run of the certificate."""
    bound, letters = "200,000 rows, 5,000 relations, all weights of the three levels", 16384
    room = [0x7FFF, 0xFFFF, 0xFFFF]
    room[level - 1] -= RELATIONS
    weights = in_turn(*room)
    single = [([FAR + n], element(1 + n)) for n in range(letters)]
    folder.table(single + [(long(n), of_row(n, weights)) for n in range(letters, ROWS - RELATIONS)])
    anchors = ["".join(chr(FAR + (n + place) % letters) for place in range(1, 17)) for n in range(RELATIONS)]
    texts = ((anchor, sign, chr(TARGETS) * 15 + chr(TARGETS + n), anchor) for n, anchor in enumerate(anchors))
    folder.write("rules", ("&%s%s%s/%s" % text for text in texts))
    yield Run(name, bound, "tailor table data rules made")
    shutil.move(folder.name("out"), folder.name("tailored"))
    folder.write("certificate", split(folder.name("made")))
    yield Run("the same, each run of one weight", bound + ", each a run", "audit table data rules tailored certificate")


def tailorings(folder):
    """Lists of weights that the new ones fill. In the last pair condition 5 also looks for the front of each of 178,615 keys."""
    folder.write("data", DATA)
    for level, sign in ((1, "<"), (2, "<<"), (3, "<<<")):
        yield from planned(folder, level, sign, lambda n: [FAR] * 15 + [FAR + n], "texts of 16 code points, level %d" % level)
    folder.write("data", DATA + "ccc %X..10FFFF 230\n" % MARKS)
    last = ROWS - RELATIONS - 1
    fronted = lambda n: [FAR] * 15 + [MARKS + n] * (n < last)
    yield from planned(folder, 2, "<<", fronted, "texts of 16 code points, level 2, and 178,615 keys with one front, in the base's last row")


def far_weights(folder):
    """New weights as far from their anchors as may be: conditions 10 and 11 look at each weight between."""
    folder.write("data", DATA)
    rows = [([FAR + n] * 15, element(1) * 32) for n in range(1, ROWS - RELATIONS)] + [([FAR], element(1))]
    new = [([MARKS + n], element(1, 0xFFFE - n)) for n in range(RELATIONS)]
    folder.table(rows)
    folder.table(rows + new, "tailored")
    folder.write("rules", "".join("&%s<<%s" % (chr(FAR), chr(MARKS + n)) for n in range(RELATIONS)))
    folder.write("certificate", "1 0001 0001 0001\n2 0020 0020 0001\n3 0002 0002 0001\n")
    yield Run("60,000 places between new weights and anchors", "200,000 rows, 5,000 relations", "audit table data rules tailored certificate")
    folder.table([([FAR], element(1))])
    folder.write("rules", "")
    full = ((level, weight) for level, last in ((1, 0x7FFF), (2, 0xFFFF), (3, 0xFFFF)) for weight in range(1, last + 1))
    folder.write("certificate", ("%d %04X %04X 0001\n" % (level, weight, weight) for level, weight in full))
    yield Run("a certificate of one run for each weight", "163,837 runs", "audit table data rules table certificate")
    folder.write("certificate", ("%d 0001 0001 0001\n" % level for level in (1, 2, 3) for _ in range(65535)))
    yield Run("a certificate of equal runs", "65,535 runs a level", "audit table data rules table certificate", None, "certificate line 2: Map NotRising")


GROUPS = (fronts, tries, lines_of_files, texts, compacting, ranges, sorting, comparing, rules, tailorings, far_weights)


def measured(binary, folder, run):
    """Wall and processor seconds, peak in KiB, and a complaint if the run ends otherwise than it has to."""
    words = run.words.split(" ")
    peak, done = [0], threading.Event()
    with open(folder.name(run.given) if run.given else os.devnull, "rb") as given, open(folder.name("out"), "wb") as out:
        out = out if words[0] == "tailor" else subprocess.DEVNULL
        start = time.perf_counter()
        child = subprocess.Popen([binary, *words], stdin=given, stdout=out, stderr=subprocess.PIPE, cwd=folder.path)
        watcher = threading.Thread(target=figures.peak_of, args=(child.pid, done, peak))
        watcher.start()
        said = child.stderr.read().decode("utf-8", "replace").partition("\nhelp: ")[0].strip()
        _, status, used = os.wait4(child.pid, 0)
        seconds = time.perf_counter() - start
        done.set()
        watcher.join()
    child.returncode = status
    processor, complaint = used.ru_utime + used.ru_stime, ""
    if said != run.ending or (status != 0) != bool(said):
        complaint = "   status %d, %s" % (os.waitstatus_to_exitcode(status), said)
    return seconds, processor, peak[0], complaint or ("   more than 30 seconds" if processor > 30 else "")


def main():
    parser = argparse.ArgumentParser(description=__doc__.split("\n")[0])
    parser.add_argument("--binary", default="crates/uca/out/uca", help="the program")
    parser.add_argument("--only", nargs="+", choices=[group.__name__ for group in GROUPS], help="these groups of shapes")
    options = parser.parse_args()
    failed, groups = False, [group for group in GROUPS if not options.only or group.__name__ in options.only]
    print("| Command | Shape | What bounds it | Wall, s | Processor, s | Peak, MB |\n|---|---|---|--:|--:|--:|", flush=True)
    for group in groups:
        with tempfile.TemporaryDirectory() as path:
            folder = Folder(path)
            for run in group(folder):
                seconds, processor, peak, complaint = measured(os.path.abspath(options.binary), folder, run)
                row = (run.words.split(" ")[0], run.name, run.bound, seconds, processor, peak / 1024, complaint)
                print("| `%s` | %s | %s | %.2f | %.2f | %.0f |%s" % row, flush=True)
                failed = failed or bool(complaint)
    sys.exit(1 if failed else 0)


if __name__ == "__main__":
    main()
