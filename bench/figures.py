#!/usr/bin/env python3
"""Measures the commands of `uca`: time and peak memory, by rows of the table and by lines.

    tools/build.py                 # proves and builds crates/uca/out/uca
    bench/figures.py               # from the top of the repository

The script makes its own inputs and needs nothing but Python:

- tables in the format of Unicode's allkeys.txt, with `@implicitweights` lines, comments and empty
  lines: by default 33,000 rows (2 MB) and 200,000 rows. Those past the 33,000th or so are
  contractions of two letters. Eighty keys have three code points and end in a non-starter, each
  directly after its key of two, as in Unicode's table;
- a data file with the combining classes and the Han ranges of Python's edition of Unicode;
- lines of four kinds: latin (words with precomposed accents), ascii, mixed (six scripts and emoji)
  and marks (letters with up to eight combining marks, in any order);
- lines of ten letters.

It prints three tables:

- check: `uca check` of each table, beside `uca keys` of no lines over it, which reads the same files and
  builds the trie. It is done again for the same rows in a random order. With `--worst N` there is also a
  table of N rows. Each but the last has a long key whose shorter one is in the last row, so the check
  goes over all rows once for each 4,096 of them;
- sort: `uca sort` of lines of ten letters over a table of 27 rows, beside `uca keys` of the same;
- keys: `uca keys` of each kind of lines.

Every number is drawn from a fixed seed, so that two runs measure the same work. A run counts only if
its status is 0 and it wrote what its command writes: one line for each line that it read, or one verdict.
Time is wall time from start to end, reading of the table included. Peak memory is the greatest
resident set (VmHWM) seen by looking every millisecond; a run shorter than that shows none.

Times of two machines, or of one machine at two moments, do not compare: compare rows of one output.
"""

import argparse
import os
import platform
import random
import subprocess
import sys
import tempfile
import threading
import time
import unicodedata

KINDS = ("latin", "ascii", "mixed", "marks")


# ---- Tables


def is_han(point):
    name = unicodedata.name(chr(point), "")
    return name.startswith("CJK UNIFIED IDEOGRAPH-")


def listed_points():
    """The assigned code points that a table lists: no Han, Hangul syllables, Tangut or private use."""
    for point in range(0x20, 0x30000):
        character = chr(point)
        if unicodedata.category(character) in ("Cn", "Cs", "Co") or is_han(point):
            continue
        if 0xAC00 <= point <= 0xD7A3 or 0x17000 <= point <= 0x18D08 or 0x1B170 <= point <= 0x1B2FF:
            continue
        yield point


def element(primary, secondary, tertiary, variable=False):
    return "[%s%04X.%04X.%04X]" % ("*" if variable else ".", primary, secondary, tertiary)


def elements_of_points(points):
    """One element a code point, and for a character that decomposes those of its parts."""
    elements = {}
    primary = 0x0209
    for point in points:
        character = chr(point)
        category = unicodedata.category(character)
        if category == "Cc" or category == "Cf":
            elements[point] = element(0, 0, 0)
        elif unicodedata.combining(character) != 0:
            elements[point] = element(0, 0x0021 + point % 0x0200, 2)
        else:
            tertiary = 8 if category == "Lu" else 2
            elements[point] = element(primary, 0x0020, tertiary, variable=primary < 0x1C00)
            primary = min(primary + 1, 0x7FFF)
    whole = {}
    for point in points:
        parts = [ord(part) for part in unicodedata.normalize("NFD", chr(point))]
        whole[point] = "".join(elements.get(part, elements[point]) for part in parts)
    return whole


def contractions(points, count, numbers, taken):
    """Distinct pairs of letters that are not taken, each a key of a row."""
    letters = [p for p in points if unicodedata.category(chr(p)).startswith("L")]
    pairs = set()
    while len(pairs) < count:
        pair = (numbers.choice(letters), numbers.choice(letters))
        if pair not in taken:
            pairs.add(pair)
    return sorted(pairs)


LONG_KEYS = 80


def long_keys(points):
    """Rows of keys of two letters, each followed by the row of the same key and an accent."""
    letters = [p for p in points if unicodedata.category(chr(p)) == "Lo"]
    for first, second in zip(letters[:LONG_KEYS], letters[1:]):
        own = element(0x7000, 0x0020, 2)
        yield "%04X %04X ; %s # contraction" % (first, second, own)
        yield "%04X %04X 0301 ; %s # contraction" % (first, second, own)


def table_text(rows, seed=1):
    """A table of that many rows, with the head, the comments and the layout of allkeys.txt."""
    numbers = random.Random(seed)
    points = list(listed_points())[: rows - 2 * LONG_KEYS]
    text = [
        "# A table in the format of allkeys.txt, made by bench/figures.py",
        "#",
        "@version %s" % unicodedata.unidata_version,
        "",
        "@implicitweights 17000..18AFF; FB00 # Tangut and Tangut Components",
        "@implicitweights 18D00..18D8F; FB00 # Tangut Supplement",
        "@implicitweights 1B170..1B2FF; FB01 # Nushu",
        "@implicitweights 18B00..18CFF; FB02 # Khitan Small Script",
        "",
    ]
    elements = elements_of_points(points)
    for point in points:
        name = unicodedata.name(chr(point), "<control>")
        text.append("%04X  ; %s # %s" % (point, elements[point], name))
    long = list(long_keys(points))
    text.extend(long)
    taken = {tuple(int(word, 16) for word in row.split(" ;")[0].split(" ")) for row in long}
    for pair in contractions(points, rows - len(points) - len(long), numbers, taken):
        own = element(numbers.randrange(0x1C00, 0x8000), 0x0020, 2)
        text.append("%04X %04X ; %s # contraction" % (pair[0], pair[1], own))
    return "".join(line + "\n" for line in text)


def worst_table_text(rows):
    """Every row but the last has a long key, and the shorter key of them all is that of the last row."""
    own = element(0x2000, 0x0020, 2)
    text = ["@version 1"]
    text.extend("0061 0062 %04X ; %s" % (0x20000 + number, own) for number in range(rows - 1))
    text.append("0061 0062 ; %s" % own)
    return "".join(line + "\n" for line in text)


def shuffled_text(table, seed=4):
    """The same table with its rows in a random order."""
    with open(table, encoding="utf-8") as file:
        lines = file.readlines()
    head = [line for line in lines if line[0] in "@#\n"]
    rows = [line for line in lines if line[0] not in "@#\n"]
    random.Random(seed).shuffle(rows)
    return "".join(head + rows)


WORST_DATA = "@data 1\nccc 20000..5FFFF 230\n"


def letters_table_text():
    """A space and the letters a to z."""
    text = ["@version 1", "0020 ; [*0209.0020.0002]"]
    text.extend("%04X ; %s" % (0x61 + n, element(0x1C00 + n, 0x0020, 2)) for n in range(26))
    return "".join(line + "\n" for line in text)


# ---- The data file


def ranges(value_of):
    """Ranges of code points with one value that is not false: first, last, value."""
    first = value = None
    for point in range(0x110001):
        here = None
        if point < 0x110000 and not 0xD800 <= point <= 0xDFFF:
            here = value_of(point) or None
        if here != value:
            if value is not None:
                yield first, point - 1, value
            first, value = point, here


def is_core_block(point):
    return 0x4E00 <= point <= 0x9FFF or 0xF900 <= point <= 0xFAFF


def data_text():
    text = ["@data 1"]
    for first, last, number in ranges(lambda point: unicodedata.combining(chr(point))):
        text.append("ccc %04X..%04X %d" % (first, last, number))
    for word, core in (("core", True), ("other", False)):
        for first, last, _ in ranges(lambda point: is_han(point) and is_core_block(point) == core):
            text.append("%s %04X..%04X" % (word, first, last))
    return "".join(line + "\n" for line in text)


# ---- Lines


LETTERS = "etaoinsrhldcumfpgwybvkxjqz"
ACCENTED = "áàâäãåçéèêëíîïñóôöõúùûüýšžčřłőű"
MARKS = "\u0300\u0301\u0302\u0303\u0308\u030a\u030c\u0323\u0327\u0328\u0331\u0345"
SCRIPTS = (
    (0x0391, 0x03C9),
    (0x0410, 0x044F),
    (0x3042, 0x3093),
    (0x4E00, 0x9FA5),
    (0xAC00, 0xD7A3),
    (0x1F600, 0x1F64F),
)


def ascii_word(numbers):
    length = numbers.randrange(2, 10)
    word = "".join(LETTERS[min(numbers.randrange(26), numbers.randrange(26))] for _ in range(length))
    return word.capitalize() if numbers.random() < 0.2 else word


def latin_word(numbers):
    word = ascii_word(numbers)
    return "".join(numbers.choice(ACCENTED) if numbers.random() < 0.1 else c for c in word)


def mixed_word(numbers):
    if numbers.random() < 0.3:
        return latin_word(numbers)
    first, last = numbers.choice(SCRIPTS)
    count = numbers.randrange(1, 8)
    points = (numbers.randrange(first, last + 1) for _ in range(count))
    return "".join(chr(p) for p in points if unicodedata.category(chr(p)) != "Cn")


def marks_word(numbers):
    word = []
    for letter in ascii_word(numbers):
        word.append(letter)
        word.extend(numbers.choice(MARKS) for _ in range(numbers.randrange(9)))
    return "".join(word)


WORDS = {"latin": latin_word, "ascii": ascii_word, "mixed": mixed_word, "marks": marks_word}


def lines_text(kind, count, seed=2):
    numbers = random.Random("%d %s" % (seed, kind))
    word = WORDS[kind]
    lines = (" ".join(word(numbers) for _ in range(numbers.randrange(1, 9))) for _ in range(count))
    return "".join(line + "\n" for line in lines)


# ---- Running


def peak_of(pid, done, peak):
    """Looks at the greatest resident set of a process until it is done."""
    while not done.is_set():
        try:
            with open("/proc/%d/status" % pid) as status:
                for line in status:
                    if line.startswith("VmHWM:"):
                        peak[0] = max(peak[0], int(line.split()[1]))
        except OSError:
            return
        done.wait(0.001)


def run(binary, words, lines, out, limit):
    """Seconds, peak in KiB and a complaint, which is None where the run counts."""
    peak, done = [0], threading.Event()
    with open(lines, "rb") as source, open(out, "wb") as sink:
        start = time.perf_counter()
        child = subprocess.Popen([binary] + words, stdin=source, stdout=sink, stderr=subprocess.PIPE)
        watcher = threading.Thread(target=peak_of, args=(child.pid, done, peak))
        watcher.start()
        try:
            _, said = child.communicate(timeout=limit)
            complaint = None if child.returncode == 0 else "status %d: %s" % (child.returncode, said.decode("utf-8", "replace").strip())
        except subprocess.TimeoutExpired:
            child.kill()
            child.communicate()
            complaint = "stopped after %g s" % limit
        seconds = time.perf_counter() - start
        done.set()
        watcher.join()
    return seconds, peak[0], complaint


def run_lines(binary, words, lines, out, limit):
    """The same for a command that writes one line for each line that it reads."""
    seconds, peak, complaint = run(binary, words, lines, out, limit)
    if complaint is None:
        with open(lines, "rb") as read, open(out, "rb") as written:
            wanted, found = sum(1 for _ in read), sum(1 for _ in written)
        if wanted != found:
            complaint = "%d lines for %d" % (found, wanted)
    return seconds, peak, complaint


def write(folder, name, text):
    path = os.path.join(folder, name)
    with open(path, "w", encoding="utf-8", newline="\n") as file:
        file.write(text)
    return path


class Report:
    """Prints rows, and remembers whether a run did not count."""

    def __init__(self):
        self.failed = False

    def head(self, title, form, names):
        self.form = form
        print("\n%s\n" % title + form % names, flush=True)

    def row(self, values, *complaints):
        said = [complaint for complaint in complaints if complaint is not None]
        print(self.form % values + "".join("   " + complaint for complaint in said), flush=True)
        self.failed = self.failed or bool(said)


def measure_check(options, folder, tables, data, report):
    empty, out = write(folder, "empty", ""), os.path.join(folder, "out")
    report.head("check", "%8s %10s %10s %10s %10s %10s", ("rows", "table, MB", "start, s", "peak, MB", "shuffled", "check, s"))
    cases = [(rows, table, data) for rows, table in tables.items()]
    for rows in options.worst:
        cases.append((rows, write(folder, "worst-%d" % rows, worst_table_text(rows)), write(folder, "worst-data", WORST_DATA)))
    for rows, table, properties in cases:
        shuffled = write(folder, "shuffled", shuffled_text(table))
        start, peak, first = run(options.binary, ["keys", table, properties], empty, out, options.limit)
        other, _, second = run(options.binary, ["keys", shuffled, properties], empty, out, options.limit)
        seconds, _, third = run(options.binary, ["check", table, properties], empty, out, options.limit)
        sizes = ("%.1f" % (os.path.getsize(table) / 1e6), "%.3f" % start, "%.1f" % (peak / 1024))
        report.row((rows,) + sizes + ("%.3f" % other, "%.3f" % seconds), first, second, third)


def measure_sort(options, folder, data, report):
    table, out = write(folder, "letters", letters_table_text()), os.path.join(folder, "out")
    numbers = random.Random(3)
    report.head("sort", "%8s %10s %10s %10s %10s", ("lines", "input, MB", "keys, s", "sort, s", "peak, MB"))
    for count in options.sorted:
        text = "".join("".join(numbers.choice(LETTERS) for _ in range(10)) + "\n" for _ in range(count))
        lines = write(folder, "ten-%d" % count, text)
        keys, _, first = run_lines(options.binary, ["keys", table, data], lines, out, options.limit)
        seconds, peak, second = run_lines(options.binary, ["sort", table, data], lines, out, options.limit)
        with open(out, encoding="utf-8") as written:
            if second is None and written.read() != "".join(sorted(text.splitlines(keepends=True))):
                second = "not sorted"
        report.row((count, "%.2f" % (len(text) / 1e6), "%.3f" % keys, "%.3f" % seconds, "%.1f" % (peak / 1024)), first, second)


def measure_keys(options, folder, tables, data, report):
    empty, out = write(folder, "empty", ""), os.path.join(folder, "out")
    inputs = {(kind, count): write(folder, "%s-%d" % (kind, count), lines_text(kind, count)) for kind in options.kinds for count in options.lines}
    report.head("keys", "%8s %10s %8s %8s %10s %10s %10s", ("rows", "table, MB", "text", "lines", "input, MB", "seconds", "peak, MB"))
    for rows, table in tables.items():
        series = [("-", 0, empty)] + [(kind, count, inputs[kind, count]) for kind in options.kinds for count in options.lines]
        for kind, count, lines in series:
            seconds, peak, complaint = run_lines(options.binary, ["keys", table, data], lines, out, options.limit)
            sizes = (os.path.getsize(table) / 1e6, os.path.getsize(lines) / 1e6)
            report.row((rows, "%.1f" % sizes[0], kind, count, "%.2f" % sizes[1], "%.3f" % seconds, "%.1f" % (peak / 1024)), complaint)


def measure(options, folder):
    data = write(folder, "data", data_text())
    tables = {rows: write(folder, "table-%d" % rows, table_text(rows)) for rows in options.rows}
    report = Report()
    measure_check(options, folder, tables, data, report)
    measure_sort(options, folder, data, report)
    if options.lines:
        measure_keys(options, folder, tables, data, report)
    return report.failed


def numbers_of(text):
    return [int(word) for word in text.split(",") if word]


def main():
    top = os.path.dirname(os.path.dirname(os.path.abspath(__file__)))
    parser = argparse.ArgumentParser(description=__doc__.split("\n")[0])
    parser.add_argument("--binary", default=os.path.join(top, "crates", "uca", "out", "uca"))
    parser.add_argument("--rows", type=numbers_of, default=[33000, 200000], help="rows of the tables, as 33000,200000")
    parser.add_argument("--lines", type=numbers_of, default=[10000, 100000], help="lines of the inputs of keys, as 10000,100000; none where it is empty")
    parser.add_argument("--sorted", type=numbers_of, default=[100000], help="lines that are sorted, as 100000")
    parser.add_argument("--worst", type=numbers_of, default=[], help="rows of the worst tables for check, as 10000,20000")
    parser.add_argument("--kinds", type=lambda text: text.split(","), default=list(KINDS), help="kinds of lines: " + ", ".join(KINDS))
    parser.add_argument("--limit", type=float, default=120, help="seconds after which a run is stopped")
    parser.add_argument("--keep", help="a folder to make the inputs in, which is kept")
    options = parser.parse_args()
    print("%s, %d cores, Python %s, Unicode %s" % (platform.platform(), os.cpu_count(), platform.python_version(), unicodedata.unidata_version))
    if options.keep:
        os.makedirs(options.keep, exist_ok=True)
        failed = measure(options, options.keep)
    else:
        with tempfile.TemporaryDirectory() as folder:
            failed = measure(options, folder)
    sys.exit(1 if failed else 0)


if __name__ == "__main__":
    main()
