#!/usr/bin/env python3
"""Tries examples/books/choose_book.py, the book of that folder, and the books that languages/table_books.py makes for the tables of languages.

    tests/by_hand/books.py               from the top of the repository (four minutes, on four processors)
    tests/by_hand/books.py Grek Thai     these scripts alone

It tries the cells that are chosen against all that there may be, for short levels. It runs the script over keys that are made here, and over keys that it
has to reject. Where the program has the command `compact`, that command has to read the books, and the lengths that the script expects have to be those of the
compact keys. Otherwise these checks are not run. It needs no package but Python. Where the packages are here that examples/books/README.md names, in those
editions, it makes general.book again.

For each script it makes the table of a language, and its book. Compact keys of real lines by them have to be at most as long as ICU4C's by the root collation. The
lines are those of CLDR's subdivisions and of iso-codes that the book was not chosen by. Where there are fewer than 100, the book is chosen by half of the lines, and the
others are measured. This needs unicode-data, unicode-cldr-core, gcc and libicu-dev.

The last line is `N passed, M failed`, and how many were not run if there are any.
"""
import argparse
import collections
import gettext
import glob
import hashlib
import itertools
import os
import random
import re
import subprocess
import sys
import tempfile
import time
import types
from concurrent.futures import ProcessPoolExecutor

TOP = os.path.dirname(os.path.dirname(os.path.dirname(os.path.realpath(__file__))))
BOOKS = f"{TOP}/examples/books"
SCRIPT, TABLE, DATA = f"{BOOKS}/choose_book.py", f"{TOP}/examples/table.txt", f"{TOP}/examples/data.txt"
COUNTS = {"passed": 0, "failed": 0, "not run": 0}

sys.dont_write_bytecode = True
sys.path[:0] = [BOOKS, f"{TOP}/languages"]

import choose_book  # noqa: E402
import packages  # noqa: E402
import table_books  # noqa: E402
from language_tables import table_of  # noqa: E402
from language_tags import read_tag  # noqa: E402
from languages import CLDR  # noqa: E402
from script_order import scripts  # noqa: E402
from unicode_files import FOLDER  # noqa: E402

OF_GENERAL = ["unicode-data", "iso-codes", "wamerican", *(name for name in packages.LISTS if name != "wamerican-large")]
OF_SCRIPTS = ["unicode-data", "unicode-cldr-core", "gcc", "libicu-dev"]
NEEDS, WANTS = [], list(dict.fromkeys(OF_GENERAL + OF_SCRIPTS))
# The SHA-256 of what general_lines.py prints, and of the table, by which general.book was chosen.
GENERAL_LINES, GENERAL_TABLE = "02ff4f8a90f1b18484ff0fe6b29d9b25634ebb5b4130d4bc156162b8c4e99069", "335df88b8159baa48567ded2c5756178815f4d7c3fd494f7a8c659d0ba51be3b"


def see(what, holds, said=""):
    """Counts a check, and prints it."""
    COUNTS["passed" if holds else "failed"] += 1
    print("%-4s %s%s" % ("ok" if holds else "NOT", what, f": {said}" if said else ""), flush=True)


# ---- The cheapest cells, against all others


def cost_of(counts, starts, end, span):
    """What weights take by cells that begin so, said again."""
    total = 0
    for start, after in zip(starts, [*starts[1:], end]):
        each = 1 if after == start + 1 else 2 if after - start <= span else 3
        total += each * sum(counts.get(weight, 0) for weight in range(start, after))
    return total


def least_costs(counts, end, span):
    """The least that weights take, by how many starts there are."""
    least = {}
    for count in range(end - 1):
        lists = ([1, *more] for more in itertools.combinations(range(2, end), count))
        least[count + 1] = min(cost_of(counts, starts, end, span) for starts in lists)
    return least


NUMBERS = ["SPAN", "ENDS", "MOST", "PRECISION"]


def try_cells():
    """Short levels: the cells that are chosen cost least among as many, and are no more than there may be."""
    kept, numbers, wrong = [getattr(choose_book, name) for name in NUMBERS], random.Random(4), []
    choose_book.PRECISION = 10**12
    for _ in range(60):
        end, span, most = numbers.randrange(3, 11), numbers.randrange(2, 5), numbers.randrange(0, 8)
        counts = {weight: numbers.choice((0, 1, 2, 50)) * numbers.randrange(1, 100) * 1_000_000 for weight in range(1, end)}
        choose_book.SPAN, choose_book.ENDS, choose_book.MOST = span, {1: end}, {1: most}
        starts = choose_book.choose(counts, 1)
        least = least_costs(counts, end, span)
        paid = cost_of(counts, starts, end, span)
        if len(starts) > most + 1 or starts[0] != 1 or paid != min(least[count] for count in range(1, len(starts) + 1)):
            wrong.append((counts, span, most, starts))
        if choose_book.bytes_of(counts, starts, 1) != paid:
            wrong.append(("bytes", counts, span, starts))
    for name, value in zip(NUMBERS, kept):
        setattr(choose_book, name, value)
    see("cells of short levels", not wrong, wrong[:1] or "60 levels, all cells of each")


# ---- The script over keys that are made here


def shifted_key(*words):
    """The shifted key of words of weights, with a blank between them: each weight is a letter."""
    letters = [weight for word in words for weight in word]
    fourth = [weight for word in words for weight in (*[0xFFFF] * len(word), 0x0209)][:-1]
    return [*letters, 0, *[0x20] * len(letters), 0, *[2] * len(letters), 0, *fourth]


def printed(keys):
    return "".join(" ".join(f"{weight:04X}" for weight in key) + "\n" for key in keys)


def choosing(text, *options, seed="0", table=TABLE):
    """What the script does with this input: status, book, and what it says."""
    text = text.encode() if isinstance(text, str) else text
    ran = subprocess.run([sys.executable, SCRIPT, *options, table], input=text, capture_output=True, check=False, env={**os.environ, "PYTHONHASHSEED": seed})
    return ran.returncode, ran.stdout.decode(), ran.stderr.decode()


def starts_of(book):
    """The starts of each level of a book's text; none where it is no such text."""
    lines = book.split("\n")
    if lines[0] != "@book 1" or lines[-1] or not all(re.fullmatch("[14] [0-9A-F]{4}", line) for line in lines[1:-1]):
        return None
    if sorted(lines[1:-1], key=lambda line: line[0]) != lines[1:-1]:
        return None
    return {level: [int(line[2:], 16) for line in lines[1:-1] if line[0] == level] for level in "14"}


def is_book(text):
    """Whether a text is a book: each level rises after 1 to its greatest weight, and has no start too many."""
    starts = starts_of(text)
    if not starts:
        return False
    rising = all(low < high for it in starts.values() for low, high in zip([1, *it], it))
    return rising and len(starts["1"]) <= 245 and len(starts["4"]) <= 255 and all(it <= 0xFFFE for it in starts["4"])


def random_keys(count, letters):
    """Made keys of one to four words, over so many letters. Some are frequent."""
    numbers = random.Random(11)
    pool = numbers.sample(range(0x0100, 0x10000), letters)
    word = lambda: [pool[min(numbers.randrange(letters), numbers.randrange(letters))] for _ in range(numbers.randrange(1, 9))]
    return [shifted_key(*(word() for _ in range(numbers.randrange(1, 5)))) for _ in range(count)]


def try_books():
    """Books of made keys."""
    few = [shifted_key([0x1C47, 0x1C60]), shifted_key([0x1C47], [0x1C47]), shifted_key()]
    status, book, said = choosing(printed(few))
    starts = starts_of(book) or {"1": [], "4": []}
    see("two letters and a blank have cells of their own", {0x1C47, 0x1C48, 0x1C60, 0x1C61} <= {*starts["1"]} and {0x0209, 0x020A} <= {*starts["4"]}, said.strip())
    # level 1: four letters and three ends are 7 bytes; level 4: the run and the cell of one blank, and an end, are 3
    see("the mean bytes of these keys", said == "3 keys, mean bytes a key: level 1 2.33, level 4 1.00\n" and status == 0, said.strip())
    for letters in (20, 300, 30_000):
        keys = random_keys(3000, letters)
        runs = [choosing(printed(it), seed=seed) for it, seed in ((keys, "1"), (keys, "2"), (keys[::-1], "3"))]
        see(f"a book of {letters} letters", all(status == 0 and is_book(book) for status, book, _ in runs), runs[0][2].strip())
        see("the book does not depend on the run, or on the order of the keys", len(set(runs)) == 1)
        if letters == 300:
            count = len((starts_of(runs[0][1]) or {"1": []})["1"])
            see("it has nearly as many starts of level 1 as it may have", 240 <= count <= 245, f"{count} starts")


def try_inputs():
    """Other spellings of the same keys, and other weightings."""
    keys = random_keys(200, 40)
    plain = printed(keys)
    wanted = choosing(plain)
    joined = plain.replace(" ", "")
    header = "#uca keys 1 shifted weights " + "0" * 64 + "\n"
    spellings = {
        "of keys --lines": joined.replace("\n", "\tA line\twith a tab\n"),
        "with a header": header + joined.replace("\n", "\t\n"),
        "of keys --identical": plain.replace("\n", " 0000 000061 010000\n"),
        "without a last LF": plain[:-1],
        "in lower case": plain.lower(),
    }
    for name, text in spellings.items():
        see(f"the same book by the keys {name}", choosing(text) == wanted)
    three = "".join(line.rsplit(" 0000 ", 1)[0] + "\n" for line in plain.splitlines() if line.count(" 0000") == 3)
    status, book, said = choosing(three, "--weighting", "non-ignorable")
    see("a book of non-ignorable keys", status == 0 and is_book(book) and not starts_of(book)["4"], said.strip())
    status, book, said = choosing(plain, "--weighting", "both")
    starts = starts_of(book) or {"1": [], "4": []}
    see("a book of both weightings has the blank at both levels", {0x0209, 0x020A} <= {*starts["1"]} & {*starts["4"]} and is_book(book), said.strip())


def try_errors():
    """What is rejected, each with one sentence and no book."""
    key = printed([shifted_key([0x1C47])])
    header = "#uca keys 1 shifted weights " + "0" * 64 + "\n"
    cases = {
        "no keys": ("", [], TABLE, "standard input: there are no keys."),
        "a header alone": (header, [], TABLE, "standard input: there are no keys."),
        "a text in place of a key": (f"{key}abc\n", [], TABLE, "standard input, line 2: this is no key of the weighting shifted."),
        "an empty line": (f"{key}\n{key}", [], TABLE, "standard input, line 2: "),
        "bytes that are no text": (b"\xff\n", [], TABLE, "standard input, line 1: "),
        "a key with too few levels": ("1C47 0000 0020 0000 0002\n", [], TABLE, "standard input, line 1: "),
        "a header of another weighting": (header, ["--weighting", "non-ignorable"], TABLE, "standard input: the header names the weighting shifted."),
        "a header after the first line": (key + header, [], TABLE, "standard input, line 2: "),
        "no table": (key, [], f"{TOP}/none.txt", f"{TOP}/none.txt: No such file or directory"),
        "a folder as the table": (key, [], BOOKS, f"{BOOKS}: Is a directory"),
        "a table without rows": (key, [], DATA, f"{DATA}: this is no table: it has no rows with weights."),
    }
    for name, (text, options, table, begin) in cases.items():
        status, book, said = choosing(text, *options, table=table)
        see(f"rejected: {name}", status == 1 and not book and said.startswith(begin) and said.count("\n") == 1, said.strip())
    status, book, said = choosing(key, "--weighting", "other")
    see("rejected: another weighting", status == 2 and not book and "invalid choice: 'other'" in said)
    for word in ("0", "-1", "1.5", "x", ""):
        status, book, said = choosing(key, "--others", word)
        see(f"rejected: --others {word}", status == 2 and not book and "not a number from 1 on" in said or "expected one argument" in said)


def try_time():
    """100,000 keys of some twenty letters."""
    text, begun = printed(random_keys(2000, 200)) * 50, time.perf_counter()
    status = choosing(text)[0]
    seconds = time.perf_counter() - begun
    see("100,000 keys in less than a minute", status == 0 and seconds < 60, f"{seconds:.1f} s, {len(text):,} bytes")


# ---- general.book


def not_run(what):
    COUNTS["not run"] += 1
    print(f"not run: {what}", flush=True)


def try_general(program, folder):
    """The book of the folder, and whether its commands make it again from the packages that they name."""
    with open(f"{BOOKS}/general.book", encoding="utf-8") as file:
        general = file.read()
    see("general.book is a book", is_book(general))
    if lacking := packages.missing(OF_GENERAL):
        not_run(f"general.book is not made again, for lack of Debian's {', '.join(lacking)}")
        return
    run = lambda *words: subprocess.run([sys.executable, *words], stdout=subprocess.PIPE, check=True).stdout
    lines = run(f"{BOOKS}/general_lines.py")
    halves = [run(f"{BOOKS}/general_lines.py", it).splitlines() for it in ("--odd", "--even")]
    see("the odd and the even lines are all lines", [lines.splitlines()[at::2] for at in (0, 1)] == halves)
    table, data = (run(f"{TOP}/languages/unicode_files.py", it) for it in ("table", "data"))
    if [hashlib.sha256(it).hexdigest() for it in (lines, table)] != [GENERAL_LINES, GENERAL_TABLE]:
        not_run("general.book is not made again: the packages are of other editions")
        return
    for name, content in (("table", table), ("data", data)):
        with open(f"{folder}/{name}", "wb") as file:
            file.write(content)
    keys = subprocess.run([program, "keys", f"{folder}/table", f"{folder}/data"], input=lines, stdout=subprocess.PIPE, check=True).stdout
    status, book, said = choosing(keys, "--weighting", "both", "--others", "100", table=f"{folder}/table")
    see("general.book is made again", status == 0 and book == general, said.strip())


# ---- The program

LINES = ["a", "b", "ab", "ba", "cab", "a b", "c-h", "a-b c", "ch", "d", "dab", "hab", "", "bach", "bad a"]


def compact_keys(rows):
    """The keys of lines with keys, as bytes, and what comes after each."""
    return [(bytes.fromhex(key.decode()), rest) for key, _, rest in (row.partition(b"\t") for row in rows.splitlines())]


def try_program(program, folder):
    """The command `compact` by the books, and the command `expand` back from that."""
    if subprocess.run([program, "compact", "--help"], capture_output=True, check=False).returncode:
        not_run("the program has no command compact")
        return
    run = lambda *words, given: subprocess.run([program, *words], input=given, capture_output=True, check=False).stdout
    text, own = "".join(f"{line}\n" for line in LINES).encode(), f"{folder}/own.book"
    for weighting in ("shifted", "non-ignorable"):
        keys = run("keys", "--lines", "--weighting", weighting, TABLE, DATA, given=text)
        _, book, said = choosing(keys, "--weighting", weighting)
        with open(own, "w", encoding="utf-8") as file:
            file.write(book)
        for name, path in (("a chosen book", own), ("general.book", f"{BOOKS}/general.book")):
            made = run("compact", "--weighting", weighting, path, given=keys)
            see(f"{weighting}: the keys come back by {name}", made.count(b"\n") == len(LINES) and run("expand", "--weighting", weighting, path, given=made) == keys)
            order = [[rest for _, rest in sorted(compact_keys(rows), key=lambda row: row[0])] for rows in (keys, made)]
            see(f"{weighting}: their order stays by {name}", order[0] == order[1])
            if path == own:
                total = sum(len(key) for key, _ in compact_keys(made))
                expected = sum(int(it.replace(".", "")) for it in re.findall(r"level \d ([0-9.]+)", said))
                what = f"{total} bytes in {len(LINES)} keys; {said.strip()}"
                see(f"{weighting}: they take as many bytes as were expected", abs(100 * total - expected * len(LINES)) <= len(LINES), what)


# ---- The books of languages, beside ICU

# A language of each script, by whose table and book its lines are measured. Zyyy are lines of numbers and signs alone.
LANGUAGES = dict(Adlm="ff-Adlm", Arab="fa", Armn="hy", Beng="bn", Cakm="ccp", Cher="chr", Cyrl="ru", Deva="hi", Ethi="am", Geor="ka", Grek="el")
LANGUAGES |= dict(Gujr="gu", Guru="pa", Hang="ko", Hani="zh", Hebr="he", Jpan="ja", Khmr="km", Knda="kn", Laoo="lo", Latn="de", Mlym="ml", Mymr="my")
LANGUAGES |= dict(Olck="sat", Orya="or", Sinh="si", Taml="ta", Telu="te", Tfng="zgh", Thai="th", Tibt="dz", Vaii="vai", Zyyy="und")
# How many lines of a script are measured, and how few are too few.
MOST_LINES, FEWEST_LINES = 1_500, 100


class Setup(types.SimpleNamespace):
    """The program, CLDR's and Unicode's files, Unicode's table and data file, ICU's program, a folder for other files, and the script of each character."""


def script_of(setup, line):
    """The script of most letters of a line. One with kana is Japanese."""
    found = collections.Counter(setup.scripts.get(ord(it)) for it in line)
    found = collections.Counter({script: count for script, count in found.items() if script not in (None, "Zyyy", "Zinh")})
    return "Jpan" if found["Kana"] else found.most_common(1)[0][0] if found else "Zyyy"


def translated(locale):
    """What iso-codes has in a language."""
    found = set()
    for path in glob.glob(f"/usr/share/locale/{locale}/LC_MESSAGES/iso_*.mo"):
        with open(path, "rb") as file:
            found.update(it for it in gettext.GNUTranslations(file)._catalog.values() if isinstance(it, str))
    return {it for it in found if 0 < len(it) <= table_books.LONGEST and "\n" not in it}


def lines_to_measure(setup, script, tag):
    """Lines of a script that its book is not chosen by, and the lines that it is chosen by: None stands for those of the language."""
    own, wanted = table_books.lines_of(CLDR, tag.locale), lambda lines: sorted(it for it in lines if script_of(setup, it) == script)
    if script == "Zyyy":
        others = set().union(*(table_books.texts_in(path) for path in glob.glob(f"{CLDR}/main/*.xml")))
    else:
        others = table_books.texts_in(f"{CLDR}/subdivisions/{tag.locale}.xml") | translated({"zh": "zh_CN"}.get(tag.locale, tag.locale))
    found = wanted(others - {*own})
    if len(found) >= FEWEST_LINES:
        return found, None
    return wanted(own[1::2]), own[::2]


def icu_size(setup, tag, text):
    """The mean bytes of ICU's keys by the collation of a tag, without their last byte 00."""
    keys = subprocess.run([setup.icu, tag, "own", "non-ignorable"], input=text, stdout=subprocess.PIPE, check=True).stdout.split()[2:]
    return sum(len(it) // 2 - 1 for it in keys) / len(keys)


def measured(setup, script):
    """A script, how many lines there are, the mean bytes of ICU's keys by the root and by the language, and of compact keys. Whether the keys come back is the last."""
    tag = read_tag(CLDR, LANGUAGES[script])
    lines, chosen_by = lines_to_measure(setup, script, tag)
    text = "".join(f"{it}\n" for it in table_books.evenly(lines, MOST_LINES)).encode()
    table, book = f"{setup.folder}/{script}.table", f"{setup.folder}/{script}.book"
    with open(table, "w", encoding="utf-8") as file:
        file.write(table_of(tag, setup.table, setup.data, CLDR))
    table_books.write_book(setup, tag, table, setup.data, book, chosen_by)
    run = lambda *words, given: subprocess.run([setup.uca, *words], input=given, stdout=subprocess.PIPE, check=True).stdout
    settings = "--weighting", "non-ignorable"
    compact = run("keys", *settings, "--compact", book, table, setup.data, given=text)
    keys = run("keys", *settings, table, setup.data, given=text)
    sizes = [icu_size(setup, it, text) for it in ("und", tag.text)]
    total = sum(map(len, compact.split())) / 2
    return script, compact.count(b"\n"), *sizes, total / text.count(b"\n"), run("expand", *settings, book, given=compact) == keys.replace(b" ", b"")


def set_up(program, folder):
    """What the scripts are measured with."""
    table, data = f"{folder}/unicode_table", f"{folder}/unicode_data"
    for path, what in ((table, "table"), (data, "data")):
        with open(path, "wb") as file:
            subprocess.run([sys.executable, f"{TOP}/languages/unicode_files.py", what], stdout=file, check=True)
    icu = f"{folder}/icu_lines"
    subprocess.run(["gcc", "-std=gnu11", "-O2", "-o", icu, f"{TOP}/tests/by_hand/icu_lines.c", "-licui18n", "-licuuc"], check=True)
    return Setup(uca=program, cldr=CLDR, unicode=FOLDER, table=table, data=data, icu=icu, folder=folder, scripts=scripts())


def try_scripts(program, folder, names):
    """Compact keys by the books of languages, beside ICU's keys."""
    if lacking := packages.missing(OF_SCRIPTS):
        not_run(f"compact keys by the books of languages, for lack of Debian's {', '.join(lacking)}")
        return
    setup = set_up(program, folder)
    with ProcessPoolExecutor() as pool:
        for script, count, root, own, ours, come_back in pool.map(measured, itertools.repeat(setup), names):
            said = f"{count} lines, {ours:.1f} bytes by the book of {LANGUAGES[script]}, ICU {root:.1f} by the root and {own:.1f} by its own collation"
            see(f"{script}: compact keys are no longer than ICU's", ours <= root, said)
            see(f"{script}: the keys come back", come_back and count >= FEWEST_LINES)


def main():
    parser = argparse.ArgumentParser(description=__doc__.split("\n")[0])
    parser.add_argument("--uca", default=f"{TOP}/crates/uca/out/uca", help="the program, crates/uca/out/uca unless named")
    parser.add_argument("names", nargs="*", metavar="SCRIPT", help=f"scripts: {', '.join(LANGUAGES)}")
    given = parser.parse_args()
    program = os.path.abspath(given.uca)
    if unknown := {*given.names} - {*LANGUAGES}:
        parser.error(f"no script here is named {', '.join(sorted(unknown))}: they are {', '.join(LANGUAGES)}")
    with tempfile.TemporaryDirectory(prefix="uca-books-") as folder:
        if not given.names:
            try_cells()
            try_books()
            try_inputs()
            try_errors()
            try_time()
            try_general(program, folder)
            try_program(program, folder)
        try_scripts(program, folder, given.names or LANGUAGES)
    print(f"{COUNTS['passed']} passed, {COUNTS['failed']} failed" + (f", {COUNTS['not run']} not run" if COUNTS["not run"] else ""))
    return 1 if COUNTS["failed"] else 0


if __name__ == "__main__":
    sys.exit(main())
