#!/usr/bin/env python3
"""Runs the commands of docs/UNICODE.md, and says what it saw.

    tools/build.py                       # proves and builds crates/uca/out/uca
    tests/by_hand/unicode_tables.py              # from the top of the repository

It needs the files of Debian's package unicode-data. Without an `allkeys.txt` it says so and ends with status 2. It runs the commands of
docs/UNICODE.md as the page shows them. Then it checks the table as it is published, with the rows that languages/unicode_files.py adds, and with two of these
alone. It counts the Tibetan texts whose keys these rows change. It tailors the table by each alphabet of examples/, and audits the result. It says which
weights moved and how many keys changed, and sorts words of that language, which examples/ has in their order. `--keep FOLDER` keeps the files. The last line is `N passed, M failed`.
"""

import argparse
import itertools
import os
import subprocess
import sys
import tempfile
import time
import unicodedata

import packages

DOCUMENT, PROGRAM = "docs/UNICODE.md", "crates/uca/out/uca"
LANGUAGES = ("danish", "spanish", "swedish")
NEEDS, WANTS = ["unicode-data"], []
PUBLISHED = packages.NEW_KEYS
MAKES_TABLE = "languages/unicode_files.py table"  # as the page has it
LETTERS, SIGN, REVERSED = "\u0fb2\u0fb3", "\u0f71", "\u0f80"
# Short i and long ī after the letters shr: they differ in U+0F71 alone.
SHORT, LONG = "\u0f64\u0fb2\u0f72", "\u0f64\u0fb2\u0f71\u0f72"
COUNTS = {True: 0, False: 0}


def see(what, holds, said):
    """Prints what was seen, and counts it by whether it is what the page says."""
    print("%-4s %s: %s" % ("ok" if holds else "NOT", what, said))
    COUNTS[holds] += 1


def run(words, lines=b"", out=None, folder=None):
    """The output of a command, its errors, and its seconds; the output goes to a file where one is named."""
    start = time.perf_counter()
    done = subprocess.run(words, input=lines, stdout=subprocess.PIPE, stderr=subprocess.PIPE, check=False, cwd=folder)
    seconds = time.perf_counter() - start
    if out:
        with open(out, "wb") as file:
            file.write(done.stdout)
    return done.stdout.decode(), done.stderr.decode().strip(), seconds


def content(name):
    with open(name, encoding="utf-8") as file:
        return file.read()


def rows_of(text):
    """The elements of each key of a table, as texts without blanks."""
    split = (line.split("#")[0].partition(";") for line in text.split("\n") if not line.startswith("@"))
    return {" ".join(key.split()): elements.strip() for key, sign, elements in split if sign}


# ---- The commands as the page shows them


def page(options, folder):
    """The first block of commands of the page, in a folder of its own that sees the repository."""
    commands = content(DOCUMENT).split("\n```\n")[1]
    if options.uca != PROGRAM:
        commands = commands.replace(PROGRAM, os.path.abspath(options.uca))
    if options.allkeys != PUBLISHED:
        commands = commands.replace(MAKES_TABLE, "%s %s" % (MAKES_TABLE, os.path.abspath(options.allkeys)))
    folder = os.path.join(folder, "page")
    os.mkdir(folder)
    for name in ("crates", "examples", "languages"):
        os.symlink(os.path.abspath(name), os.path.join(folder, name))
    out, said, seconds = run(["sh", "-e", "-c", commands], folder=folder)
    holds = out == "well-formed\naccepted\n" + content("examples/words_danish.txt") and not said
    see("the commands of " + DOCUMENT, holds, said or "%s and %d more lines in %.1f s" % (", ".join(out.split("\n")[:2]), out.count("\n") - 2, seconds))


# ---- Tibetan texts


def tibetan_texts():
    """Each of the two letters with up to four Tibetan and other marks after it, each text once."""
    block = [chr(code) for code in range(0x0F00, 0x1000) if unicodedata.combining(chr(code))]
    marks = block + list("\u0301\u0334\u05b0\u3099")
    found = (letter + "".join(more) for letter in LETTERS for count in range(5) for more in itertools.product(marks, repeat=count))
    return sorted({unicodedata.normalize("NFD", text) for text in found}), len(marks)


def changed_by_rows(text):
    """Whether the added rows change the key of such a text, by what docs/UNICODE.md says."""
    before, sign, after = text.partition(SIGN)
    return bool(sign) and (any(unicodedata.combining(mark) for mark in before) or SIGN + REVERSED in after)


def keys(options, table, data, texts):
    return run([options.uca, "keys", table, data], "".join(text + "\n" for text in texts).encode())[0].splitlines()


def tibetan(options, folder, table, data):
    """Which keys change where rows are added to the published table: all of them, and two alone."""
    published, added = content(options.allkeys), os.path.join(folder, "two_rows.txt")
    more = content(table)[len(published) :].splitlines(True)
    see("rows added", len(more) == 6 and content(table).startswith(published), "%d after those of the file" % len(more))
    two = [row for row in more if len(row.split(";")[0].split()) == 2]
    with open(added, "w", encoding="utf-8") as file:
        file.writelines([published, *two])
    out, said, _ = run([options.uca, "check", added, data])
    see("check with two rows alone", len(two) == 2 and out == "well-formed\n", out.strip() or said)
    texts, marks = tibetan_texts()
    base, said = keys(options, options.allkeys, data, texts), list(filter(changed_by_rows, texts))
    for name, changed in (("all rows", table), ("two rows alone", added)):
        pairs = zip(texts, base, keys(options, changed, data, texts), strict=True)
        other = [text for text, left, right in pairs if left != right]
        holds = other == said if changed == table else set(other) > set(said)
        see("keys under " + name, holds, "%d of %d texts of a letter and up to 4 of %d marks have others" % (len(other), len(texts), marks))
    for name, changed, expected in (("as published", options.allkeys, "< 1"), ("all rows", table, "< 1"), ("two rows alone", added, "> 1")):
        out = run([options.uca, "compare", changed, data, SHORT, LONG])[0].strip()
        see("short i beside long i, " + name, out == expected, out)


# ---- Tailorings


def moves(certificate):
    """A certificate's runs that move their weights, in words."""
    runs = [line.split() for line in content(certificate).splitlines()]
    return ["level %s: %d from %s to %s" % (level, int(count, 16), first, to) for level, first, to, count in runs if first != to]


def is_accented(letter):
    """Whether this is a lower-case letter with a mark after it in Normalization Form D."""
    return unicodedata.category(letter) == "Ll" and any(map(unicodedata.combining, unicodedata.normalize("NFD", letter)))


def cells(language):
    """What the page says of a language: the first column of its table, without the numbers in it, and the language's column."""
    rows = [[cell.strip() for cell in line.strip("|").split("|")] for line in content("docs/UNICODE.md").splitlines() if line.startswith("| ")]
    titles = next(row for row in rows if language.capitalize() in row)
    at = titles.index(language.capitalize())
    return {row[0]: row[at] for row in rows if len(row) == len(titles)}


def changes(options, table, tailored, data):
    """How many rows of the base have other elements, and how many texts that are its keys have other keys, by the page's first column."""
    base, now = rows_of(content(table)), rows_of(content(tailored))
    changed = sum(1 for key, elements in base.items() if now[key] != elements)
    counts = {"rows of the tailored table": len(now), "of these new": len(now) - len(base), "rows of the base with other weights": changed}
    texts = ["".join(chr(int(code, 16)) for code in key.split()) for key in base]
    texts = [text for text in texts if "\n" not in text]  # each is a line
    pairs = zip(texts, keys(options, table, data, texts), keys(options, tailored, data, texts), strict=True)
    other = {text for text, left, right in pairs if left != right}
    single = [text for text in texts if len(text) == 1]
    upper = [text for text in single if unicodedata.category(text) == "Lu"]
    for name, chosen in (("capital letters", upper), ("lower-case letters with a mark", filter(is_accented, single))):
        chosen = set(chosen)
        counts["other keys, of %s %s" % (f"{len(chosen):,}", name)] = len(chosen & other)
    return counts


def tailor(options, folder, table, data, language):
    """Tailors the table by the alphabet of a language, audits it, and sorts words by it."""
    rules = "examples/rules_%s.txt" % language
    certificate = os.path.join(folder, "certificate_%s.txt" % language)
    tailored = os.path.join(folder, "tailored_%s.txt" % language)
    out, said, seconds = run([options.uca, "tailor", table, data, rules, certificate], out=tailored)
    see("tailor " + language, bool(out) and not said, said or "%.2f s" % seconds)
    if said:
        return
    out, said, seconds = run([options.uca, "audit", table, data, rules, tailored, certificate])
    see("audit " + language, out == "accepted\n", "%s in %.2f s" % (out.strip() or said, seconds))
    moved, click = moves(certificate), rows_of(content(table))["01C0"].split(".")[1]
    see("moved " + language, all(it.startswith("level 1: 1 from %s " % click) for it in moved if it.startswith("level 1")), "; ".join(moved))
    shown = cells(language)
    for name, count in changes(options, table, tailored, data).items():
        see("%s, %s" % (language, name), shown.get(name) == f"{count:,}", "%s, and the page has %s" % (f"{count:,}", shown.get(name)))
    words = content("examples/words_%s.txt" % language)
    turned = "".join(sorted(words.splitlines(True), reverse=True)).encode()
    see("sort " + language, run([options.uca, "sort", tailored, data], turned)[0] == words, "as in examples/words_%s.txt" % language)
    see("untailored " + language, run([options.uca, "sort", table, data], turned)[0] != words, "another order")


def main():
    parser = argparse.ArgumentParser(description=__doc__.split("\n")[0])
    parser.add_argument("--uca", default=PROGRAM, help="the program")
    parser.add_argument("--allkeys", default=PUBLISHED, help="the table of Unicode (%s)" % PUBLISHED)
    parser.add_argument("--keep", help="the folder to make the files in")
    options = parser.parse_args()
    if not os.path.exists(options.allkeys):
        print("no %s: install Debian's unicode-data, or give another by --allkeys" % options.allkeys)
        sys.exit(2)
    with tempfile.TemporaryDirectory() as temporary:
        folder = options.keep or temporary
        page(options, folder)
        data, table = os.path.join(folder, "data.txt"), os.path.join(folder, "table.txt")
        run([sys.executable, "languages/unicode_files.py", "data"], out=data)
        run([sys.executable, "languages/unicode_files.py", "table", options.allkeys], out=table)
        out, said, _ = run([options.uca, "check", options.allkeys, data])
        see("check " + options.allkeys, out.startswith("WF5 row "), out.strip() or said)
        out, said, seconds = run([options.uca, "check", table, data])
        see("check with all rows", out == "well-formed\n", "%s in %.2f s" % (out.strip() or said, seconds))
        tibetan(options, folder, table, data)
        for language in LANGUAGES:
            tailor(options, folder, table, data, language)
    print("%d passed, %d failed" % (COUNTS[True], COUNTS[False]))
    sys.exit(1 if COUNTS[False] else 0)


if __name__ == "__main__":
    main()
