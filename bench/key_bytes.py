#!/usr/bin/env python3
"""Measures how many bytes keys and compact keys have, beside those of ICU4C.

    tools/build.py && bench/key_bytes.py
    bench/key_bytes.py TABLE DATA LINES ..       a table, a data file, and files of lines

With no arguments the table and the data file are Unicode's, and the lines are these:

- latin: 100,000 words of nine languages, as in tests/by_hand/bindings.py
- ascii: the words of Debian's wamerican-large
- german: the words of Debian's wngerman
- mixed: 40,000 translated strings of Debian's iso-codes
- marks: 2,000 lines of letters with long runs of combining marks, as figures.py makes them

Each row has the mean and the longest of four kinds of keys:

- keys of `uca keys`
- compact keys of `uca compact`, by a book of the same lines
- compact keys by examples/books/general.book
- keys of ICU4C (icu_keys.c)

Each compact key is expanded again, and has to be the key.

It installs nothing. It needs Debian's packages gcc, libicu-dev, pkgconf, unicode-data and unicode-cldr-core, iso-codes, wamerican-large and the lists of words of
tests/by_hand/bindings.py.
"""
import gettext
import glob
import os
import subprocess
import sys
import tempfile

TOP = os.path.dirname(os.path.dirname(os.path.realpath(__file__)))
sys.path[:0] = [f"{TOP}/tests/by_hand", f"{TOP}/bench"]
sys.dont_write_bytecode = True

import bindings_shared  # noqa: E402
import figures  # noqa: E402

PROGRAM, BOOKS = f"{TOP}/crates/uca/out/uca", f"{TOP}/examples/books"
WEIGHTINGS = "non-ignorable", "shifted"


def run(words, given=None):
    return subprocess.run(words, check=True, stdout=subprocess.PIPE, input=given).stdout


def icu_program(work):
    """The program that measures ICU4C's keys."""
    flags = run(["pkg-config", "--cflags", "--libs", "icu-i18n", "icu-uc"]).decode().split()
    run(["gcc", "-O2", "-std=c11", "-D_POSIX_C_SOURCE=200809L", "-o", f"{work}/icu_keys", f"{TOP}/bench/icu_keys.c", *flags])
    return f"{work}/icu_keys"


# ---- Lines


def translated():
    """The strings of iso-codes in all languages, each once, without those of more than one line."""
    found = set()
    for path in sorted(glob.glob("/usr/share/locale/*/LC_MESSAGES/iso_*.mo")):
        with open(path, "rb") as file:
            found.update(it for it in gettext.GNUTranslations(file)._catalog.values() if isinstance(it, str))
    lines = sorted(it for it in found if it and "\n" not in it)
    return lines[:: max(1, len(lines) // 40_000)][:40_000]


def given_files(work):
    """Unicode's table and data file, and the lines of each kind."""
    for kind in ("table", "data"):
        with open(f"{work}/{kind}.txt", "wb") as it:
            it.write(run([sys.executable, f"{TOP}/languages/unicode_files.py", kind]))
    kinds = {
        "latin": bindings_shared.words(100_000),
        "ascii": bindings_shared.list_of_words("/usr/share/dict/american-english-large"),
        "german": bindings_shared.list_of_words("/usr/share/dict/ngerman"),
        "mixed": translated(),
        "marks": figures.lines_text("marks", 2_000).splitlines(),
    }
    for name, lines in kinds.items():
        with open(f"{work}/{name}", "w", encoding="utf-8") as it:
            it.writelines(line + "\n" for line in lines)
    return f"{work}/table.txt", f"{work}/data.txt", [f"{work}/{name}" for name in kinds]


# ---- Keys


def size(printed):
    """The mean and the longest of printed keys, in bytes."""
    sizes = [len(line.replace(b" ", b"")) // 2 for line in printed.splitlines()]
    return f"{sum(sizes) / len(sizes):.1f}, {max(sizes):,}"


def compact_size(weighting, book, keys):
    """That of the compact keys by a book. They have to be those of the keys."""
    compact = run([PROGRAM, "compact", "--weighting", weighting, book], keys)
    if run([PROGRAM, "expand", "--weighting", weighting, book], compact) != keys.replace(b" ", b""):
        sys.exit(f"{book}: the keys of the compact keys are others")
    return size(compact)


def chosen_book(weighting, table, keys, work):
    """The name of a book that is chosen from these keys."""
    with open(f"{work}/own.book", "wb") as it:
        it.write(subprocess.run([sys.executable, f"{BOOKS}/choose_book.py", "--weighting", weighting, table], check=True, input=keys,
                                stdout=subprocess.PIPE, stderr=subprocess.DEVNULL).stdout)
    return f"{work}/own.book"


def measure(icu, weighting, table, data, path, work):
    """A row of the table: the lines of a file under a weighting."""
    with open(path, "rb") as file:
        lines = file.read()
    keys = run([PROGRAM, "keys", "--weighting", weighting, table, data], lines)
    own = compact_size(weighting, chosen_book(weighting, table, keys, work), keys)
    general = compact_size(weighting, f"{BOOKS}/general.book", keys)
    mean, longest = run([icu, weighting], lines).decode().split()
    print(f"| {os.path.basename(path)} | {weighting} | {size(keys)} | {own} | {general} | {mean}, {int(longest):,} |", flush=True)


def main(table, data, files, work):
    icu = icu_program(work)
    print("| Lines | Weighting | Keys | Compact keys, own book | Compact keys, general book | ICU4C |\n|---|---|--:|--:|--:|--:|")
    for weighting in WEIGHTINGS:
        for path in files:
            measure(icu, weighting, table, data, path, work)


if __name__ == "__main__":
    if len(sys.argv) in (2, 3) or sys.argv[1:2] in (["-h"], ["--help"]):
        sys.exit(__doc__)
    with tempfile.TemporaryDirectory() as room:
        main(*((sys.argv[1], sys.argv[2], sys.argv[3:]) if len(sys.argv) > 1 else given_files(room)), room)
