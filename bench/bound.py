#!/usr/bin/env python3
"""Counts what keys cost over tables in which letters do not read alone.

    bench/bound.py PROGRAM..       # from the top of the repository; wants Debian's valgrind

A run of keys reads a plain code point by one look-up: no key of the table has its starter after its first code point. This
makes a table of 33,000 rows, and three more of its rows and a contraction of two code points for each of its letters:

- begins: each letter begins one, and no line has the code point after it. So letters are plain;
- continues: each letter is the second of one, and no line has the first. So no letter is plain;
- both: it begins one and continues one.

For each table it prints the instructions of each program (`valgrind --tool=callgrind`) for a line, without those of its start,
for lines of three kinds. Give an earlier build of `uca` and a later one: where they do not differ, nobody pays for the look-up.
The outputs of the programs over one table have to be the same bytes.
"""
import argparse
import os
import re
import subprocess
import sys
import tempfile
import unicodedata

import figures

LINES = 300
# Two code points of the last plane for private use, which no line has.
FIRST, SECOND = 0x10FFFC, 0x10FFFD


def with_contractions(table, begins, continues):
    """The table with a contraction for each letter: with one after it, and after one."""
    rows = [line.split(";")[0].strip() for line in table.splitlines() if line[:1] not in ("", "@", "#")]
    letters = [row for row in rows if " " not in row and unicodedata.category(chr(int(row, 16))).startswith("L")]
    own = figures.element(0x7F00, 0x0020, 2)
    more = ["%s %04X ; %s" % (letter, SECOND, own) for letter in letters if begins]
    more += ["%04X %s ; %s" % (FIRST, letter, own) for letter in letters if continues]
    return table + "".join(row + "\n" for row in more)


def instructions(program, words, lines, out, folder):
    """How many instructions a run takes, by callgrind."""
    profile = os.path.join(folder, "profile")
    command = ["valgrind", "--tool=callgrind", "--callgrind-out-file=" + profile, program] + words
    with open(lines, "rb") as source, open(out, "wb") as sink:
        said = subprocess.run(command, stdin=source, stdout=sink, stderr=subprocess.PIPE, check=True).stderr.decode()
    return int(re.search(r"Collected : (\d+)", said).group(1))


def count(programs, folder):
    data = figures.write(folder, "data", figures.data_text())
    empty = figures.write(folder, "empty", "")
    base = figures.table_text(33000)
    lines = {kind: figures.write(folder, kind, figures.lines_text(kind, LINES)) for kind in ("latin", "ascii", "mixed")}
    same = True
    print("%-10s %-6s" % ("table", "lines") + "".join("%12s" % os.path.basename(program)[-12:] for program in programs))
    for name, begins, continues in (("plain", 0, 0), ("begins", 1, 0), ("continues", 0, 1), ("both", 1, 1)):
        table = figures.write(folder, name, with_contractions(base, begins, continues))
        words = ["keys", table, data, "--weighting", "non-ignorable"]
        out = os.path.join(folder, "out")
        starts = [instructions(program, words, empty, out, folder) for program in programs]
        print("%-10s %-6s" % (name, "start") + "".join("%12d" % start for start in starts), flush=True)
        for kind, path in lines.items():
            taken, outputs = [], set()
            for program, start in zip(programs, starts):
                taken.append((instructions(program, words, path, out, folder) - start) // LINES)
                with open(out, "rb") as written:
                    outputs.add(written.read())
            same = same and len(outputs) == 1
            print("%-10s %-6s" % (name, kind) + "".join("%12d" % number for number in taken), flush=True)
    print("the outputs are the same bytes" if same else "the outputs differ")
    return 0 if same else 1


def main():
    parser = argparse.ArgumentParser(description=__doc__.splitlines()[0])
    parser.add_argument("programs", nargs="+", metavar="PROGRAM")
    options = parser.parse_args()
    with tempfile.TemporaryDirectory() as folder:
        return count(options.programs, folder)


if __name__ == "__main__":
    sys.exit(main())
