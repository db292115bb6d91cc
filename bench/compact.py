#!/usr/bin/env python3
"""Measures how fast `uca compact` and `uca expand` are, and `uca keys --compact` beside `uca keys`.

    tools/build.py && bench/compact.py [--runs N]
    bench/compact.py TABLE DATA LINES ..       a table, a data file, and files of lines
    bench/compact.py --instructions            the instructions of runs, counted by valgrind, in place of times

With no arguments the table, the data file and the lines are those of key_bytes.py. The book is examples/books/general.book. Keys are as `keys --lines`
prints them. MB of key bytes are half of the digits of the whole keys: the tab and the line are not counted, though they are read and written. Times are processor
time, user and system, the least of the runs, without the start: the same command over an empty input. So that a run takes longer than a start, the lines of a
file are repeated until they have 4 MB. Each compact key is expanded once, and has to be the key.

Where the program has no option `--compact` of `uca keys`, this is left out, and a line says so. It needs what key_bytes.py needs, but no ICU4C. Run it where
nothing else runs, and compare figures of one output alone.

With --instructions it counts over the first 20,000 lines of the latin file, or of each file that is given. It counts `keys`, `keys --compact`, and `compact` and
`expand` of what `keys --lines` prints. All counts have the start. Other work on the machine does not matter then. It needs Debian's valgrind.
"""
import argparse
import itertools
import os
import subprocess
import sys
import tempfile

TOP = os.path.dirname(os.path.dirname(os.path.realpath(__file__)))
sys.path.insert(0, f"{TOP}/bench")
sys.dont_write_bytecode = True

import bound  # noqa: E402
import key_bytes  # noqa: E402

BOOK = f"{key_bytes.BOOKS}/general.book"
COUNTED = 20_000
ENOUGH = 4_000_000  # bytes of lines for a time


class Runs:
    """Runs of the program, each so many times."""

    def __init__(self, program, runs):
        self.program, self.runs = program, runs

    def once(self, words, given):
        """The processor time of one run whose input is a file."""
        with open(given, "rb") as source:
            child = subprocess.Popen([self.program, *words], stdin=source, stdout=subprocess.DEVNULL)
            _, status, usage = os.wait4(child.pid, 0)
        child.returncode = os.waitstatus_to_exitcode(status)
        if child.returncode:
            sys.exit(f"uca {' '.join(words)}: status {child.returncode}")
        return usage.ru_utime + usage.ru_stime

    def seconds(self, words, given):
        """The least processor time of all runs, without the start."""
        least = [min(self.once(words, path) for _ in range(self.runs)) for path in (given, os.devnull)]
        return least[0] - least[1]

    def printed(self, words, given, out):
        """Writes to a file what a command prints."""
        with open(given, "rb") as source, open(out, "wb") as file:
            subprocess.run([self.program, *words], check=True, stdin=source, stdout=file)


def same(one, other):
    return subprocess.run(["cmp", "-s", one, other], check=False).returncode == 0


def repeated(lines, work):
    """A file with the lines of a file, again and again, until they have enough bytes."""
    path = f"{work}/repeated"
    with open(lines, "rb") as source, open(path, "wb") as out:
        given = source.read()
        out.writelines(given for _ in range(-(-ENOUGH // len(given))))
    return path


def digits(path):
    """How many digits the keys of a file have."""
    with open(path, "rb") as file:
        return sum(line.index(b"\t") for line in file)


def measure(runs, weighting, table, data, lines, work):
    """A row of the table: the lines of a file under a weighting."""
    name, lines = os.path.basename(lines), repeated(lines, work)
    keys, compact, again = (f"{work}/{it}" for it in ("keys", "compact", "again"))
    make = ["keys", "--lines", "--weighting", weighting]
    compacting, expanding = ([it, "--weighting", weighting, BOOK] for it in ("compact", "expand"))
    runs.printed([*make, table, data], lines, keys)
    runs.printed(compacting, keys, compact)
    runs.printed(expanding, compact, again)
    if not same(keys, again):
        sys.exit(f"{name}: the keys of the compact keys are others")
    megabytes = digits(keys) / 2e6
    making = runs.seconds([*make, table, data], lines)
    both = [megabytes / runs.seconds(words, given) for words, given in ((compacting, keys), (expanding, compact))]
    direct = beside_keys(runs, [*make, "--compact", BOOK, table, data], lines, compact, again, making)
    print(f"| {name} | {weighting} | {megabytes:.1f} | {making:.3f} | {both[0]:.0f} | {both[1]:.0f} | {direct} |", flush=True)


def beside_keys(runs, words, lines, compact, out, making):
    """The time of `keys --compact` divided by that of `keys`. It has to print what `compact` prints."""
    if not has_option(runs.program):
        return "not there"
    runs.printed(words, lines, out)
    if not same(out, compact):
        sys.exit(f"{lines}: keys --compact prints others than compact")
    return f"{runs.seconds(words, lines) / making:.2f}"


def count(program, weighting, table, data, lines, work):
    """A row of the table of instructions: the first lines of a file under a weighting."""
    few, keys, compact, again = (f"{work}/{it}" for it in ("few", "keys", "compact", "again"))
    with open(lines, "rb") as source, open(few, "wb") as out:
        out.writelines(itertools.islice(source, COUNTED))

    def taken(given, out, *words):
        return bound.instructions(program, [*words, "--weighting", weighting], given, out, work)

    plain, direct = taken(few, again, "keys", table, data), taken(few, again, "keys", "--compact", BOOK, table, data)
    Runs(program, 1).printed(["keys", "--lines", "--weighting", weighting, table, data], few, keys)
    there, back = taken(keys, compact, "compact", BOOK), taken(compact, again, "expand", BOOK)
    if not same(keys, again):
        sys.exit(f"{lines}: the keys of the compact keys are others")
    size = digits(keys) / 2
    print(f"| {os.path.basename(lines)} | {weighting} | {plain / 1e6:.1f} | {direct / 1e6:.1f} | {direct / plain:.2f} "
          f"| {there / 1e6:.1f} | {there / size:.1f} | {back / 1e6:.1f} | {back / size:.1f} |", flush=True)


def count_all(program, table, data, files, work):
    print("Millions of instructions, and those for each byte of the whole keys")
    print("| Lines | Weighting | `keys` | `keys --compact` | Ratio | `compact` | a byte | `expand` | a byte |")
    print("|---|---|--:|--:|--:|--:|--:|--:|--:|")
    for weighting in key_bytes.WEIGHTINGS:
        for path in files:
            count(program, weighting, table, data, path, work)


def has_option(program):
    said = subprocess.run([program, "keys", "--help"], check=True, stdout=subprocess.PIPE).stdout
    return b"--compact" in said


def main():
    parser = argparse.ArgumentParser(description=__doc__.split("\n")[0])
    parser.add_argument("files", nargs="*", metavar="FILE", help="a table, a data file, and files of lines")
    parser.add_argument("--uca", default=key_bytes.PROGRAM, help="the program")
    parser.add_argument("--runs", type=int, default=9, help="how often each is run")
    parser.add_argument("--instructions", action="store_true", help="count instructions in place of times")
    given = parser.parse_args()
    if len(given.files) in (1, 2):
        parser.error("name a table, a data file, and at least one file of lines")
    runs = Runs(given.uca, given.runs)
    if not has_option(given.uca):
        print("keys --compact is left out: this program has no such option")
    with tempfile.TemporaryDirectory(prefix="uca-compact-") as work:
        table, data, files = (given.files[0], given.files[1], given.files[2:]) if given.files else key_bytes.given_files(work)
        if given.instructions:
            count_all(given.uca, table, data, files if given.files else files[:1], work)
            return
        print("| Lines | Weighting | Keys, MB | `keys`, s | `compact`, MB a second | `expand`, MB a second | `keys --compact` / `keys` |")
        print("|---|---|--:|--:|--:|--:|--:|")
        for weighting in key_bytes.WEIGHTINGS:
            for path in files:
                measure(runs, weighting, table, data, path, work)


if __name__ == "__main__":
    main()
