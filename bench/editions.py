#!/usr/bin/env python3
"""Measures `changes`, `audit-changes`, `affected --changes` and `rekey` from Unicode 13.0.0 to the edition of /usr/share/unicode.

    tools/build.py                 # proves and builds crates/uca/out/uca
    bench/editions.py              # from the top of the repository

It needs Debian's packages unicode-data and perl-modules-5.36, as tests/by_hand/editions.py does, and makes the same files. Times are processor time, user and
system, the least of the runs. Reading alone is `audit-changes` with a certificate whose last line lacks its LF: it is rejected when all six files are read.
The lines are random keys of the old table, none of them affected, and keys are made by `uca keys` and `uca keys --lines`. Their starts are taken off for lines
and keys. Compare figures of one output alone.
"""
import argparse
import os
import random
import subprocess
import sys
import tempfile
import unicodedata

sys.dont_write_bytecode = True
sys.path.insert(0, os.path.join(os.path.dirname(os.path.dirname(os.path.realpath(__file__))), "tests", "by_hand"))
import editions
import packages

SEED, WORDS = 20_261_126, 200_000


class Measured:
    """Runs of the program in a folder, with its processor time and peak memory."""

    def __init__(self, folder, runs):
        self.folder, self.runs = folder, runs

    def once(self, words, given):
        """One run: its seconds, what it says on standard error, and its peak in MB."""
        with open(self.folder.file(given), "rb") as source, open(self.folder.file("out"), "wb") as out:
            child = subprocess.Popen([self.folder.uca, *words], stdin=source, stdout=out, stderr=subprocess.PIPE, cwd=self.folder.path)
            said = child.stderr.read().decode().strip()
            _, status, usage = os.wait4(child.pid, 0)
            child.returncode = os.waitstatus_to_exitcode(status)
        return usage.ru_utime + usage.ru_stime, said, usage.ru_maxrss / 1024

    def least(self, words, given="empty", wanted=""):
        """The least seconds of all runs, and the greatest peak."""
        found = [self.once(words, given) for _ in range(self.runs)]
        if any(said != wanted for _, said, _ in found):
            sys.exit(f"uca {' '.join(words)}: {found[0][1]}")
        return min(it[0] for it in found), max(it[2] for it in found)


def files(folder):
    """The tables, the data files, the changes and the certificate, and one that is cut."""
    editions.make(folder)
    words = ("old.txt", "old_data.txt", "new.txt", "new_data.txt")
    folder.run("changes", *words, "certificate.txt", out="changes.txt")
    with open(folder.file("certificate.txt"), "rb") as file:
        text = file.read()
    with open(folder.file("cut.txt"), "wb") as file:
        file.write(text[:-1])
    with open(folder.file("empty"), "wb"):
        pass
    return words, text.count(b"\n")


def lines(folder, count):
    """Random lines that are not affected, and their keys under the old table."""
    listed, chosen = editions.Listed(folder.file("changes.txt")), random.Random(SEED)
    keys = [key for key in editions.keys_of(folder, "old.txt") if "\n" not in key and not listed.affects(unicodedata.normalize("NFD", key))]
    latin = [key for key in keys if all(ord(point) < 0x250 for point in key)]
    with open(folder.file("lines"), "w", encoding="utf-8") as file:
        for number in range(count):
            source = latin if number % 4 else keys
            line = "".join(chosen.choice(source) for _ in range(chosen.randint(4, 16)))
            file.write(("" if listed.affects(unicodedata.normalize("NFD", line)) else line) + "\n")
    for name, words in ("groups", []), ("keyed", ["--lines"]):
        with open(folder.file("lines"), "rb") as given:
            folder.run("keys", *words, "old.txt", "old_data.txt", given=given.read(), out=name)


def tables(measured, words, runs):
    """The table of changes and audits."""
    reading, peak = measured.least(["audit-changes", *words, "changes.txt", "cut.txt"], wanted=f"certificate line {runs}: Line")
    print(f"reading six files: {reading:.3f} s, {peak:.0f} MB")
    for command, more in ("changes", ["made.txt"]), ("audit-changes", ["changes.txt", "certificate.txt"]):
        seconds, peak = measured.least([command, *words, *more])
        print(f"{command}: {seconds:.3f} s, {seconds / reading:.1f} times reading, {peak:.0f} MB")


def streams(measured, folder, count):
    """The table of lines and keys."""
    size = os.path.getsize(folder.file("lines")) / 1e6
    cases = [
        ("keys", ["keys", "new.txt", "new_data.txt"], "lines"),
        ("affected --changes", ["affected", "--changes", "new_data.txt", "changes.txt"], "lines"),
        ("rekey, groups", ["rekey", "certificate.txt"], "groups"),
        ("rekey, keys --lines", ["rekey", "certificate.txt"], "keyed"),
    ]
    print(f"{count:,} lines, {size:.1f} MB")
    for name, words, given in cases:
        start, _ = measured.least(words)
        seconds, _ = measured.least(words, given)
        megabytes = os.path.getsize(folder.file(given)) / 1e6
        print(f"{name}: {seconds - start:.3f} s for {megabytes:.1f} MB, {megabytes / (seconds - start):.0f} MB a second, start {start:.3f} s")


def printed(folder, words, given, out):
    """Writes to a file what a command prints."""
    with open(folder.file(given), "rb") as source:
        status, _, said, _ = folder.run(*words, given=source.read(), out=out)
    if status:
        sys.exit(f"uca {' '.join(words)}: {said}")


def stored(measured, folder):
    """The table of stored keys of words: made again, mended, and compact ones mended."""
    if lacking := packages.missing(packages.LISTS):
        print(f"stored keys are left out, for lack of Debian's {', '.join(lacking)}")
        return
    import bindings_shared

    listed = editions.Listed(folder.file("changes.txt"))
    words = [word for word in bindings_shared.words(WORDS) if not listed.affects(unicodedata.normalize("NFD", word))]
    with open(folder.file("words"), "w", encoding="utf-8") as file:
        file.writelines(word + "\n" for word in words)
    editions.make_books(folder, words)
    steps = [
        ("whole", ["keys", "--lines", "old.txt", "old_data.txt"], "words"),
        ("compact", ["compact", "old.book"], "whole"),
        ("affected", ["affected", "--changes", "new_data.txt", "changes.txt"], "words"),
        ("made", ["keys", "--lines", "new.txt", "new_data.txt"], "words"),
        ("mended", ["rekey", "certificate.txt"], "whole"),
        ("expanded", ["expand", "old.book"], "compact"),
        ("moved", ["rekey", "certificate.txt"], "expanded"),
        ("again", ["compact", "new.book"], "moved"),
    ]
    seconds = {}
    for name, command, given in steps:
        printed(folder, command, given, name)
        seconds[name] = measured.least(command, given)[0]
    print(f"stored keys of {len(words):,} words that are not affected")
    for what, names in (("keys, made again", ["made"]), ("which are affected", ["affected"]), ("rekey", ["mended"]), ("expand, rekey, compact", ["expanded", "moved", "again"])):
        print(f"{what}: {sum(seconds[name] for name in names):.2f} s")
    for old, new in ("whole", "made"), ("compact", "again"):
        keys = [open(folder.file(name), "rb").read().split(b"\n")[:-1] for name in (old, new)]
        print(f"{old} keys that stay: {sum(one == other for one, other in zip(*keys)):,}")


def main():
    parser = argparse.ArgumentParser(description=__doc__.split("\n")[0])
    parser.add_argument("--uca", default=editions.PROGRAM, help="the program")
    parser.add_argument("--runs", type=int, default=5, help="how often each is run")
    parser.add_argument("--lines", type=int, default=1_000_000, help="how many lines")
    options = parser.parse_args()
    with tempfile.TemporaryDirectory() as temporary:
        folder = editions.Folder(options.uca, temporary)
        words, runs = files(folder)
        measured = Measured(folder, options.runs)
        tables(measured, words, runs)
        lines(folder, options.lines)
        streams(measured, folder, options.lines)
        stored(measured, folder)


if __name__ == "__main__":
    main()
