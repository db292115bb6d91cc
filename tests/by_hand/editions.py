#!/usr/bin/env python3
"""Goes from Unicode 13.0.0 to the edition of /usr/share/unicode with `uca changes`, and checks what comes of it.

    tools/build.py                       # proves and builds crates/uca/out/uca
    tests/by_hand/editions.py                    # from the top of the repository

It needs Debian's packages unicode-data (the new table, and both data files) and perl-modules-5.36 (the old table, which Perl's Unicode::Collate has).
Without them it says so and ends with status 2. The data file of 13.0.0 is that of the new edition without the code points that came later.

`uca changes` has to list 18 old keys, and `uca audit-changes` to accept. This script finds the affected lines by the definition, apart from the program,
and looks whether 1,000,000 random pairs of other lines compare as before. `uca rekey` has to print what `uca keys`
prints under the new table, byte for byte. `--keep FOLDER` keeps the files, in a folder that is made if it is not there.
The last line is `N passed, M failed`.
"""
import argparse
import bisect
import collections
import os
import random
import shutil
import subprocess
import sys
import tempfile
import time
import unicodedata

import packages

PROGRAM = "crates/uca/out/uca"
NEEDS, WANTS = ["unicode-data", "perl-modules-5.36"], [*packages.LISTS]
AGES = "/usr/share/unicode/DerivedAge.txt"
OLD_EDITION = (13, 0)
LINES, PAIRS, WORDS, SEED = 200_000, 1_000_000, 100_000, 20_261_126
WEIGHTINGS, DEPTHS = ("shifted", "non-ignorable"), ([], ["--identical"])
CHOOSER = "examples/books/choose_book.py"
COUNTS = {True: 0, False: 0}


def see(what, holds, said):
    """Prints what was seen, and counts it."""
    print("%-4s %s: %s" % ("ok" if holds else "NOT", what, said), flush=True)
    COUNTS[holds] += 1


class Folder:
    """The program, and the files that it reads and makes."""

    def __init__(self, uca, path):
        self.uca, self.path = os.path.abspath(uca), path

    def file(self, name):
        return os.path.join(self.path, name)

    def run(self, *words, given=None, out=None):
        """The status of a run, what it printed, its errors and its seconds."""
        start = time.perf_counter()
        done = subprocess.run([self.uca, *words], input=given, capture_output=True, check=False, cwd=self.path)
        if out:
            with open(self.file(out), "wb") as file:
                file.write(done.stdout)
        return done.returncode, done.stdout, done.stderr.decode().strip(), time.perf_counter() - start


# ---- The two editions


def later_points():
    """The code points that no edition up to the old one assigned, as ranges."""
    found = []
    with open(AGES, encoding="utf-8") as file:
        for line in file:
            fields = [field.strip() for field in line.split("#")[0].split(";")]
            if len(fields) == 2 and tuple(map(int, fields[1].split("."))) > OLD_EDITION:
                first, _, last = fields[0].partition("..")
                found.append((int(first, 16), int(last or first, 16)))
    return sorted(found)


def without(first, last, ranges):
    """The parts of a range that lie in none of the others."""
    for low, high in ranges:
        if high < first or last < low:
            continue
        if first < low:
            yield first, low - 1
        first = high + 1
    if first <= last:
        yield first, last


def old_data(new):
    """A data file without the code points that came later."""
    later, lines = later_points(), []
    for line in new.splitlines():
        kind, *words = line.split("#")[0].split() or ["#"]
        if not words or ".." not in words[0]:
            lines += [line] if words else []
            continue
        first, last = (int(it, 16) for it in words[0].split(".."))
        lines += [" ".join([kind, "%04X..%04X" % part, *words[1:]]) for part in without(first, last, later)]
    return "\n".join(lines) + "\n"


def make(folder):
    """The tables and data files."""
    tool = [sys.executable, "languages/unicode_files.py"]
    for name, words in (("new.txt", ["table"]), ("old.txt", ["table", packages.OLD_KEYS]), ("new_data.txt", ["data"])):
        with open(folder.file(name), "wb") as file:
            subprocess.run([*tool, *words], stdout=file, check=True)
    with open(folder.file("new_data.txt"), encoding="utf-8") as file:
        new = file.read()
    with open(folder.file("old_data.txt"), "w", encoding="utf-8") as file:
        file.write(old_data(new))
    for edition in "old", "new":
        status, out, said, _ = folder.run("check", f"{edition}.txt", f"{edition}_data.txt")
        see(f"check of the {edition} table", status == 0, out.decode().strip() or said)


def keys_of(folder, name):
    """The keys of a table, as texts."""
    keys = []
    with open(folder.file(name), encoding="utf-8") as file:
        for line in file:
            key, sign, _ = line.split("#")[0].partition(";")
            if sign and not line.startswith("@"):
                keys.append("".join(chr(int(point, 16)) for point in key.split()))
    return keys


# ---- What changes


class Listed:
    """The texts and ranges of a file of changes, and which lines they affect."""

    def __init__(self, path):
        self.texts, self.ranges = [], []
        with open(path, encoding="utf-8") as file:
            for kind, *words in (line.split() for line in file):
                if kind == "text":
                    self.texts.append("".join(chr(int(point, 16)) for point in words))
                elif kind == "range":
                    self.ranges.append(tuple(int(point, 16) for point in words[0].split("..")))
        self.by_first = collections.defaultdict(list)
        for text in self.texts:
            self.by_first[text[0]].append(text)
        self.firsts = [first for first, _ in self.ranges]

    def has_point(self, point):
        at = bisect.bisect_right(self.firsts, point) - 1
        return at >= 0 and point <= self.ranges[at][1]

    def affects(self, text):
        """Whether a text in Normalization Form D is affected."""
        if any(self.has_point(ord(point)) for point in set(text)):
            return True
        return any(occurs_in_order(changed, text) for first in set(text) for changed in self.by_first.get(first, ()))


def occurs_in_order(part, text):
    """Whether the code points of one text all occur in the other, in their order."""
    rest = iter(text)
    return all(point in rest for point in part)


def find(folder):
    """The changes that are found, which are audited."""
    files = ("old.txt", "old_data.txt", "new.txt", "new_data.txt")
    status, out, said, seconds = folder.run("changes", *files, "certificate.txt", out="changes.txt")
    see("changes", status == 0, said or "%d lines in %.2f s" % (out.count(b"\n"), seconds))
    listed = Listed(folder.file("changes.txt"))
    old, new = set(keys_of(folder, "old.txt")), set(keys_of(folder, "new.txt"))
    gone, added = [text for text in listed.texts if text in old], [text for text in listed.texts if text not in old]
    see("old keys that are listed", len(gone) == 18, f"{len(gone)} of {len(old):,}")
    see("new keys that are listed", set(added) == new - old, f"{len(added):,}, and {len(listed.ranges)} ranges of code points")
    status, out, said, seconds = folder.run("audit-changes", *files, "changes.txt", "certificate.txt")
    see("audit-changes", (status, out) == (0, b"accepted\n"), said or "%s in %.2f s" % (out.decode().strip(), seconds))
    return listed


# ---- Lines


def make_lines(folder, chosen):
    """Lines of some keys of the old and of the new table, each once. One in four has letters of one script alone."""
    old = [key for key in keys_of(folder, "old.txt") if "\n" not in key]
    new = [key for key in keys_of(folder, "new.txt") if "\n" not in key]
    latin = [key for key in old if all(ord(point) < 0x250 for point in key)]
    lines = set()
    while len(lines) < LINES:
        start = chosen.randrange(len(old))
        near = old[start : start + 60]
        source = chosen.choice((latin, near, old, old, new))
        lines.add("".join(chosen.choice(source) for _ in range(chosen.randint(1, 8))))
    return sorted(lines)


def as_input(lines):
    return "".join(line + "\n" for line in lines).encode()


def split(folder, listed, lines):
    """The lines that are not affected. `uca affected` has to print the others."""
    wanted = [line for line in lines if listed.affects(unicodedata.normalize("NFD", line))]
    status, out, said, seconds = folder.run("affected", "--changes", "new_data.txt", "changes.txt", given=as_input(lines))
    see("affected lines", status == 0 and out == as_input(wanted), said or f"{len(wanted):,} of {len(lines):,} in {seconds:.2f} s")
    affected = set(wanted)
    return [line for line in lines if line not in affected]


def compared(left, right):
    """How two keys in groups compare: the order, and the level of the first difference."""
    if left == right:
        return "= 0"
    level = 1
    for one, other in zip(left, right):
        if one != other:
            break
        level += one == "0000"
    # a key that ends where the other goes on differs at the level in which it ends
    return ("<" if left < right else ">") + f" {level}"


def pairs_compare(folder, kept, chosen, weighting):
    """Random pairs of lines that are not affected. Half of the pairs are neighbours in the old order."""
    keys = []
    for edition in "old", "new":
        _, out, said, _ = folder.run("keys", "--weighting", weighting, f"{edition}.txt", f"{edition}_data.txt", given=as_input(kept))
        keys.append([tuple(key.split()) for key in out.decode().splitlines()])
        if len(keys[-1]) != len(kept):
            see(f"keys of the {edition} table, {weighting}", False, said)
            return
    old, new = keys
    order = sorted(range(len(kept)), key=lambda at: old[at])
    other = 0
    for number in range(PAIRS):
        one = chosen.randrange(len(order) - 1)
        left, right = (order[one], order[one + 1]) if number % 2 else (order[one], chosen.choice(order))
        other += compared(old[left], old[right]) != compared(new[left], new[right])
    see(f"pairs that compare as before, {weighting}", other == 0, f"{PAIRS - other:,} of {PAIRS:,}")
    moved = sum(left != right for left, right in zip(old, new))
    see(f"keys that moved, {weighting}", moved > 0, f"{moved:,} of {len(kept):,}")


def keys_are_mended(folder, kept):
    """`uca rekey` over the old keys of all settings."""
    for weighting in WEIGHTINGS:
        for depth in DEPTHS:
            for lines in [], ["--lines"]:
                settings = ["--weighting", weighting, *depth]
                old, new = (folder.run("keys", *settings, *lines, f"{it}.txt", f"{it}_data.txt", given=as_input(kept))[1] for it in ("old", "new"))
                status, out, said, seconds = folder.run("rekey", *settings, "certificate.txt", given=old)
                holds = status == 0 and out == new and out.count(b"\n") == len(kept)
                see(" ".join(["rekey", *settings, *lines]), holds, said or f"{len(old) / 1e6:.1f} MB in {seconds:.2f} s")


# ---- Compact keys


def make_books(folder, kept):
    """A book that is chosen by the old keys of lines, for both weightings, and its image for the new edition."""
    keys = folder.run("keys", "--weighting", "shifted", "old.txt", "old_data.txt", given=as_input(kept))[1]
    with open(folder.file("old.book"), "wb") as file:
        words = [sys.executable, CHOOSER, "--weighting", "both", folder.file("old.txt")]
        subprocess.run(words, input=keys, stdout=file, stderr=subprocess.DEVNULL, check=True)
    status, out, said, _ = folder.run("book", "certificate.txt", "old.book", out="new.book")
    see("the book of the new edition", status == 0, said or "%d starts" % (out.count(b"\n") - 1))


def compact_keys(folder, lines, edition, settings):
    """The compact keys of lines under an edition and its book, as they are printed."""
    keys = folder.run("keys", *settings, f"{edition}.txt", f"{edition}_data.txt", given=as_input(lines))[1]
    return folder.run("compact", *settings, f"{edition}.book", given=keys)[1]


def compact_keys_are_mended(folder, kind, kept, affected):
    """Compact keys of all settings: how many stay, and that those of lines that are not affected are mended."""
    for settings in (["--weighting", weighting, *depth] for weighting in WEIGHTINGS for depth in DEPTHS):
        name = " ".join([kind, *settings])
        old, new = (compact_keys(folder, kept, edition, settings) for edition in ("old", "new"))
        expanded = folder.run("expand", *settings, "old.book", given=old)[1]
        mended = folder.run("rekey", *settings, "certificate.txt", given=expanded)[1]
        status, out, said, _ = folder.run("compact", *settings, "new.book", given=mended)
        see(f"compact keys are mended: {name}", status == 0 and out == new and out.count(b"\n") == len(kept), said or f"{len(kept):,} keys")
        pairs = [*zip(old.split(), new.split())]
        again = [*zip(*(compact_keys(folder, affected, edition, settings).split() for edition in ("old", "new")))] if affected else []
        stay, more = (sum(one == other for one, other in it) for it in (pairs, again))
        said = f"{stay:,} of {len(kept):,} that are not affected, and {more:,} of {len(affected):,} that are"
        see(f"compact keys that stay: {name}", 0 < stay <= len(kept) and len(again) == len(affected), said)


def words_are_mended(folder, listed):
    """Compact keys of 100,000 words of nine languages, by books that are chosen by them."""
    if lacking := packages.missing(WANTS):
        print(f"not run: compact keys of words, for lack of Debian's {', '.join(lacking)}")
        return 1
    import bindings_shared

    words = bindings_shared.words(WORDS)
    affected = {word for word in words if listed.affects(unicodedata.normalize("NFD", word))}
    kept = [word for word in words if word not in affected]
    make_books(folder, kept)
    compact_keys_are_mended(folder, "words", kept, sorted(affected))
    return 0


def stop_at_wrong(options):
    """Ends with a sentence and the status 2 where there is no program, or where the folder cannot be made."""
    if not shutil.which(os.path.abspath(options.uca)):
        print(f"there is no program {options.uca}: tools/build.py builds it, or --uca names another one", file=sys.stderr)
        sys.exit(2)
    try:
        os.makedirs(options.keep or ".", exist_ok=True)
    except OSError as error:
        print(f"--keep {options.keep}: the folder cannot be made: {error.strerror}", file=sys.stderr)
        sys.exit(2)


def main():
    parser = argparse.ArgumentParser(description=__doc__.split("\n")[0])
    parser.add_argument("--uca", default=PROGRAM, help="the program")
    parser.add_argument("--keep", help="the folder to make the files in; it is made if it is not there")
    options = parser.parse_args()
    packages.stop_without(NEEDS)
    stop_at_wrong(options)
    chosen = random.Random(SEED)
    with tempfile.TemporaryDirectory() as temporary:
        folder = Folder(options.uca, options.keep or temporary)
        make(folder)
        listed = find(folder)
        lines = make_lines(folder, chosen)
        kept = split(folder, listed, lines)
        for weighting in WEIGHTINGS:
            pairs_compare(folder, kept, chosen, weighting)
        keys_are_mended(folder, kept)
        make_books(folder, kept)
        compact_keys_are_mended(folder, "random lines", kept, sorted({*lines} - {*kept}))
        skipped = words_are_mended(folder, listed)
    print(f"{COUNTS[True]} passed, {COUNTS[False]} failed" + (f", {skipped} not run" if skipped else ""))
    return 1 if COUNTS[False] else 0


if __name__ == "__main__":
    sys.exit(main())
