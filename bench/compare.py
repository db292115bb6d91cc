#!/usr/bin/env python3
"""Counts the instructions of comparing two texts without keys, beside making both keys.

    tools/build.py                 # proves and builds crates/uca/out/uca, whose keys give the pairs
    bench/compare.py               # from the top of the repository; needs valgrind

The script makes a copy of the repository in a temporary folder, and puts the program of `compare.rt.txt` there as
a crate of its own. It has `rt run` prove and build it, and runs it under `valgrind --tool=callgrind`, which counts the
same instructions each time. The copy takes over the libraries that are proved and built in the repository, and proves
the others; the program itself takes a minute or two. With `--program FILE` a program that was built before is run,
and nothing is built; `--keep FILE` keeps the one that is built.

The pairs are of lines of the kinds of `figures.py`, or of the files NAME.txt of a folder (`--lines`):

- easy: lines that are beside one another once they are shuffled, by a fixed seed;
- first: those of them whose first primary weights differ;
- near: neighbours in the order of their keys;
- accent: a line and the same line with an accent more after a letter;
- case: a line and the same line with one letter in the other case;
- hyphen: a line and the same line with a hyphen or a space more;
- equal: a line and itself.

All texts are in memory, in Normalization Form D, before any is counted. Ways: `walks` is `uca_key::compare`,
`buffers` makes both keys in two buffers that are used again and compares them, and `keys` makes each key in memory of
its own. The program writes a sum of the results of each way, and the script ends with an error where they differ.
"""

import argparse
import glob
import os
import random
import re
import shutil
import subprocess
import sys
import tempfile
import unicodedata

sys.dont_write_bytecode = True
import figures

CRATE = "uca_comparisons"
USES = "uca_weights uca_values uca_table uca_text uca_match uca_key"
KINDS = ("first", "easy", "near", "accent", "case", "hyphen", "equal")
WEIGHTINGS = ("non-ignorable", "shifted")
DEPTHS = ("weights", "identical")
WAYS = ("walks", "buffers", "keys")
FUNCTIONS = tuple("%s::%s" % (CRATE, name) for name in ("by_walks", "by_buffers", "by_new_keys"))
TOP = os.path.dirname(os.path.dirname(os.path.abspath(__file__)))


# ---- The program


def copied(folder):
    """A copy of the repository without what its version control keeps; of what is proved, the libraries alone."""
    for name in ("crates.txt", "HANDLES"):
        shutil.copy(os.path.join(TOP, name), folder)
    for crate in sorted(it.name for it in os.scandir(os.path.join(TOP, "crates")) if it.is_dir()):
        source, target = os.path.join(TOP, "crates", crate), os.path.join(folder, "crates", crate)
        shutil.copytree(source, target, ignore=shutil.ignore_patterns("out"))
        library = os.path.join(source, "out", "rlib")
        if os.path.isdir(library):
            shutil.copytree(library, os.path.join(target, "out", "rlib"), copy_function=shutil.copy2)


def built(folder, crate, uses, text):
    """The program that a copy of the repository builds, of a file of this folder and the libraries that it uses."""
    copied(folder)
    source = os.path.join(folder, "crates", crate, "src")
    os.makedirs(source)
    shutil.copy(os.path.join(TOP, "bench", text), os.path.join(source, "main.rt"))
    with open(os.path.join(folder, "crates.txt"), "a", encoding="utf-8") as crates:
        crates.write("%s: %s\n" % (crate, uses))
    # It is run without arguments, which it rejects.
    ran = subprocess.run(["rt", "run"], cwd=os.path.dirname(source), stdout=subprocess.PIPE, stderr=subprocess.STDOUT, errors="replace")
    program = os.path.join(os.path.dirname(source), "out", crate)
    if not os.path.exists(program):
        sys.exit("%s\nthe program was not built" % ran.stdout)
    return program


# ---- Pairs


def with_accent(line, numbers):
    places = [place + 1 for place, point in enumerate(line) if unicodedata.category(point).startswith("L")]
    if not places:
        return None
    place = numbers.choice(places)
    return line[:place] + "\u0301" + line[place:]


def with_other_case(line, numbers):
    places = [place for place, point in enumerate(line) if len(point.swapcase()) == 1 and point.swapcase() != point]
    if not places:
        return None
    place = numbers.choice(places)
    return line[:place] + line[place].swapcase() + line[place + 1 :]


def with_hyphen(line, numbers):
    places = [place for place in range(1, len(line)) if unicodedata.combining(line[place]) == 0]
    if not places:
        return None
    place = numbers.choice(places)
    return line[:place] + numbers.choice("- ") + line[place:]


def is_short(line):
    """Whether no run of non-starters is longer than 64."""
    run = 0
    for point in unicodedata.normalize("NFD", line):
        run = run + 1 if unicodedata.combining(point) else 0
        if run > 64:
            return False
    return True


def varied(lines, variant, numbers):
    pairs = ((line, variant(line, numbers)) for line in lines)
    return [(line, other) for line, other in pairs if other is not None and is_short(other)]


def keys_of(options, weighting, lines):
    """The key of each line, as `uca keys` prints it."""
    text = "".join(line + "\n" for line in lines).encode("utf-8")
    words = [options.binary, "keys", "--weighting", weighting, options.table, options.data]
    ran = subprocess.run(words, input=text, stdout=subprocess.PIPE, check=True)
    keys = ran.stdout.decode("ascii").splitlines()
    if len(keys) != len(lines):
        sys.exit("%d keys for %d lines" % (len(keys), len(lines)))
    return [bytes.fromhex(key.replace(" ", "")) for key in keys]


def pairs_of(options, weighting, lines):
    """The pairs of each kind."""
    numbers = random.Random(7)
    lines = sorted(set(lines))
    numbers.shuffle(lines)
    keys = keys_of(options, weighting, lines)
    beside = list(range(len(lines) - 1))
    easy = [(lines[n], lines[n + 1]) for n in beside]
    first = [(lines[n], lines[n + 1]) for n in beside if keys[n][:2] != keys[n + 1][:2]]
    order = sorted(range(len(lines)), key=lambda n: keys[n])
    near = [(lines[a], lines[b]) for a, b in zip(order, order[1:])]
    numbers.shuffle(near)
    pairs = {
        "first": first,
        "easy": easy,
        "near": near,
        "accent": varied(lines, with_accent, numbers),
        "case": varied(lines, with_other_case, numbers),
        "hyphen": varied(lines, with_hyphen, numbers),
        "equal": [(line, line) for line in lines],
    }
    return {kind: found[: options.pairs] for kind, found in pairs.items()}


def lines_of(options):
    """The lines of each workload."""
    if not options.lines:
        found = {kind: figures.lines_text(kind, 2000).splitlines() for kind in figures.KINDS}
        numbers = random.Random(8)
        heads = [" ".join(numbers.choice(found["latin"]) for _ in range(4)) for _ in range(8)]
        found["prefix"] = ["%s %s" % (numbers.choice(heads), line) for line in found["latin"]]
        return found
    found = {}
    for path in sorted(glob.glob(os.path.join(options.lines, "*.txt"))):
        with open(path, encoding="utf-8", newline="\n") as file:
            lines = file.read().split("\n")
        found[os.path.basename(path)[: -len(".txt")]] = [line for line in lines if line]
    return found


# ---- Counting


def totals_of(out):
    """The instructions of each call that is counted, in order: those of each part that ends after one.

    callgrind does not always begin a part before a call of the second and third function. Such a part counts
    one line of output more, which is nothing beside hundreds of pairs.
    """
    totals, number = [], 1
    while os.path.exists("%s.%d" % (out, number)):
        with open("%s.%d" % (out, number), encoding="utf-8", errors="replace") as file:
            text = file.read()
        if "Trigger: --dump-after=" in text:
            totals.append(int(re.search(r"^totals: (\d+)", text, re.M)[1]))
        number += 1
    return totals


def counted(options, program, weighting, sets, folder):
    """For each set, depth and way: instructions a pair. `sets` gives the pairs of each name."""
    names = []
    for name, pairs in sets.items():
        text = "".join("%s\n%s\n" % pair for pair in pairs)
        names.append(figures.write(folder, "-".join(name), text))
    out = os.path.join(folder, "callgrind")
    words = ["valgrind", "--tool=callgrind", "--callgrind-out-file=" + out]
    for function in FUNCTIONS:
        words += ["--dump-before=" + function, "--dump-after=" + function]
    words += [program, options.table, options.data, weighting] + names
    ran = subprocess.run(words, stdout=subprocess.PIPE, stderr=subprocess.PIPE, errors="replace")
    if ran.returncode != 0:
        sys.exit("%s\nstatus %d" % (ran.stderr, ran.returncode))
    lines, totals = ran.stdout.splitlines(), totals_of(out)
    if len(lines) != len(totals):
        sys.exit("%d counts for %d lines" % (len(totals), len(lines)))
    found, sums = {}, {}
    for line, total in zip(lines, totals):
        path, depth, way, count, result = line.split(" ")
        name = tuple(os.path.basename(path).split("-"))
        if int(count) != len(sets[name]):
            sys.exit("%s: %s pairs were read" % (path, count))
        if sums.setdefault((name, depth), result) != result:
            sys.exit("%s: the ways differ" % line)
        found[name + (depth, way)] = total / max(1, int(count))
    return found


def measure(options, folder):
    program = options.program or built(os.path.join(folder, "copy"), CRATE, USES, "compare.rt.txt")
    if options.keep:
        shutil.copy(program, options.keep)
    workloads = lines_of(options)
    for weighting in WEIGHTINGS:
        sets = {}
        for name, lines in workloads.items():
            few = lines[: options.sample]
            for kind, pairs in pairs_of(options, weighting, few).items():
                if pairs:
                    sets[name, kind] = pairs
        here = os.path.join(folder, weighting)
        os.makedirs(here)
        found = counted(options, program, weighting, sets, here)
        for depth in DEPTHS:
            print("\n%s, %s\n" % (weighting, depth))
            print("%-8s %-8s %6s %9s %9s %9s %7s %7s" % ("lines", "pairs", "count", "walks", "buffers", "keys", "/buff", "/keys"))
            for name, pairs in sets.items():
                walks, buffers, keys = (found[name + (depth, way)] for way in WAYS)
                row = name + (len(pairs), walks, buffers, keys, walks / buffers, walks / keys)
                print("%-8s %-8s %6d %9.0f %9.0f %9.0f %7.2f %7.2f" % row, flush=True)


def main():
    parser = argparse.ArgumentParser(description=__doc__.split("\n")[0])
    parser.add_argument("--binary", default=os.path.join(TOP, "crates", "uca", "out", "uca"), help="the program uca, whose keys give the pairs")
    parser.add_argument("--table", help="a table; by default one of 33,000 rows as figures.py makes it")
    parser.add_argument("--data", help="a data file; by default as figures.py makes it")
    parser.add_argument("--lines", help="a folder of lines, NAME.txt, one a line; by default lines as figures.py makes them")
    parser.add_argument("--sample", type=int, default=4000, help="how many lines of each file are taken")
    parser.add_argument("--pairs", type=int, default=500, help="how many pairs of each kind are compared")
    parser.add_argument("--program", help="a program that was built before")
    parser.add_argument("--keep", help="where the program that is built is kept")
    options = parser.parse_args()
    with tempfile.TemporaryDirectory() as folder:
        options.table = options.table or figures.write(folder, "table", figures.table_text(33000))
        options.data = options.data or figures.write(folder, "data", figures.data_text())
        os.makedirs(os.path.join(folder, "copy"))
        measure(options, folder)


if __name__ == "__main__":
    main()
