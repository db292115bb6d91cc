#!/usr/bin/env python3
"""Runs the program over files that are nearly right, random files and random arguments, and judges how each run ends.

    tools/build.py                       # proves and builds crates/uca/out/uca
    tests/by_hand/changed_files.py --jobs 4      # from the top of the repository
    tests/by_hand/changed_files.py --jobs 4 --random 100000 --words 100000      # a million runs and more

The files of examples/ are changed one at a time. At each position one byte is dropped, doubled, or changed to each of some others.
Then come random bytes, or random changes at several positions, `--random` times. Each run has to end by itself. Either nothing is
on standard error. Or the status is 1, and one line names a position in the file that was changed, with a kind of error that such a
file may have. Then standard output has only the keys of the lines before. No other file may be named: the base, the tailored table,
the certificate and the input are read by themselves. Rules and texts take only the classes from the data file. These can make a
text of more than 64 code points wrong, and no shorter one, so neither the rules nor the lines of examples/ become wrong by it. A
message about a table, a tailoring or a plan names a row or a relation that is there, if such a message names one.

Then come `--words` command lines: arguments of a right line that are dropped, doubled, changed, moved or put in. Some name other files, files
that are not there, or a folder, and some are no UTF-8. Each has to end with a status of docs/FORMATS.md and what goes with it.

`--jobs` says how many processes run side by side, each in a temporary folder of its own. The work is cut into parts. Each part has a seed
of its own, made of `--seed`, its kind and its number. So what is tried is the same whatever the number of processes.
What ends otherwise than it should is printed, with what did it, and the status is then 1. The last line is `N passed, M failed`, of runs. No test of the gate tries as many.
"""

import argparse
import multiprocessing
import os
import random
import re
import subprocess
import sys
import tempfile

sys.path.append(os.path.dirname(os.path.dirname(os.path.realpath(__file__))))
from helps import without_help

FILES = ("table.txt", "data.txt", "rules.txt", "tailored.txt", "certificate.txt", "lines.txt")
BYTES = (0x00, 0x09, 0x0A, 0x0D, 0x20, 0x23, 0x26, 0x27, 0x2A, 0x2D, 0x2E, 0x2F, 0x30, 0x3B, 0x3C, 0x3D, 0x40, 0x46, 0x5B, 0x5C, 0x5D, 0x7A, 0x80, 0xC3, 0xFF)
KINDS = "[A-Za-z0-9]+( [A-Za-z]+)*( at [0-9]+)?"
SECONDS = 20
NEEDS, WANTS = [], []

# How many positions of a file, and how many random changes or lines of arguments, are one part of the work.
PLACES, NUMBER = 20, 250

# How each file is read: the arguments of a command. `lines.txt` is standard input.
RUNS = {
    "table.txt": (("check", "table.txt", "data.txt"), ("keys", "table.txt", "data.txt"), ("tailor", "table.txt", "data.txt", "rules.txt", "made.txt")),
    "data.txt": (("check", "table.txt", "data.txt"), ("tailor", "table.txt", "data.txt", "rules.txt", "made.txt"), ("affected", "data.txt", "rules.txt")),
    "rules.txt": (("tailor", "table.txt", "data.txt", "rules.txt", "made.txt"), ("affected", "data.txt", "rules.txt")),
    "tailored.txt": (("audit", "table.txt", "data.txt", "rules.txt", "tailored.txt", "certificate.txt"),),
    "certificate.txt": (("audit", "table.txt", "data.txt", "rules.txt", "tailored.txt", "certificate.txt"),),
    "lines.txt": (
        *(("keys", "table.txt", "data.txt"), ("keys", "--lines", "table.txt", "data.txt"), ("sort", "table.txt", "data.txt")),
        ("affected", "data.txt", "rules.txt"),
    ),
}

# Lines of arguments that are right.
LINES = (
    ("check", "table.txt", "data.txt"),
    ("keys", "--weighting", "shifted", "table.txt", "data.txt"),
    ("sort", "--identical", "--weighting=non-ignorable", "table.txt", "data.txt"),
    ("compare", "table.txt", "data.txt", "--identical", "--", "a", "B"),
    ("tailor", "table.txt", "data.txt", "rules.txt", "made.txt"),
    ("audit", "table.txt", "data.txt", "rules.txt", "tailored.txt", "certificate.txt"),
    ("keys", "--lines", "table.txt", "data.txt"),
    ("affected", "data.txt", "rules.txt"),
)

# Arguments that are put in. None names anything outside the folder.
WORDS = (
    b"check", b"keys", b"sort", b"compare", b"tailor", b"audit", b"affected", b"help", b"order", b"--lines", b"-V", b"--weighting", b"--weighting=", b"--weighting=shifted", b"--weighting=x",
    b"--identical", b"--identical=", b"--identically", b"-i", b"-", b"--", b"---", b"-h", b"--help", b"--version", b"shifted", b"non-ignorable", b"Shifted", b"",
    b" ", b"=", b".", b"no-such-file", b"x" * 300, b"a" * 5000, b"\xc3\xa9", b"e\xcc\x81", b"\xff", b"a\xcc", b"table.txt\x01",
) + tuple(name.encode() for name in FILES)

ROLES = "table|data|base|rules|tailored|certificate"
PLACED = "(%s|input) (line|byte) [0-9]+: %s\n" % (ROLES, KINDS)
REFUSED = re.compile("%s|tailor( relation [0-9]+)?: %s\n|(left|right): %s\n" % (PLACED, KINDS, KINDS))
NOT_OPENED = re.compile("(%s): (Open|Read|Write)\n|(%s|input) line [0-9]+: Read\n|output: Write\n" % (ROLES, ROLES))

# What is wrong in a file: the kinds of errors, by the name of the file.
TABLE_FAULTS = "Line|Order|CodePoint|Weight|Range|DuplicateKey|Limit"
FAULTS = {
    "table.txt": TABLE_FAULTS,
    "tailored.txt": TABLE_FAULTS,
    "data.txt": "Line|Order|CodePoint|Weight|Range|Limit",
    "rules.txt": "Limit|Utf8|EmptyText|Syntax|Escape|BeforeStrength|DuplicateTarget|LateTarget",
    "certificate.txt": "Line|Order|Limit|Map (Empty|OutOfRange|NotRising|Fixed)",
    "lines.txt": "TooLong|Utf8|LongRun at [0-9]+",
}

# Errors that name the line after the last one.
LATE_FAULTS = {"table.txt": "Order", "tailored.txt": "Order", "data.txt": "Order", "certificate.txt": "Map Fixed"}

# Errors of a plan, and whether they name a relation; the conditions of an audit, and what they name.
PLANS = {"BaseIllFormed": False, "Anchor": True, "NeedsPrefix": True, "Limit": True, "ImplicitVariable": True, "NoRoom 1": False, "NoRoom 2": False, "NoRoom 3": False}
BASE_ROW, TAILORED_ROW, RELATION = "base row", "tailored row", "relation"
CONDITIONS = (
    ("BaseIllFormed", (BASE_ROW,)), ("TailoredIllFormed", (TAILORED_ROW,)), ("Header", ("",)), ("Uncovered", (BASE_ROW,)), ("RowChanged", (BASE_ROW,)),
    ("RowMissing", (BASE_ROW, RELATION)), ("RowExtra", (TAILORED_ROW,)), ("Anchor", (RELATION,)), ("NotPlaced", (RELATION,)), ("NotFresh", (RELATION,)),
    ("NotNearest", (RELATION,)),
)


def changes(content, places):
    """The content with one byte less, one doubled, or one changed, at each of some positions; after the last, one byte more."""
    for place in places:
        yield content[:place] + content[place + 1:]
        yield content[:place] + content[place:place + 1] + content[place:]
        for byte in BYTES:
            if content[place] != byte:
                yield content[:place] + bytes([byte]) + content[place + 1:]
    if places and places[-1] == len(content) - 1:
        yield content + b"\n"


def random_change(numbers, content):
    """Random bytes, or the content with some changes at random positions."""
    if numbers.random() < 0.1:
        return bytes(numbers.randrange(256) for _ in range(numbers.randrange(64)))
    for _ in range(numbers.randrange(1, 6)):
        first, last = sorted((numbers.randrange(len(content) + 1), numbers.randrange(len(content) + 1)))
        last = min(last, first + numbers.randrange(1, 12))
        middle = numbers.choice((b"", bytes([numbers.choice(BYTES)]), content[first:last] * 2, bytes([numbers.randrange(256)])))
        content = content[:first] + middle + content[last:]
        if not content:
            break
    return content


def random_words(numbers):
    """Random arguments, or those of a right line with some changes."""
    if numbers.random() < 0.1:
        return [numbers.choice(WORDS) for _ in range(numbers.randrange(8))]
    words = [word.encode() for word in numbers.choice(LINES)]
    for _ in range(numbers.randrange(1, 4)):
        place = numbers.randrange(len(words) + 1)
        kind = numbers.randrange(5)
        if kind == 0:
            del words[place:place + 1]
        elif kind == 1:
            words[place:place] = words[place:place + 1]
        elif kind == 2:
            words[place:place + 1] = [numbers.choice(WORDS)]
        elif kind == 3:
            words.insert(place, numbers.choice(WORDS))
        elif words:
            words.insert(min(place, len(words) - 1), words.pop(numbers.randrange(len(words))))
    return words


def is_utf8(word):
    try:
        word.decode("utf-8")
    except UnicodeDecodeError:
        return False
    return True


def row_count(table):
    """How many rows an accepted table has."""
    contents = (line.split(b"#", 1)[0].strip(b" \t") for line in table.split(b"\n"))
    return sum(1 for content in contents if content and not content.startswith(b"@"))


def relation_count(rules):
    """How many relations accepted rules have, at most: a relation for each sign, if none is starred."""
    return 5000 if b"*" in rules else len(re.findall(b"<+|=", rules))


def line_count(content):
    """How many lines there are, also one that no LF ends."""
    return content.count(b"\n") + (not content.endswith(b"\n") and content != b"")


def lines_of(content):
    """The lines, also one that no LF ends."""
    lines = content.split(b"\n")
    return lines[:-1] if lines[-1] == b"" else lines


def fault_complaint(name, contents, words, done):
    """Why a run over a changed file may not end with this line on standard error, or None."""
    said = without_help(done.stderr.decode("utf-8", "replace"))
    if done.returncode != 1 or not said.endswith("\n") or said.count("\n") != 1:
        return "status %d: %r" % (done.returncode, said)
    plan = re.fullmatch("tailor( relation ([0-9]+))?: (%s)\n" % "|".join(PLANS), said)
    if words[0] == "tailor" and plan:
        goes = bool(plan.group(1)) == PLANS[plan.group(3)] and (not plan.group(1) or 1 <= int(plan.group(2)) <= relation_count(contents["rules.txt"]))
        goes = goes and not done.stdout
        return None if goes else "no such relation, or something on standard output: %r" % said
    content = contents[name]
    role = "base" if words[0] == "audit" and name == "table.txt" else {"lines.txt": "input"}.get(name, name[:-4])
    found = re.fullmatch("%s %s ([0-9]+): (%s)\n" % (role, "byte" if name == "rules.txt" else "line", FAULTS[name]), said)
    if not found:
        return "another file, or another kind of error: %r" % said
    place, kind = int(found.group(1)), found.group(2)
    if name == "rules.txt":
        is_there = place <= len(content)
    else:
        is_late = place == content.count(b"\n") + 1 and kind == LATE_FAULTS.get(name)
        is_there = 1 <= place <= line_count(content) or is_late
    if not is_there:
        return "a position that is not there: %r" % said
    if words[0] == "affected" and name == "lines.txt":
        is_written = is_part(done.stdout.split(b"\n")[:-1], content.split(b"\n")[:place - 1])
    else:
        is_written = done.stdout.count(b"\n") == (place - 1 if words[0] == "keys" and name == "lines.txt" else 0)
    return None if is_written else "%r on standard output, and %r" % (done.stdout, said)


def is_part(lines, of):
    """Whether lines are some of others, in their order."""
    others = iter(of)
    return all(line in others for line in lines)


def verdict_complaint(contents, words, done):
    """Why a run may not end so with nothing on standard error, or None."""
    said = done.stdout.decode("utf-8", "replace")
    if words[0] == "check":
        found = re.fullmatch("WF[1-5] row ([0-9]+)\n", said)
        goes = said == "well-formed\n" if done.returncode == 0 else found and 1 <= int(found.group(1)) <= row_count(contents["table.txt"])
    elif words[0] == "audit" and done.returncode == 1:
        most = {"base row": row_count(contents["table.txt"]), "tailored row": row_count(contents["tailored.txt"]), "relation": relation_count(contents["rules.txt"])}
        found = re.fullmatch("refused ([0-9]+) ([A-Za-z]+)( (base row|tailored row|relation) ([0-9]+))?\n", said)
        goes = found and 1 <= int(found.group(1)) <= len(CONDITIONS)
        if goes:
            condition, places = CONDITIONS[int(found.group(1)) - 1]
            place = found.group(4) or ""
            goes = found.group(2) == condition and place in places and (not place or 1 <= int(found.group(5)) <= most[place])
    elif words[0] == "audit":
        goes = said == "accepted\n"
    elif words[:2] == ("keys", "--lines"):
        keyed = [line.split(b"\t", 1) for line in done.stdout.split(b"\n")[:-1]]
        goes = all(len(it) == 2 and re.fullmatch(b"[0-9A-F]*", it[0]) for it in keyed) and [it[1] for it in keyed] == lines_of(contents["lines.txt"])
    elif words[0] == "keys":
        goes = done.stdout.count(b"\n") == line_count(contents["lines.txt"])
    elif words[0] == "affected":
        goes = is_part(done.stdout.split(b"\n")[:-1], lines_of(contents["lines.txt"]))
    elif words[0] == "sort":
        goes = sorted(done.stdout.split(b"\n")[:-1]) == sorted(lines_of(contents["lines.txt"]))
    else:
        goes = row_count(done.stdout) >= row_count(contents["table.txt"])
    may_end = done.returncode == 0 or (done.returncode == 1 and words[0] in ("check", "audit"))
    return None if may_end and goes else "status %d, nothing on standard error, and %r" % (done.returncode, done.stdout)


def file_complaint(name, contents, words, done):
    """Why a run over these files may not end so, where one of them was changed, or None."""
    return fault_complaint(name, contents, words, done) if done.stderr else verdict_complaint(contents, words, done)


def word_complaint(words, done):
    """Why a line of arguments may not end so, or None."""
    said = without_help(done.stderr.decode("utf-8", "replace"))
    status = done.returncode
    if not all(is_utf8(word) for word in words):
        goes = status == 4 and said == "memory\n" and not done.stdout
    elif status == 0:
        goes = not said
    elif status == 1:
        # A verdict, an error, or keys of the lines before an error.
        goes = bool(done.stdout) if not said else REFUSED.fullmatch(said)
    elif status == 2:
        goes = not done.stdout and (said == "weighting: unknown\n" or said.startswith("error: ") or "Usage: uca" in said)
    else:
        goes = status == 3 and NOT_OPENED.fullmatch(said)
    return None if goes else "status %d: %r" % (status, said)


class Folder:
    """A temporary folder with the files of examples/, in which one process runs the program."""

    def __init__(self, uca, above):
        self.uca = uca
        self.folder = tempfile.mkdtemp(dir=above)
        self.contents = {}
        for name in FILES:
            with open(os.path.join("examples", name), "rb") as file:
                self.contents[name] = file.read()
            self.write(name, self.contents[name])

    def write(self, name, content):
        with open(os.path.join(self.folder, name), "wb") as file:
            file.write(content)

    def run(self, words):
        """How the program ends with some arguments, or None if it does not end."""
        with open(os.path.join(self.folder, "lines.txt"), "rb") as lines:
            try:
                return subprocess.run([self.uca, *words], stdin=lines, stdout=subprocess.PIPE, stderr=subprocess.PIPE, cwd=self.folder, timeout=SECONDS, check=False)
            except subprocess.TimeoutExpired:
                return None

    def judge_files(self, name, contents):
        count, found = 0, []
        for content in contents:
            self.write(name, content)
            now = {**self.contents, name: content}
            for words in RUNS[name]:
                count += 1
                done = self.run(words)
                said = "no end after %d seconds" % SECONDS if done is None else file_complaint(name, now, words, done)
                if said:
                    found.append("%s of %s: %s\n    %r" % (" ".join(words), name, said, content))
        self.write(name, self.contents[name])
        return count, found

    def judge_words(self, lines):
        count, found = 0, []
        for words in lines:
            count += 1
            done = self.run(words)
            said = "no end after %d seconds" % SECONDS if done is None else word_complaint(words, done)
            if said:
                found.append("%r: %s" % (words, said))
            self.restore()
        return count, found

    def restore(self):
        """A certificate may have been written under any name: what was made is removed, and the files are as they were."""
        for name in os.listdir(self.folder):
            if name not in FILES:
                os.remove(os.path.join(self.folder, name))
        for name in FILES:
            path = os.path.join(self.folder, name)
            with open(path, "rb") as file:
                if file.read() == self.contents[name]:
                    continue
            self.write(name, self.contents[name])


FOLDER = None


def begin(uca, above):
    """What each process begins with."""
    global FOLDER
    FOLDER = Folder(uca, above)


def judge(part):
    """Judges one part of the work: its kind, the file if there is one, its number, and how much there is, or its positions."""
    kind, name, number, seed, amount = part
    numbers = random.Random("%s %s %s %d" % (seed, kind, name, number))
    if kind == "words":
        return kind, FOLDER.judge_words(random_words(numbers) for _ in range(amount))
    content = FOLDER.contents[name]
    contents = changes(content, amount) if kind == "places" else (random_change(numbers, content) for _ in range(amount))
    return name, FOLDER.judge_files(name, contents)


def parts(options):
    """The parts of the work, which do not depend on the number of processes."""
    for name in options.files:
        size = os.path.getsize(os.path.join("examples", name))
        for first in range(0, size, PLACES):
            yield "places", name, first, options.seed, range(first, min(first + PLACES, size))
        for first in range(0, options.random, NUMBER):
            yield "random", name, first, options.seed, min(NUMBER, options.random - first)
    for first in range(0, options.words, NUMBER):
        yield "words", "", first, options.seed, min(NUMBER, options.words - first)


def main():
    parser = argparse.ArgumentParser(description=__doc__.split("\n", maxsplit=1)[0])
    parser.add_argument("--uca", default="crates/uca/out/uca", help="the program")
    parser.add_argument("--random", type=int, default=1000, help="random changes of each file")
    parser.add_argument("--words", type=int, default=1000, help="random command lines")
    parser.add_argument("--seed", type=int, default=1, help="of the random changes and command lines")
    parser.add_argument("--jobs", type=int, default=1, help="processes side by side")
    parser.add_argument("--files", nargs="*", default=list(FILES), choices=FILES)
    options = parser.parse_args()
    if not os.path.isfile(options.uca) or not os.path.isdir("examples"):
        parser.error("the program is not built, or this is not the top of the repository")
    counts, failed = {}, 0
    work = list(parts(options))
    with tempfile.TemporaryDirectory() as above, multiprocessing.Pool(options.jobs, begin, (os.path.abspath(options.uca), above)) as pool:
        for name, (count, found) in pool.imap_unordered(judge, work):
            counts[name] = counts.get(name, 0) + count
            failed += len(found)
            for line in found:
                print(line, flush=True)
    for name, count in sorted(counts.items()):
        print("%s: %d runs" % (name, count))
    print("%d passed, %d failed" % (sum(counts.values()) - failed, failed))
    sys.exit(1 if failed else 0)


if __name__ == "__main__":
    main()
