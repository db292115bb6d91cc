#!/usr/bin/env python3
"""Lets each allocation, read and write of the built program fail in turn, and judges how each run ends.

    tools/build.py                       # proves and builds crates/uca/out/uca
    tests/by_hand/refusals.py                    # from the top of the repository

`refusals.c`, beside this script, is loaded before the C library, and lets the call fail that it is told. It meets every allocation, also
those that a library of the kit (`unicode_normalization`, `clap`) takes by itself. For each command line below there are these runs:

- the Nth allocation fails, alone, and with all after it (malloc, calloc, realloc and their kin, from the start of `main` on);
- the Nth read, write, or write to standard error fails;
- reads, writes, or writes to standard error fail once N bytes were moved, and the call before moves those up to N;
- the Nth opening of a file fails;
- the Nth call fails that brings a file to the disk or gives it its name.

N goes from 0 on until nothing is left that can fail, past 2,000 in steps of 97. One more run moves one byte in each read and write.
These endings are allowed, but for the line of help, or as much of it as went out:

- After a failed allocation: status 4 and one line that names memory, and perhaps a position that is there. As N rises, no position is
  in an earlier file or line. Or the ending is that without a failure: a list may ask again for less, or stay larger than it had to.
- After a failed read: status 3 and the line of the file, and of its line, to which the bytes that were read lead.
- After a failed write: status 3, `output: Write` or `certificate: Write`, and just the bytes that were moved. Help that does not
  go out has status 0 and no line (docs/DECISIONS.md). After a failed write to standard error: the same ending, with less there.
- After a file that does not open: status 3 and its role, or `certificate: Write` where it is to be made.
- After a file that cannot be kept: status 3 and `certificate: Write`.

Where `keys`, `affected`, `rekey`, `compact` or `expand` ends at an input line, standard output has what it prints for the lines before. Where another run ends
early, it has nothing. A certificate is there just where the whole of it was written, and no temporary file is left. No run ends by a
signal, or reads or writes again where it failed. Lines that CASES names must come: `memory` for sorting, after the last line of the
input, and for the text that `clap` makes. What ends otherwise is printed, and the status is then 1. This is no part of the gate: it
takes some minutes. `tests/test_refusals.py` is, and lets the allocations of some of these command lines fail. The last line is
`N passed, M failed`: of runs with a failure, and of lines that must come.
"""

import argparse
import collections
import os
import re
import struct
import subprocess
import sys
import tempfile

HERE = os.path.dirname(os.path.abspath(__file__))
sys.path.append(os.path.dirname(HERE))
from helps import without_help

NEEDS, WANTS = ["gcc"], []
EXAMPLES = os.path.join(os.path.dirname(os.path.dirname(HERE)), "examples")
ROLES = {
    "check": ("table", "data"),
    "keys": ("table", "data", "input"),
    "sort": ("table", "data", "input"),
    "compare": ("table", "data"),
    "tailor": ("table", "data", "rules"),
    "audit": ("base", "data", "rules", "tailored", "certificate"),
    "affected": ("data", "rules", "input"),
    "affected --changes": ("data", "changes", "input"),
    "changes": ("old", "old-data", "new", "new-data"),
    "audit-changes": ("old", "old-data", "new", "new-data", "changes", "certificate"),
    "rekey": ("certificate", "input"),
    "compact": ("book", "input"),
    "expand": ("book", "input"),
    "book": ("certificate", "book"),
    "fingerprint": ("table", "data"),
}

# Two fingerprints, as they are written.
OLD_SUM, NEW_SUM = "0" * 64, "1" * 64

# Each command line, the file of its standard input if it reads one, and what must be among the lines of its failed
# allocations: these in their order, and each once where it comes several times in a row.
SORTED = "input line 30: Memory\nmemory\n"
CASES = (
    ("check table.txt data.txt", None, ""),
    ("check ill-formed.txt data.txt", None, ""),
    ("check table.txt rules.txt", None, ""),
    ("keys table.txt data.txt", "lines.txt", ""),
    ("keys --identical --weighting non-ignorable table.txt data.txt", "wrong.txt", ""),
    ("keys table.txt data.txt", "many.txt", ""),
    ("keys --lines table.txt data.txt", "lines.txt", ""),
    ("keys --lines table.txt data.txt", "wrong.txt", ""),
    ("keys --header --lines table.txt data.txt", "lines.txt", ""),
    ("keys --header table.txt data.txt", "wrong.txt", ""),
    ("affected data.txt rules.txt", "affected.txt", ""),
    ("sort table.txt data.txt", "lines.txt", ""),
    ("sort --identical --weighting non-ignorable table.txt data.txt", "lines.txt", ""),
    ("sort table.txt data.txt", "unsorted.txt", SORTED),
    ("compare table.txt data.txt \u1ea1\u0301ch a\u0323\u0301c-h", None, ""),
    ("compare --identical --weighting shifted table.txt data.txt \uac01\u00e1\u0323 \u1100", None, ""),
    ("tailor table.txt data.txt rules.txt made.txt", None, ""),
    ("tailor table.txt data.txt spellings.txt made.txt", None, ""),
    ("tailor table.txt data.txt anchor.txt made.txt", None, ""),
    ("tailor table.txt data.txt late.txt made.txt", None, ""),
    ("audit table.txt data.txt rules.txt tailored.txt certificate.txt", None, ""),
    ("audit table.txt data.txt rules.txt table.txt certificate.txt", None, ""),
    ("changes table.txt data.txt new.txt new_data.txt made.txt", None, ""),
    ("changes table.txt data.txt ill-formed.txt new_data.txt made.txt", None, ""),
    ("audit-changes table.txt data.txt new.txt new_data.txt changes.txt images.txt", None, ""),
    ("audit-changes table.txt data.txt table.txt new_data.txt changes.txt images.txt", None, ""),
    ("affected --changes new_data.txt changes.txt", "affected.txt", ""),
    ("rekey images.txt", "stored.txt", ""),
    ("rekey images.txt", "wrong.txt", ""),
    (f"rekey --from {OLD_SUM} --to {NEW_SUM} images.txt", "headed.txt", ""),
    (f"rekey --from {NEW_SUM} --to {OLD_SUM} images.txt", "headed.txt", ""),
    ("compact book.txt", "stored.txt", ""),
    ("compact --weighting non-ignorable book.txt", "stored.txt", ""),
    ("expand book.txt", "compact.txt", ""),
    ("expand --identical book.txt", "compact.txt", ""),
    ("book images.txt book.txt", None, ""),
    ("fingerprint --identical table.txt data.txt", None, ""),
    ("sort table.txt missing.txt", None, ""),
    ("tailor --help", None, "memory\n"),
    ("keys --weighting none table.txt data.txt", None, "memory\n"),
    ("audit table.txt", None, "memory\n"),
)
MADE = "made.txt"

# What fails, by the letter that refusals.c knows.
FAILING = {
    "a": "allocations, one alone",
    "A": "allocations, one and all after it",
    "r": "reads",
    "R": "reads, by bytes",
    "w": "writes",
    "W": "writes, by bytes",
    "e": "writes to standard error",
    "E": "writes to standard error, by bytes",
    "o": "openings of files",
    "k": "calls that keep a file",
}

Ending = collections.namedtuple("Ending", "status out err made")
UNMADE = Ending(3, b"", "certificate: Write\n", None)


def contents():
    """The files, by name: those of examples/, and some made of them."""
    files = {}
    for name in ("table.txt", "data.txt", "rules.txt", "tailored.txt", "certificate.txt", "lines.txt"):
        with open(os.path.join(EXAMPLES, name), "rb") as file:
            files[name] = file.read()
    for name, file_name in (("new.txt", "table.txt"), ("new_data.txt", "data.txt"), ("changes.txt", "changes.txt"), ("images.txt", "certificate.txt")):
        with open(os.path.join(EXAMPLES, "editions", file_name), "rb") as file:
            files[name] = file.read()
    files["stored.txt"] = b"1C47 0000 0020 0000 0002 0000 FFFF\n1C60000000200000000800000209\tb\n" * 2 + b"0000 0000 0000"
    files["book.txt"] = b"@book 1\n1 1C47\n1 1C48\n1 1C60\n1 1C61\n1 2000\n4 0209\n4 020A\n"
    files["compact.txt"] = b"0A 03\n0C05A500010100\tb\n" * 2 + b"03"
    files["headed.txt"] = b"#uca keys 1 shifted weights %s\n" % OLD_SUM.encode() + files["stored.txt"]
    files["ill-formed.txt"] = files["table.txt"].replace(b"[.0000.0024.0002]", b"[.0000.0020.0002]")
    files["spellings.txt"] = "# spellings\n&[before 1]b < \u1ea1 / ch <<* x-z'q' &\u00e1h <<< \\u00C1h = \uac01".encode()
    files["anchor.txt"] = "&b < bh &\u4e00 < x".encode()
    files["late.txt"] = b"&ab < c &a < b"
    files["lines.txt"] += "\u1e69\u0323a\u0301\n\uac01\n\U00020000 \ufdfa".encode()
    # The last line is long, so allocations for it come just before those for sorting.
    files["unsorted.txt"] = b"".join(b"%d\n" % (number * 11 % 30) for number in range(29)) + b"9" * 500 + b"\n"
    files["many.txt"] = b"".join(b"%d ch-a d\n" % number for number in range(1500))
    files["wrong.txt"] = files["lines.txt"] + b"\nx" + b"\xcc\x81" * 65 + b"\n"
    files["affected.txt"] = b"bh\nx\nbach\nhb\nBh"
    return files


class Case:
    """A command line, the files that it reads under their roles, and how it ends where nothing fails."""

    def __init__(self, words, given, must, files):
        self.words, self.given, self.must = words.split(" "), given, must
        names = [word for word in self.words if word.endswith(".txt") and word != MADE]
        roles = ROLES[" ".join(self.words[:2])] if "--changes" in self.words else ROLES[self.words[0]]
        self.opened = list(zip(roles, names))
        read = self.opened + ([("input", given)] if given else [])
        self.read = [(role, files.get(name, b"")) for role, name in read]
        self.plain, self.reached, self.said = None, (0, 0), []

    def out_before(self, role, line):
        """What has gone out where the run ends at this line."""
        printed = self.plain.out.splitlines(keepends=True)
        if role != "input":
            return b""
        if self.words[0] == "affected":
            before = self.read[-1][1].split(b"\n")[: line - 1]
            return b"".join(it + b"\n" for it in before if it + b"\n" in printed)
        # the header of keys is before their first line, and that of stored keys is their first line
        count = line if "--header" in self.words else line - 1
        return b"".join(printed[:count]) if self.words[0] in ("keys", "rekey", "compact", "expand") else b""

    def of_memory(self, ending):
        if ending == self.plain:
            return True
        found = re.fullmatch(r"memory\n|(left|right|rules): Memory\n|([\w-]+)( line| byte) ([0-9]+): Memory\n", ending.err)
        if not found or ending.status != 4 or ending.made is not None:
            return False
        if found.group(2) is None:
            return ending.out == b""
        role, position = found.group(2), int(found.group(4))
        names = [name for name, _ in self.read]
        if role not in names or (role == "rules") != (found.group(3) == " byte"):
            return False
        index = names.index(role)
        content, before, self.reached = self.read[index][1], self.reached, (index, position if role != "rules" else 0)
        most = len(content) if role == "rules" else content.count(b"\n") + 1
        return position <= most and before <= self.reached and ending.out == self.out_before(role, position)

    def of_read(self, ends, moved):
        role, content = self.read[ends]
        if role == "rules":
            return Ending(3, b"", "rules: Read\n", None)
        line = content[:moved].count(b"\n") + 1
        return Ending(3, self.out_before(role, line), "%s line %d: Read\n" % (role, line), None)

    def of_write(self, moved):
        if "--help" in self.words:
            return self.plain._replace(out=self.plain.out[:moved])
        made = self.plain.made or b""
        if moved < len(made):
            return UNMADE
        return Ending(3, self.plain.out[: moved - len(made)], "output: Write\n", self.plain.made)

    def of_opening(self, number):
        if number < len(self.opened):
            return Ending(3, b"", self.opened[number][0] + ": Open\n", None)
        return UNMADE

    def is_allowed(self, kind, number, told, ending):
        """Whether a run may end so. told: for each event whether one had failed before, files read to their end, bytes moved."""
        if not told:
            return ending == self.plain
        again, ends, moved = told[0]
        if len(told) > 1 or again:
            return False
        if kind in "aA":
            return self.of_memory(ending)
        if kind in "rR":
            return ending == self.of_read(ends, moved)
        if kind in "wW":
            return ending == self.of_write(moved)
        if kind in "eE":
            return ending == self.plain._replace(err=self.plain.err.encode()[:moved].decode())
        return ending == (UNMADE if kind == "k" else self.of_opening(number))


class Trials:
    """Runs of a program in a folder, in which calls fail."""

    def __init__(self, uca, folder):
        self.uca, self.folder = os.path.abspath(uca), folder
        self.shim, self.runs, self.passed, self.wrong = os.path.join(folder, "refusals.so"), 0, 0, 0
        self.failed, self.done_without = collections.Counter(), 0
        subprocess.run(["cc", "-O2", "-shared", "-fPIC", "-o", self.shim, os.path.join(HERE, "refusals.c")], check=True)
        self.files = contents()
        for name, content in self.files.items():
            with open(os.path.join(folder, name), "wb") as file:
                file.write(content)
        self.known = {*os.listdir(folder)}

    def run(self, case, fails):
        """How a run ends, and what the shim told of it."""
        made, (reader, teller) = os.path.join(self.folder, MADE), os.pipe()
        environment = {"LD_PRELOAD": self.shim, "REFUSE": fails, "TELL": str(teller)}
        streams = {"stdout": subprocess.PIPE, "stderr": subprocess.PIPE, "pass_fds": (teller,)}
        with open(os.path.join(self.folder, case.given) if case.given else os.devnull, "rb") as given:
            done = subprocess.run([self.uca, *case.words], stdin=given, env=environment, cwd=self.folder, timeout=20, check=False, **streams)
        os.close(teller)
        with open(reader, "rb") as pipe:
            told = [numbers for numbers in struct.iter_unpack("3l", pipe.read())]
        kept = None
        if os.path.exists(made):
            with open(made, "rb") as file:
                kept = file.read()
            os.remove(made)
        for left in {*os.listdir(self.folder)} - self.known:
            kept = f"left {left}"
            os.remove(os.path.join(self.folder, left))
        self.runs += 1
        return Ending(done.returncode, done.stdout, without_help(done.stderr.decode("utf-8", "replace")), kept), told

    def see(self, holds, said):
        """Counts a check, and prints what is to say of it where it does not hold."""
        self.passed, self.wrong = (self.passed + 1, self.wrong) if holds else (self.passed, self.wrong + 1)
        if not holds:
            print(said, flush=True)

    def judge(self, case, kind, number):
        """One run; returns whether something failed."""
        ending, told = self.run(case, kind + str(number))
        self.see(case.is_allowed(kind, number, told, ending), "%s, %s%d: %r, told %r" % (" ".join(case.words), kind, number, ending, told))
        self.failed[kind] += bool(told)
        if told and kind in "aA":
            self.done_without += ending == case.plain
            self.endings[ending.status, ending.err] += 1
            if kind == "a" and ending != case.plain and case.said[-1:] != [ending.err]:
                case.said.append(ending.err)
        return bool(told)

    def judge_all(self, case, kinds=tuple(FAILING)):
        """A command line, where each call of these kinds fails in turn."""
        case.plain, _ = self.run(case, "-0")
        self.endings = collections.Counter()
        self.judge(case, "s", 0)
        for kind in kinds:
            # A number of bytes may be more than a call before the end of a run can reach, so all are tried.
            last = sum(len(content) for _, content in case.read) if kind == "R" else -1
            number, case.reached = 0, (0, 0)
            while self.judge(case, kind, number) or number < last:
                number += 1 if number < 2000 else 97
        self.see(case.must in "".join(case.said), "%s: nowhere %r" % (" ".join(case.words), case.must))


def main():
    parser = argparse.ArgumentParser(description=__doc__.split("\n")[0])
    parser.add_argument("--uca", default="crates/uca/out/uca", help="the program")
    parser.add_argument("--verbose", action="store_true", help="print how often each ending after a failed allocation came")
    parser.add_argument("--only", default="", help="only the command lines that begin so")
    options = parser.parse_args()
    cases = [case for case in CASES if case[0].startswith(options.only)]
    with tempfile.TemporaryDirectory() as folder:
        trials = Trials(options.uca, folder)
        for words, given, must in cases:
            case = Case(words, given, must, trials.files)
            trials.judge_all(case)
            print("%s: status %d" % (words, case.plain.status), flush=True)
            for (status, said), count in trials.endings.items() if options.verbose else ():
                print("    %4d  %d %s" % (count, status, said.split("\n")[0]), flush=True)
    print("%d command lines, %d runs" % (len(cases), trials.runs))
    for kind, name in FAILING.items():
        print("    %6d %s" % (trials.failed[kind], name))
    print("    %6d runs ended well though an allocation failed" % trials.done_without)
    print("%d passed, %d failed" % (trials.passed, trials.wrong))
    sys.exit(1 if trials.wrong else 0)


if __name__ == "__main__":
    main()
