#!/usr/bin/env python3
"""Tries by hand the wrong bodies that are not part of the gate: those of the lists edits/CRATE.edits.

    tools/try_edits.py [--each] [CRATE [NAME ..] | FILE.edit ..]

Without arguments it takes all crates that have a list. After a crate come names of bugs of its list, or else it takes the whole list. FILE is one of the
must-fail edits of `rt ci`, which tries only those under crates/*/must-fail/. For each bug it says that the prover rejects it, as it must, that it no longer
applies, or NOT REJECTED: it was proved. Then the status is 1.

A list has a block for each bug, and an empty line between two. A block has the lines of a must-fail edit, and its name before them:

    bug: NAME
    rejected by: the test that does
    file: src/FILE.rt
    old: a text that is in the file once
    new: the text with the bug

Only bugs that a test rejects, and maybe no contract, have the second line: out of memory where memory is there. This script tries those only if they are
named, and the prover may accept them.

The crates and the libraries below them are proved first, if they have changed. Then edits of other functions of a crate are tried together, by one check of
these functions alone: each must not be proved, for a reason of its own. So one check tries four edits or more. An edit that this does not settle is tried by
a check of its function alone. If that is proved, or if the edit changes no function, the whole crate is checked. With --each no edits are tried together. As many checks run at once as there are processors and memory for.
"""
import os
import re
import sys
import tempfile

from concurrent.futures import ThreadPoolExecutor
from typing import NamedTuple

import build
import check
import kit
import script_help

EDITS = f"{kit.TOP}/edits"

# A block of a list.
BLOCK = re.compile(r"bug: (?P<name>\w+)\n(?:rejected by: (?P<test>.+)\n)?(?P<edit>(?:file: .+\n(?:old: .+\nnew:.*\n)+)+)")


class Bug(NamedTuple):
    """A block of a list: the test that rejects the bug, or none, and its edit as `rt` reads it."""

    test: str
    edit: str


def list_of(crate):
    return f"{EDITS}/{crate}.edits"


def crates_with_list():
    return sorted(it.removesuffix(".edits") for it in os.listdir(EDITS) if it.endswith(".edits"))


def bugs_of(crate):
    """The bugs of a crate's list, by their names. A ValueError says what is no list."""
    if not os.path.isfile(list_of(crate)):
        raise ValueError(f"there is no file edits/{crate}.edits")
    with open(list_of(crate), encoding="utf-8") as file:
        text = file.read()
    bugs = {}
    for block in text.removesuffix("\n").split("\n\n"):
        if not (it := BLOCK.fullmatch(block + "\n")):
            raise ValueError(f"edits/{crate}.edits has no such blocks: {block[:80]!r}")
        if it["name"] in bugs:
            raise ValueError(f"edits/{crate}.edits has two bugs {it['name']}")
        bugs[it["name"]] = Bug(it["test"] or "", it["edit"])
    return bugs


def written(crate, names, folder):
    """Writes bugs of a crate's list into a folder, each as a file of its own, and returns their paths. Without names it takes those that a proof rejects."""
    bugs = bugs_of(crate)
    if unknown := {*names} - {*bugs}:
        raise ValueError(f"edits/{crate}.edits has no bug {', '.join(sorted(unknown))}")
    os.makedirs(f"{folder}/{crate}", exist_ok=True)
    paths = {name: f"{folder}/{crate}/{name}.edit" for name, bug in bugs.items() if name in names or not names and not bug.test}
    for name, path in paths.items():
        with open(path, "w", encoding="utf-8") as file:
            file.write(bugs[name].edit)
    return [*paths.values()]


def named(words, folder):
    """The edits that the arguments name, by their crates. Those of lists are written into the folder."""
    found, chosen = {}, {}
    for word in words or crates_with_list():
        if word.endswith(".edit"):
            path = os.path.realpath(word)
            if os.path.dirname(path) not in (folders := {f"{kit.folder_of(it)}/must-fail": it for it in kit.uses()}):
                raise ValueError(f"{word} is in no folder crates/CRATE/must-fail")
            found.setdefault(folders[os.path.dirname(path)], []).append(path)
        elif os.path.isfile(list_of(word)) or not chosen:
            names = chosen.setdefault(word, [])
        else:
            names.append(word)
    for crate, names in chosen.items():
        found.setdefault(crate, []).extend(written(crate, names, folder))
    return found


def changed_lines(old, new):
    """The lines of a text that an edit changes, by their places from 0 on; or None if it has another number of lines."""
    old, new = old.split("\n"), new.split("\n")
    return {at: line for at, line in enumerate(new) if line != old[at]} if len(old) == len(new) else None


class Round:
    """Edits of other functions of a crate, which one check tries."""

    def __init__(self, crate):
        self.crate, self.edits, self.lines = crate, {}, {}

    def takes(self, edit, path, lines):
        """Takes the edit, unless one of the round changes the same function or the same line."""
        if path in self.edits or any(self.lines.get(file, {}).keys() & it.keys() for file, it in lines.items()):
            return False
        self.edits[path] = edit
        for file, it in lines.items():
            self.lines.setdefault(file, {}).update(it)
        return True

    def texts(self):
        """The files with all edits of the round."""
        made = {}
        for file, lines in self.lines.items():
            with open(f"{self.crate.folder}/{file}", encoding="utf-8") as it:
                made[file] = "\n".join(lines.get(at, line) for at, line in enumerate(it.read().split("\n")))
        return made

    def try_all(self, rt):
        """Each edit with what is to say of it, or None if the check does not settle it."""
        said = rt.check_functions(self.crate, self.texts(), self.edits)
        return [(edit, reason_of(said, self.crate.name, path)) for path, edit in self.edits.items()]


def reason_of(said, crate, path):
    """Why a function is not proved: a goal of its own that fails. None if there is none, or if the check did not come to it."""
    lines = said.split("\n")
    at = next((at for at, line in enumerate(lines) if line.startswith(f"fn {crate}::{path}: ")), None)
    if at is None or not re.search(": (not proved|no proof)", lines[at]):
        return None
    goals = []
    for line in reversed(lines[:at]):
        if not line.startswith("note: "):
            break
        goals.append(line)
    folder = f"./proofs/{path.replace('::', '/')}/"
    answers = [line for line in lines if line.startswith(folder) and ": error: " in line and not re.search("has no (field|`)|is not in scope", line)]
    found = [line for line in reversed(goals) if re.match(r"note: src/\S+:\d+:\d+: it is not proved", line)] + answers
    return f"rejected: {found[0][:160]}" if found else None


def rounds_of(rt, crate, files):
    """The rounds of a crate's edits, and the edits that are tried by themselves."""
    rounds, alone = [], []
    for edit in files:
        texts, why = rt.edited(edit, crate.folder)
        path = None if why else kit.changed_function(crate.folder, texts)
        lines = {} if why else {file: changed_lines(open(f"{crate.folder}/{file}", encoding="utf-8").read(), text) for file, text in texts.items()}
        if not path or None in lines.values():
            alone.append(edit)
        elif not any(it.takes(edit, path, lines) for it in rounds):
            rounds.append(Round(crate))
            rounds[-1].takes(edit, path, lines)
    return rounds, alone


def try_together(rt, pool, edits):
    """Tries edits by rounds. Returns how many are rejected so, and the others by their crates."""
    planned = {name: rounds_of(rt, rt.crates[name], files) for name, files in edits.items()}
    tries = [(name, pool.submit(it.try_all, rt)) for name, (rounds, _) in planned.items() for it in rounds]
    left, passed = {name: alone for name, (_, alone) in planned.items()}, 0
    for name, it in tries:
        for edit, reason in it.result():
            if reason is None:
                left[name].append(edit)
            else:
                print(f"{name}/{os.path.basename(edit)}: {reason}", flush=True)
                passed += 1
    return passed, left


def try_all(edits, is_each):
    """Tries edits, by their crates, and returns the status."""
    rt = check.opened("edits", "tries", instead="no edit can be tried; `rt must-fail` tries those of the gate")
    if not rt:
        return 1
    names = {*edits, *(it.name for name in edits for it in rt.crates[name].below())}
    if not build.build(rt, [it for it in rt.crates.values() if it.name in names]):
        return 1
    with ThreadPoolExecutor(rt.checks_at_once()) as pool:
        passed, left = (0, edits) if is_each else try_together(rt, pool, edits)
        rt.try_edits_by_function()
        tries = [pool.submit(rt.try_edit, rt.crates[name], edit) for name, files in left.items() for edit in files]
        failed = 0
        for it in tries:
            is_rejected, said = it.result()
            print(said, flush=True)
            failed += not is_rejected
    print(f"{passed + len(tries) - failed} passed, {failed} failed")
    return int(failed > 0)


def main(words):
    with tempfile.TemporaryDirectory(prefix="uca-edits-") as folder:
        try:
            edits = named([it for it in words if it != "--each"], folder)
        except ValueError as error:
            sys.exit(str(error))
        return try_all(edits, "--each" in words)


if __name__ == "__main__":
    if script_help.is_asked(__doc__, sys.argv[1:]):
        sys.exit()
    sys.exit(main(sys.argv[1:]))
