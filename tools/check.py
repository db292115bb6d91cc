#!/usr/bin/env python3
"""Proves one crate after an edit: the short way while you work in it.

    tools/check.py [CRATE] [--above] [flags of `rattle check`, such as --only PATH, --start FUNCTION, --allow-holes, --fix-imports]

Without a crate it takes the crates whose files `git status` names, the lowest first. The libraries below a crate are proved first if they have changed,
as `tools/build.py` does. The crate itself is checked over what earlier checks kept in its folder out/: so after an edit mostly what changed is checked
again. With --test as the first flag its tests are checked too. Only `rt ci` is the gate.

With --above a last line for each crate says which crates stand above it in crates.txt: these wait, and are proved again where its contracts change.
"""
import re
import subprocess
import sys

import build
import kit
import script_help


def changed_crates():
    """The crates that have a changed or a new file that the prover reads, in the order of crates.txt."""
    words = ["git", "status", "--porcelain", "-z", "--no-renames", "--untracked-files=all", "--", "crates"]
    said = subprocess.run(words, cwd=kit.TOP, check=True, stdout=subprocess.PIPE, encoding="utf-8").stdout
    names = {it[1] for it in (re.match(r".. crates/([^/]+)/(?:src|specs|proofs)/", entry) for entry in said.split("\0")) if it}
    return [name for name in kit.uses() if name in names]


def crates_above(name):
    """The crates that use this one, or one that uses it, in the order of crates.txt."""
    return [above for above, below in kit.uses().items() if name in below]


def check(rt, name, flags):
    """Proves the libraries below a crate, checks it with these flags, and returns the status."""
    crate = rt.crates[name]
    if crate.below() and not build.build(rt, crate.below()):
        return 1
    jobs = [] if any(it.startswith("--jobs") for it in flags) else ["--jobs", "1"]
    return crate.check([*jobs, *(it for it in flags if it != "--test")], tests="--test" in flags)


def opened(*purposes, instead="`rt check` goes over the libraries below, one at a time"):
    """The kit, for checks and for these purposes."""
    return kit.opened("crates", "lanes", "machine", *purposes, instead=instead)


def main(name, flags, tells_above):
    names = [name] if name else changed_crates()
    if unknown := {*names} - {*kit.uses()}:
        sys.exit(f"crates.txt names no crate {', '.join(unknown)}")
    if not names:
        print("git status names no file of a crate that the prover reads")
        return 0
    rt, status = opened(), 0
    for it in names:
        if not name:
            print(f"== {it}", flush=True)
        status = check(rt, it, flags) if rt else kit.plain("check", *flags, folder=kit.folder_of(it))
        if status:
            break
    for it in names if tells_above else []:
        above = crates_above(it)
        print(f"{it}: {len(above)} crates stand above it and wait" + (f": {', '.join(above)}" if above else ""))
    return status


if __name__ == "__main__":
    given = sys.argv[1:]
    if script_help.is_asked(__doc__, given):
        sys.exit()
    named = given.pop(0) if given and not given[0].startswith("-") else None
    sys.exit(main(named, [it for it in given if it != "--above"], "--above" in given))
