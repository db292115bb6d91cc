#!/usr/bin/env python3
"""The gate: `rt ci`, and then the tests of the program that it built (`tests/run.py`).

    tools/gate.py [flags and crates of `rt ci`, such as --anew]

`--anew` takes nothing of what was proved on this machine before. A kit whose `rt ci` keeps nothing proves all from nothing without it, and knows no
flags. What both print is printed as it comes, and after each the processor time that it took. The last line sums their counts: `N passed, M failed`.
The status is 0 where nothing failed.
"""
import os
import re
import resource
import subprocess
import sys
import time

import kit
import script_help

PROGRAM = f"{kit.TOP}/crates/uca/out/uca"
COUNTS = re.compile(r"(\d+) passed, (\d+) failed")


def processor_seconds():
    """The processor time, user and system, of all processes that were waited for so far."""
    used = resource.getrusage(resource.RUSAGE_CHILDREN)
    return used.ru_utime + used.ru_stime


def counted(words):
    """Runs a command at the top of the repository, and returns its status and its last counts."""
    begun, before = time.time(), processor_seconds()
    ran = subprocess.Popen(words, cwd=kit.TOP, stdout=subprocess.PIPE, encoding="utf-8", errors="replace")
    passed, failed = 0, 1
    for line in ran.stdout:
        print(line, end="", flush=True)
        if found := COUNTS.search(line):
            passed, failed = map(int, found.groups())
    status = ran.wait()
    print(f"{' '.join(words)}: {processor_seconds() - before:.0f} s of processor time in {(time.time() - begun) / 60:.0f} minutes", flush=True)
    return status, passed, failed


def main(words):
    rt = kit.opened("machine", instead="`rt ci` gets the flags as they are, and chooses by itself how many checks run at once")
    if rt:
        rt.check_by_one_process()
        words = words if rt.keeps_proofs() else [it for it in words if it != kit.ANEW]
    parts = [counted(["rt", "ci", *words])]
    if not os.access(PROGRAM, os.X_OK):
        counted([f"{kit.TOP}/tools/build.py"])
    parts.append(counted([f"{kit.TOP}/tests/run.py"]))
    print(f"{sum(it[1] for it in parts)} passed, {sum(it[2] for it in parts)} failed")
    return 1 if any(it[0] or it[2] for it in parts) else 0


if __name__ == "__main__":
    if script_help.is_asked(__doc__, sys.argv[1:]):
        sys.exit()
    sys.exit(main(sys.argv[1:]))
