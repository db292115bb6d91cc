#!/usr/bin/env python3
"""Runs the tests of the built program that are no part of the gate: they take long, or need more of Debian's packages.

    tests/by_hand/run.py [--uca PATH] [NAME ..]        such as certificates; all of this folder unless some are named

Each test is a script beside this one, and can be run alone. Its head says what it does. What it prints is printed as it comes. The program is
crates/uca/out/uca unless another one is named. A test is not run where it lacks a package that it needs, and a line names the package. Another line names the
packages without which a part of a test is not run. What is not run never counts as passed. The last line is `N passed, M failed` over all of
them, and how many were not run if there are any: tests, and parts of tests.
"""
import argparse
import importlib.util
import os
import re
import subprocess
import sys

import packages

HERE = os.path.dirname(os.path.realpath(__file__))
TOP = os.path.dirname(os.path.dirname(HERE))
COUNTS = re.compile(r"(\d+) passed, (\d+) failed(?:, (\d+) not run)?\n?")

# The tests, the short ones first, with the arguments that each gets.
TESTS = {
    "certificates": [],
    "books": [],
    "tool_errors": [],
    "bindings": [],
    "postgresql_texts": [],
    "postgresql_memory": [],
    "page_heap": [],
    "page": [],
    "other_languages": [],
    "package_installs": [],
    "unicode_tables": [],
    "uca_files": ["--read"],
    "languages": ["--quick"],
    "editions": [],
    "upgrades": [],
    "changed_files": ["--jobs", str(os.cpu_count())],
    "refusals": [],
}


def module_of(name):
    """The module of a test. It may have the name of a script of languages/ that it imports."""
    spec = importlib.util.spec_from_file_location(f"by_hand_{name}", f"{HERE}/{name}.py")
    sys.modules[spec.name] = found = importlib.util.module_from_spec(spec)
    spec.loader.exec_module(found)
    return found


def counts_of(name, program):
    """Runs a test, and returns how many of its checks passed, failed, and were not run. Its last line says so; without such a line it failed."""
    words = [sys.executable, f"{HERE}/{name}.py", "--uca", program, *TESTS[name]]
    ran = subprocess.Popen(words, cwd=TOP, stdout=subprocess.PIPE, encoding="utf-8", errors="replace")
    last = ""
    for last in ran.stdout:
        print(last, end="", flush=True)
    status, found = ran.wait(), COUNTS.fullmatch(last)
    if not found:
        print(f"{name}: status {status}, and no counts", flush=True)
        return 0, 1, 0
    passed, failed, skipped = (int(it or 0) for it in found.groups())
    # a test that ends with another status has failed, also where it counts no failure
    return passed, failed or int(status != 0), skipped


def main(names, program):
    sums = [0, 0, 0]
    for name in names or TESTS:
        test = module_of(name)
        lacking, wanted = packages.missing(test.NEEDS), packages.missing(test.WANTS)
        print(f"== {name}" + (f": not run, for lack of Debian's {', '.join(lacking)}" if lacking else ""), flush=True)
        if wanted and not lacking:
            print(f"{name}: parts are not run, for lack of Debian's {', '.join(wanted)}", flush=True)
        found = (0, 0, 1) if lacking else counts_of(name, program)
        sums = [one + other for one, other in zip(sums, found)]
    passed, failed, skipped = sums
    print(f"{passed} passed, {failed} failed" + (f", {skipped} not run" if skipped else ""))
    return 1 if failed else 0


if __name__ == "__main__":
    sys.dont_write_bytecode = True
    parser = argparse.ArgumentParser(description=__doc__, formatter_class=argparse.RawDescriptionHelpFormatter)
    parser.add_argument("names", nargs="*", metavar="NAME", help=", ".join(TESTS))
    parser.add_argument("--uca", default=f"{TOP}/crates/uca/out/uca", help="the program")
    given = parser.parse_args()
    if unknown := {*given.names} - {*TESTS}:
        parser.error(f"no test is named {', '.join(sorted(unknown))}: they are {', '.join(TESTS)}")
    if not os.access(given.uca, os.X_OK):
        print(f"there is no program {given.uca}: make it by tools/build.py")
        print("0 passed, 1 failed")
        sys.exit(1)
    sys.exit(main(given.names, os.path.abspath(given.uca)))
