#!/usr/bin/env python3
"""Gives scripts a program, a folder or a table that is not there, or another file in its place. Each ends in one sentence, and never in a traceback.

    tests/by_hand/tool_errors.py [--uca PATH]        crates/uca/out/uca, unless another program is named

It takes some seconds. The last line is `N passed, M failed`.
"""
import argparse
import os
import subprocess
import sys
import tempfile

import packages

TOP = os.path.dirname(os.path.dirname(os.path.dirname(os.path.realpath(__file__))))
NEEDS, WANTS = ["unicode-data", "unicode-cldr-core"], ["perl-modules-5.36"]

# The arguments of a script, its status, and what its sentence has. PAGE is a file that is no table, and BYTES one that is no text.
LANGUAGES, UNICODE, EDITIONS = "languages/languages.py", "languages/unicode_files.py", "tests/by_hand/editions.py"
FILES = "languages/uca_files.py"
CASES = [
    (f"{LANGUAGES} --uca /none table sv TABLE DATA", 1, "/none is no program that can be run"),
    (f"{LANGUAGES} --uca / rules sv TABLE", 1, "/ is no program that can be run"),
    (f"{LANGUAGES} --uca UCA table sv PAGE DATA", 1, "the table that is given, PAGE: table line 3: Order"),
    (f"{LANGUAGES} --uca UCA table sv /none DATA", 1, "the table that is given, /none: table: Open"),
    (f"{LANGUAGES} --uca UCA rules sv PAGE", 1, "the table that is given, PAGE: table line 3: Order"),
    (f"{LANGUAGES} --uca UCA rules sv BYTES", 1, "the table that is given, BYTES: table line 1: "),
    (f"{LANGUAGES} --uca UCA keep Cyrl TABLE DATA PAGE NEW", 1, "the table that is given, PAGE: table line 3: Order"),
    (f"{LANGUAGES} --uca UCA keep Cyrl TABLE DATA OTHER NEW", 1, "the tables name two weightings: make the first one by `languages/unicode_files.py table --weighting non-ignorable`"),
    (f"{FILES} --uca /none --into FOLDER pl", 1, "/none is no program that can be run"),
    (f"{FILES} --unicode /none --into FOLDER pl", 1, "apt install unicode-data, or name the folders"),
    (f"{UNICODE} table BYTES", 1, "BYTES is not in UTF-8"),
    (f"{UNICODE} table /none", 1, "/none: No such file or directory"),
]
# These look for their packages first.
EDITION_CASES = [
    (f"{EDITIONS} --uca /none", 2, "there is no program /none"),
    (f"{EDITIONS} --uca UCA --keep PAGE/folder", 2, "the folder cannot be made: Not a directory"),
]


def files(folder, program):
    """The names of the files that stand in the cases."""
    names = {it: f"{folder}/{it.lower()}" for it in ("TABLE", "DATA", "BYTES", "NEW", "OTHER", "FOLDER")}
    for name, words in (("TABLE", ["table"]), ("DATA", ["data"]), ("OTHER", ["table", "--weighting", "non-ignorable"])):
        with open(names[name], "wb") as file:
            subprocess.run([sys.executable, f"{TOP}/{UNICODE}", *words], stdout=file, check=True)
    with open(names["BYTES"], "wb") as file:
        file.write(b"\xff\n")
    return {**names, "UCA": os.path.abspath(program), "PAGE": f"{TOP}/README.md"}


def with_names(text, names):
    for name, path in names.items():
        text = text.replace(name, path)
    return text


def ends_well(case, names):
    """Whether the script ends with the status and the sentence, and prints nothing else."""
    words, status, wanted = case
    done = subprocess.run([sys.executable, *with_names(words, names).split()], cwd=TOP, capture_output=True, encoding="utf-8", errors="replace", check=False)
    said = done.stderr.strip()
    holds = done.returncode == status and with_names(wanted, names) in said and "\n" not in said and not done.stdout
    print(f"{'ok ' if holds else 'NOT'}  {words}" + ("" if holds else f": status {done.returncode}, {said[-300:]}"), flush=True)
    return holds


def main():
    parser = argparse.ArgumentParser(description=__doc__.split("\n", maxsplit=1)[0])
    parser.add_argument("--uca", default=f"{TOP}/crates/uca/out/uca", help="the program")
    options = parser.parse_args()
    packages.stop_without(NEEDS)
    lacking = packages.missing(WANTS)
    with tempfile.TemporaryDirectory() as folder:
        names = files(folder, options.uca)
        found = [ends_well(it, names) for it in CASES + ([] if lacking else EDITION_CASES)]
    skipped = f", {len(EDITION_CASES)} not run" if lacking else ""
    print(f"{sum(found)} passed, {len(found) - sum(found)} failed{skipped}")
    return 0 if all(found) else 1


if __name__ == "__main__":
    sys.exit(main())
