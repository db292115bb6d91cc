#!/usr/bin/env python3
"""Tests what has to be right before a commit and needs no proof. It takes less than a minute.

    tools/tidy.py [CHECK ..]        all checks, unless some are named

- layout: `rattle fmt --check` over all files of all crates;
- columns: no line of a page has more than 120 columns, but for tables and blocks of code, and none has `@@`, which stands for a figure to come;
- edits: each `old:` text of an edit is in its file exactly once, in crates/*/must-fail and in the lists of edits/;
- english: tools/pages/plain_english.py;
- definitions: tools/definitions.py;
- library: tools/pages/library_page.py;
- man, completions, crates, charts: the page of the manual, the completions, the list of crates and the charts are as their scripts would write them.

The checks run side by side. Each has a line, and what it finds comes after that line. A check whose script is not there is left out. The last line is
`N passed, M failed`, of checks.
"""
import glob
import os
import subprocess
import sys
import tempfile
import time
from concurrent.futures import ThreadPoolExecutor

import kit
import script_help
import try_edits

# The most columns of a line of a page.
COLUMNS = 120


def layout():
    """How many files there are, and what is not in the layout of `rattle fmt`."""
    parts = [f"{kit.TOP}/crates/*/{it}" for it in ("src/**/*.rt", "specs/**/*.antt", "proofs/**/*.antt")]
    files = sorted(os.path.relpath(it, kit.TOP) for part in parts for it in glob.glob(part, recursive=True))
    # what it prints to standard output are the changes, line by line
    ran = subprocess.run(["rattle", "fmt", "--check", *files], cwd=kit.TOP, stdout=subprocess.DEVNULL, stderr=subprocess.PIPE, encoding="utf-8")
    return f"{len(files)} files", ran.stderr.splitlines() or ([f"status {ran.returncode}"] if ran.returncode else [])


def columns():
    """How many pages there are, and their long lines and those with `@@`."""
    pages = subprocess.run(["git", "ls-files", "*.md"], cwd=kit.TOP, check=True, stdout=subprocess.PIPE, encoding="utf-8").stdout.split()
    found = []
    for page in pages:
        in_code = False
        with open(f"{kit.TOP}/{page}", encoding="utf-8") as file:
            for number, line in enumerate(file, 1):
                in_code ^= line.lstrip().startswith("```")
                if "@@" in line:
                    found.append(f"{page}:{number}: @@")
                if len(line.rstrip("\n")) > COLUMNS and not in_code and not line.startswith("|"):
                    found.append(f"{page}:{number}: {len(line) - 1} columns")
    return f"{len(pages)} pages", found


def edits():
    """How many edits there are, and which cannot be applied."""
    rt = kit.opened("edits", instead="no edit is looked at")
    if not rt:
        return "not run", ["the edits were not read"]
    files = sorted(glob.glob("crates/*/must-fail/*.edit", root_dir=kit.TOP))
    paths = [(it, it.split("/")[1], f"{kit.TOP}/{it}") for it in files]
    with tempfile.TemporaryDirectory(prefix="uca-edits-") as folder:
        try:
            for crate in try_edits.crates_with_list():
                names = [*try_edits.bugs_of(crate)]
                paths += [(f"edits/{crate}.edits, {name}", crate, path) for name, path in zip(names, try_edits.written(crate, names, folder))]
        except ValueError as error:
            return "not run", [str(error)]
        causes = [(name, rt.edited(path, kit.folder_of(crate))[1]) for name, crate, path in paths]
    return f"{len(causes)} edits", [f"{name}: {why}" for name, why in causes if why]


def by_script(path, *words):
    """A check by a script of the repository: its last line, and what it prints before that where it fails."""

    def run():
        ran = subprocess.run([sys.executable, f"{kit.TOP}/{path}", *words], cwd=kit.TOP, stdout=subprocess.PIPE, stderr=subprocess.STDOUT, encoding="utf-8")
        said = ran.stdout.splitlines() or [f"status {ran.returncode}"]
        return said[-1], said[:-1] or said if ran.returncode else []

    return run if os.path.exists(f"{kit.TOP}/{path}") else None


CHECKS = {
    "layout": layout,
    "columns": columns,
    "edits": edits,
    "english": by_script("tools/pages/plain_english.py"),
    "library": by_script("tools/pages/library_page.py"),
    "man": by_script("tools/pages/man_page.py", "--check"),
    "completions": by_script("tools/pages/completions.py", "--check"),
    "crates": by_script("tools/pages/crates_page.py", "--check"),
    "definitions": by_script("tools/definitions.py"),
    "charts": by_script("bench/charts.py", "--check"),
}


def timed(check):
    begun = time.time()
    return *check(), time.time() - begun


def main(names):
    if unknown := {*names} - {*CHECKS}:
        sys.exit(f"no check is named {', '.join(sorted(unknown))}: they are {', '.join(CHECKS)}")
    chosen = {name: CHECKS[name] for name in names or CHECKS if CHECKS[name] or names}
    failed = 0
    with ThreadPoolExecutor(max(2, os.cpu_count())) as pool:
        runs = {name: pool.submit(timed, check or (lambda: ("", ["there is no such script"]))) for name, check in chosen.items()}
        for name, run in runs.items():
            said, found, seconds = run.result()
            print(f"{name}: {'FAILED' if found else 'passed'}, {said}, {seconds:.1f} s", flush=True)
            print("".join(f"    {it}\n" for it in found), end="", flush=True)
            failed += bool(found)
    print(f"{len(chosen) - failed} passed, {failed} failed")
    return 1 if failed else 0


if __name__ == "__main__":
    if script_help.is_asked(__doc__, sys.argv[1:]):
        sys.exit()
    if any(it.startswith("-") for it in sys.argv[1:]):
        script_help.stop(__doc__)
    sys.exit(main(sys.argv[1:]))
