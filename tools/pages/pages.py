#!/usr/bin/env python3
"""Runs the commands that the pages show, and compares what they print with what the page shows.

    tools/pages/pages.py [PAGE..]       at the top of the repository; all pages that show commands, unless some are named

A command is a line of a block ```console that begins with `$ `; what follows it up to the next one is its output. The blocks
of a page run in turn in one shell. They run in a fresh folder that has a copy of examples/, and links to languages/ and crates/; a page
of examples/ runs in that copy. The program is crates/uca/out/uca, which tools/build.py builds. `uca-files` keeps its files in a folder of this run.

A block ```console unicode needs files of Debian's packages unicode-data and unicode-cldr-core. Without them
it is not run, and a line says so. docs/FROM_KEYS.md needs the package sqlite3. So does docs/STORED_KEYS.md. Its blocks ```console postgresql need a server, so
examples/databases/run_all.py runs them. The last line is `N passed, M failed`, and how many were not run if there are any. A named
page without a command fails. (Blocks of `sh` are not run: docs/GATE.md and docs/LIBRARY.md have one each, which build.)
"""
import os
import re
import shutil
import subprocess
import sys
import tempfile

TOP = os.path.dirname(os.path.dirname(os.path.dirname(os.path.realpath(__file__))))
sys.path.append(f"{TOP}/tools")
import script_help

PAGES = ["README.md", "examples/README.md", "examples/books/README.md", *(f"docs/{it}" for it in sorted(os.listdir(f"{TOP}/docs")) if it.endswith(".md"))]
END = "== end of output"
ALLKEYS, CLDR = "/usr/share/unicode/allkeys.txt", "/usr/share/unicode/cldr/common/collation"


def commands_of(page, head="console"):
    """The commands of a page, each with the output that the page shows. The head is a pattern of what a block begins with."""
    try:
        with open(f"{TOP}/{page}", encoding="utf-8") as it:
            text = it.read()
    except OSError as error:
        sys.exit(f"{page}: {error.strerror}")
    found = []
    for block in re.findall(rf"^```{head}\n(.*?)^```", text, re.M | re.S):
        for part in re.split(r"^\$ ", block, flags=re.M)[1:]:
            command, _, output = part.partition("\n")
            found.append((command, output.rstrip("\n")))
    return found


def outputs_of(commands, folder, environment):
    """What each command prints, on both streams."""
    script = "".join(f"{command}\necho '{END}'\n" for command, _ in commands)
    ran = subprocess.run(["bash", "-c", script], cwd=folder, env=environment, text=True, stdout=subprocess.PIPE, stderr=subprocess.STDOUT)
    return [it.strip("\n") for it in ran.stdout.split(f"{END}\n")[:-1]]


def runnable(page):
    """The commands of a page that can be run here, and how many cannot. It prints which file those need."""
    missing = [it for it in (ALLKEYS, CLDR) if not os.path.exists(it)]
    others = commands_of(page, "console unicode")
    if missing and others:
        print(f"{page}: {len(others)} commands were not run, since there is no {missing[0]}")
    return commands_of(page, "console" if missing else "console(?: unicode)?"), len(others) if missing else 0


def commands_folder(folder):
    """Puts `uca-files` into a folder, and returns an environment that has it and the program on the path."""
    os.symlink(f"{TOP}/languages/uca_files.py", f"{folder}/uca-files")
    kept = {"XDG_DATA_HOME": f"{folder}/data", "XDG_DATA_DIRS": f"{folder}/data"}
    return {**os.environ, **kept, "PATH": f"{TOP}/crates/uca/out:{folder}:{os.environ['PATH']}"}


def tried(page, is_named, environment):
    """How many commands of a page print what it shows, how many do not, and how many cannot be run here."""
    passed = failed = 0
    commands, missing = runnable(page)
    if is_named and not commands and not missing:
        failed += 1
        print(f"{page}: it shows no command")
    with tempfile.TemporaryDirectory(prefix="uca-page-") as room:
        shutil.copytree(f"{TOP}/examples", f"{room}/examples")
        for name in ("languages", "crates"):
            os.symlink(f"{TOP}/{name}", f"{room}/{name}")
        given = outputs_of(commands, f"{room}/examples" if page.startswith("examples/") else room, environment)
    for (command, wanted), got in zip(commands, given + [None] * len(commands)):
        if got == wanted:
            passed += 1
        else:
            failed += 1
            print(f"{page}: $ {command}\n-- printed:\n{got}\n-- the page shows:\n{wanted}")
    return passed, failed, missing


def main(pages):
    if not os.path.exists(f"{TOP}/crates/uca/out/uca"):
        sys.exit("there is no crates/uca/out/uca: run tools/build.py first")
    with tempfile.TemporaryDirectory(prefix="uca-commands-") as folder:
        environment = commands_folder(folder)
        found = [tried(page, page in pages, environment) for page in pages or PAGES]
    passed, failed, skipped = map(sum, zip(*found))
    print(f"{passed} passed, {failed} failed" + (f", {skipped} not run" if skipped else ""))
    return 1 if failed else 0


if __name__ == "__main__":
    if script_help.is_asked(__doc__, sys.argv[1:]):
        sys.exit()
    sys.exit(main(sys.argv[1:]))
