#!/usr/bin/env python3
"""Checks that docs/LIBRARY.md shows the code that is proved.

    tools/pages/library_page.py        in any folder of the repository

Each code block of the page must occur, line for line, in a file of crates/uca_sorted_list or crates/uca_examples. Blocks of `rust` are in src/, those of
`antt` in specs/ or proofs/, and those of `text` in the file stdout, which has what the program must print. Blocks of `sh` are commands and are not
checked; a block with another name fails. The page must show something of each of the six programs. The last line is
`N passed, M failed`; the status is 1 if one failed.
"""
import os
import re
import sys

TOP = os.path.dirname(os.path.dirname(os.path.dirname(os.path.realpath(__file__))))
sys.path.append(f"{TOP}/tools")
import script_help

CRATES = [f"{TOP}/crates/{it}" for it in ("uca_sorted_list", "uca_examples")]
PAGE = f"{TOP}/docs/LIBRARY.md"
PLACES = {"rust": ["src"], "antt": ["specs", "proofs"], "text": ["stdout"]}
SHOWN = ["uca_sorted_list/src/main.rt", *(f"uca_examples/src/{it}.rt" for it in ("key_of_text", "sorted_list", "stored_keys", "tailored_table", "own_lookup"))]


def text_of(path):
    with open(path, encoding="utf-8") as file:
        return file.read()


def files_below(path):
    """A file, or each file of a folder."""
    if os.path.isfile(path):
        return [path]
    return [f"{folder}/{name}" for folder, _, names in os.walk(path) for name in sorted(names)]


def blocks_of(page):
    """Each code block: the name of its language, its text, and its line."""
    for found in re.finditer(r"^```(\w*)\n(.*?)^```$", page, re.MULTILINE | re.DOTALL):
        yield found[1], found[2], page.count("\n", 0, found.start()) + 1


def holds_lines(text, block):
    """Whether the lines of a block come directly one after another in a text."""
    return block.strip() != "" and f"\n{block}" in f"\n{text}"


def main():
    sources = {
        word: [(path, text_of(path)) for crate in CRATES for place in places for path in files_below(f"{crate}/{place}")]
        for word, places in PLACES.items()
    }
    passed, failed, shown = 0, 0, set()
    for word, block, line in blocks_of(text_of(PAGE)):
        if word == "sh":
            continue
        found = [path for path, text in sources.get(word, []) if holds_lines(text, block)]
        shown.update(found)
        passed, failed = (passed + 1, failed) if found else (passed, failed + 1)
        if not found:
            print(f"docs/LIBRARY.md:{line}: no file of the two crates has this block of `{word}`")
    for name in SHOWN:
        is_shown = f"{TOP}/crates/{name}" in shown
        passed, failed = (passed + 1, failed) if is_shown else (passed, failed + 1)
        if not is_shown:
            print(f"docs/LIBRARY.md: nothing of {name} is shown")
    print(f"{passed} passed, {failed} failed")
    sys.exit(1 if failed else 0)


if __name__ == "__main__":
    if script_help.is_asked(__doc__, sys.argv[1:]):
        sys.exit()
    if sys.argv[1:]:
        script_help.stop(__doc__)
    main()
