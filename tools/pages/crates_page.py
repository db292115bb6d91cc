#!/usr/bin/env python3
"""Writes crates/README.md: what each crate is, and how many crates use it.

    tools/pages/crates_page.py             in any folder of the repository
    tools/pages/crates_page.py --check     writes nothing

The crates and their order are those of crates.txt. A comment there that stands directly above crates is the heading of their group. What a crate
is comes from the first sentence of its head, the lines `//!` of src/lib.rt or src/main.rt. A crate uses another one by its own line of crates.txt,
or by a crate that it uses. Some of these numbers are in docs/RECIPES.md: a row that begins with a crate and two numbers has to have the right ones.

With --check the status is 1 if crates/README.md is not as it would be written, or if a row of docs/RECIPES.md has other numbers; a line says so.
"""
import os
import re
import sys

TOP = os.path.dirname(os.path.dirname(os.path.dirname(os.path.realpath(__file__))))
sys.path.append(f"{TOP}/tools")
import script_help

PAGE, RECIPES = "crates/README.md", "docs/RECIPES.md"
PROGRAM = "uca"
HEAD = """<!-- Written by tools/pages/crates_page.py from crates.txt and the heads of the crates. Do not edit. -->
# The crates

The lowest come first. A crate may use those that its line of `crates.txt` names, and knows them by their contracts
alone. [docs/ARCHITECTURE.md](../docs/ARCHITECTURE.md) has the picture. The head of a crate says more: it is the first
comment of `src/lib.rt` or `src/main.rt`.

**Used by** counts the crates that use a crate, directly or by others. **In `uca`** counts those of them
that belong to the program: `tools/build.py` proves these.
"""


def text_of(path):
    with open(f"{TOP}/{path}", encoding="utf-8") as file:
        return file.read()


def groups_of(text):
    """The groups of crates.txt: the comment above each, and the names of its crates with what each uses."""
    groups = []
    for part in text.strip().split("\n\n"):
        lines = part.split("\n")
        heading = " ".join(it.lstrip("# ") for it in lines if it.startswith("#"))
        crates = [it.partition(":") for it in lines if not it.startswith("#")]
        if crates:
            groups.append((heading, {name.split()[0]: uses.split() for name, _, uses in crates}))
    return groups


def first_sentence(text):
    """A text up to the first end of a sentence, without the rest."""
    return re.match(r".*?[.!?](?=\s+[^\sa-z]|$)", text)[0]


def head_of(crate):
    """The first sentence of the head of a crate."""
    names = [f"crates/{crate}/src/{it}.rt" for it in ("lib", "main")]
    text = text_of(next(it for it in names if os.path.exists(f"{TOP}/{it}")))
    lines = re.match(r"(//!.*\n)+", text)[0].splitlines()
    return first_sentence(" ".join(it.removeprefix("//!").strip() for it in lines))


class Counts:
    """How many crates use each crate: in all, and of those that the program needs."""

    def __init__(self, groups):
        self.uses = {name: uses for _, crates in groups for name, uses in crates.items()}
        self.below = {}
        # the crates stand lowest first
        for name, uses in self.uses.items():
            own = [it for it in uses if it in self.uses]
            self.below[name] = {*own}.union(*(self.below[it] for it in own))

    def of(self, crate):
        users = [it for it, below in self.below.items() if crate in below]
        return len(users), sum(it == PROGRAM or it in self.below[PROGRAM] for it in users)


def row(crate, counts):
    users, in_program = counts.of(crate)
    return f"| [`{crate}`]({crate}) | {head_of(crate)} | {users} | {in_program} |"


def page(groups, counts):
    parts = [HEAD]
    for heading, crates in groups:
        title = first_sentence(heading)
        rest = heading.removeprefix(title).strip()
        table = ["| Crate | What it is | Used by | In `uca` |", "|---|---|--:|--:|", *(row(it, counts) for it in crates)]
        parts += [f"## {title.rstrip('.')}\n", *([f"{rest}\n"] if rest else []), "\n".join(table) + "\n"]
    return "\n".join(parts)


def other_numbers(counts):
    """The rows of the recipes whose numbers are not those of crates.txt, and what they would be."""
    rows = re.findall(r"^\| `(\w+)` \| (\d+ \| \d+) \|", text_of(RECIPES), re.M)
    if not rows:
        yield f"{RECIPES} has no row of a crate and two numbers"
    for name, found in rows:
        wanted = "{} | {}".format(*counts.of(name)) if name in counts.uses else "no such crate"
        if wanted != found:
            yield f"{RECIPES}: `{name}` has {found}, and crates.txt {wanted}"


def main(arguments):
    if arguments not in ([], ["--check"]):
        script_help.stop(__doc__)
    groups = groups_of(text_of("crates.txt"))
    counts = Counts(groups)
    made = page(groups, counts)
    if not arguments:
        with open(f"{TOP}/{PAGE}", "w", encoding="utf-8") as file:
            file.write(made)
        return 0
    is_there = os.path.exists(f"{TOP}/{PAGE}")
    found = [*([] if is_there and text_of(PAGE) == made else [f"{PAGE} is not what tools/pages/crates_page.py writes"]), *other_numbers(counts)]
    print("\n".join(found), end="\n" if found else "")
    return 1 if found else 0


if __name__ == "__main__":
    if script_help.is_asked(__doc__, sys.argv[1:]):
        sys.exit()
    sys.exit(main(sys.argv[1:]))
