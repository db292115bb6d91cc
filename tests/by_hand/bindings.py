#!/usr/bin/env python3
"""Builds the library for C, the module for Python and the extensions of SQLite and PostgreSQL, and tries them. It installs nothing.

    tests/by_hand/bindings.py [--uca PATH]        crates/uca/out/uca, unless another program is named

First prove and build the static library: `tools/build.py uca_c uca_command_in_memory`. Then this script makes bindings/c/out and runs

- `calls`, which calls everything in uca.h with good and bad input, also in threads: as it is, under valgrind and its helgrind, and with the
  sanitizers of gcc;
- `memory`, in which each allocation fails in turn: as it is, and under valgrind;
- `sizes`, over texts and tables of many sizes, where memory may not run out;
- `stacks`, in which no call may take more of the stack than uca.h says;
- `keys` and the module over files of examples/, whose keys and orders have to be those of `uca keys` and `uca sort`;
- the names that libuca.so.1 exports, which have to be those of uca.h, and the header as C++;
- a program that is compiled by what pkg-config says of a temporary installation, and the programs of docs/BINDINGS.md, also with the sanitizers;
- the tests of the module for Python, as it is and from a wheel with the library inside, and those of keys, threads, signals and forks under valgrind;
- statements of SQLite with the extension, over files that are the same or others, and those of docs/BINDINGS.md; also in threads, and where each allocation fails in turn;
- upgrades from the edition of examples/ to that of examples/editions/, in Python, SQLite and PostgreSQL. upgrades.py does the same with Unicode's tables;
- languages by their tags, by files of examples/ and by those that languages/uca_files.py makes: in Python, C, SQLite and PostgreSQL, and what names no files there;
- statements, dumps and replication of PostgreSQL with its extension, roles that make functions to be run by a superuser, and the commands, settings and statements of docs/BINDINGS.md. The extension is installed to a copy of the server's programs in a temporary folder. Each server
  has a folder of its own, listens on a Unix socket there, and is stopped afterwards;
- all four over Unicode's table, and over that table tailored for Danish: 100,000 words of nine languages have the keys of `uca keys` and the order of `uca sort`.
  Compact keys are those of `uca compact`. Ranges of keys find exactly the words that a search through all keys finds. The sizes of indexes are printed.

It needs Debian's packages of NEEDS, and some checks those of WANTS. What needs a command, a program or a file that is not here is not run, and a line says so. The last line is `N passed, M failed`, and how many were not run if there are any.
"""
import argparse
import os
import random
import re
import shutil
import sys
import tempfile

import packages
from bindings_c import c_words, exports, header, installed, keys_like, make, page, sanitizers, stored_run, valgrind
from bindings_postgresql import (
    by_language, language_server, postgresql, postgresql_books, postgresql_changes, postgresql_checks, postgresql_columns, postgresql_compact,
    postgresql_dependents, postgresql_dumps, postgresql_languages, postgresql_like, postgresql_numbers, postgresql_one_transaction, postgresql_owners,
    postgresql_page, postgresql_replication, postgresql_roles, postgresql_settings, postgresql_traps, postgresql_upgrade_files, postgresql_upgrade_page,
    postgresql_upgrades, postgresql_use_language, postgresql_words,
)
from bindings_python import python, python_environment, python_valgrind, python_words, sorted_like, wheel
from bindings_shared import ARCHIVES, BOOK, C, EXAMPLES, NotHere, PHONE_BOOK, TOP, compacted, content, quoted, run, same, unicode_files, words
from bindings_sqlite import (
    sqlite, sqlite_arguments, sqlite_attached, sqlite_authorizers, sqlite_books, sqlite_checks, sqlite_compact, sqlite_compact_upgrades, sqlite_files,
    sqlite_languages, sqlite_like, sqlite_loads, sqlite_lookups, sqlite_memory, sqlite_moved, sqlite_moves, sqlite_numbers, sqlite_page, sqlite_restore,
    sqlite_schemas, sqlite_texts, sqlite_threads, sqlite_upgrade_loads, sqlite_upgrades, sqlite_words,
)

NEEDS = ["gcc", "make"]
WANTS = ["g++", "pkgconf", "valgrind", "sqlite3", "libsqlite3-dev", "postgresql", "postgresql-server-dev-15", "unicode-data", "unicode-cldr-core", *packages.LISTS]
UCA_FILES = f"{TOP}/languages/uca_files.py"


def language_page(program):
    """What docs/BINDINGS.md says of languages from nothing, by the files that languages/uca_files.py makes."""

    def check(work):
        for it in (program, UCA_FILES, "/usr/share/unicode/allkeys.txt", "/usr/share/unicode/cldr/common/collation"):
            if not os.path.exists(it):
                raise NotHere(f"there is no {it}")
        blocks = {tuple(it.split()): block for it, block in re.findall(r"^```(\w+ (?:language|postgresql))\n(.*?)^```$", content(f"{TOP}/docs/BINDINGS.md").decode(), re.S | re.M)}
        environment = {**python_environment(), "UCA_FILES": UCA_FILES, "XDG_DATA_HOME": f"{work}/home", "XDG_DATA_DIRS": f"{work}/none"}
        made_by = [sys.executable, UCA_FILES, "--uca", program]
        for tag in ("zh", "pl"):
            run([*made_by, tag], env=environment)
        in_python = blocks["python", "language"]
        said = run([sys.executable, "-W", "error", "-c", in_python], env=environment).decode()
        same(said.splitlines(), re.findall(r"# (\S.*)", in_python), "the page's program in Python")
        keys_of_language(work, program, environment, made_by)
        with language_server(work) as (server, says, folder):
            shutil.rmtree(folder)
            run([*made_by, "--into", folder, "pl", PHONE_BOOK], env=environment)
            says("DROP EXTENSION uca;")
            statements = blocks["sql", "postgresql"]
            server.restart(blocks["conf", "postgresql"])
            same(says(statements).splitlines(), re.findall(r"^-- (.*)", statements, re.M), "the page's statements")
            for tag in (PHONE_BOOK, "pl"):
                server.restart(by_language(tag))
                says(f"SELECT FROM uca_use_language('{tag}', again => true);")
                same(says("SELECT uca_fingerprint();"), run([program, "fingerprint", *kept_in(folder, tag)]).decode(), f"the fingerprint of {tag}")
                keys_of_server(says, program, kept_in(folder, tag))

    return check


def keys_of_server(says, program, paths):
    """Keys of a server by these files are those of `uca keys`."""
    lines = content(f"{EXAMPLES}/lines.txt")
    rows = ", ".join(f"({number}, {quoted(it)})" for number, it in enumerate(lines.decode().removesuffix("\n").split("\n")))
    found = says(f"SELECT upper(encode(uca_key(line), 'hex')) FROM (VALUES {rows}) its(number, line) ORDER BY number;")
    same(found, run([program, "keys", *paths], input=lines).decode().replace(" ", ""), f"keys by {paths[0]}")


def kept_in(folder, tag):
    """The table and the data file of the only edition of a language in a folder."""
    editions = [it for it in os.listdir(folder) if os.path.isdir(f"{folder}/{it}/{tag}")]
    same(len(editions), 1, f"editions of {tag} in {folder}")
    return [f"{folder}/{editions[0]}/{tag}/{it}.txt" for it in ("table", "data")]


def keys_of_language(work, program, environment, made_by):
    """Keys of a collator of a language are those of `uca keys $(uca-files TAG)`, by the weighting of the table and by each other one."""
    lines = content(f"{EXAMPLES}/lines.txt")
    for tag in ("pl", PHONE_BOOK):
        paths = run([*made_by, tag], env=environment).decode().split()
        for weighting in (None, "shifted", "non-ignorable"):
            words = [program, "keys", *(["--weighting", weighting] if weighting else []), *paths]
            program_of_keys = (f"import sys, uca\ncollator = uca.Collator.of_language({tag!r}, weighting={weighting!r})\n"
                               "for it in sys.stdin.buffer.read().removesuffix(b'\\n').split(b'\\n'): print(collator.key(it).hex().upper())")
            wanted = run(words, input=lines)
            same(run([sys.executable, "-c", program_of_keys], input=lines, env=environment), wanted.replace(b" ", b""), f"keys of {tag}, {weighting}, in Python")
            same(run([f"{C}/out/keys", *paths, *([weighting] if weighting else [])], input=lines), wanted, f"keys of {tag}, {weighting}, in C")


def levels_of(key):
    """Levels 1 and 2 of a key that `uca keys` prints, as digits."""
    groups = key.split(" ")
    first = groups.index("0000")
    second = groups.index("0000", first + 1)
    return "".join(groups[:first]), "".join(groups[first + 1 : second])


def looked_up(program, files, words, keys):
    """What lookups by some texts have to find, by a search through all keys. Each text has three lists of the numbers of words. These words begin with
    its letters, have the same letters, or have the same letters and accents."""
    chosen = random.Random(2)
    texts = sorted({*(it[: chosen.randint(1, 6)] for it in chosen.sample(words, 60)), *chosen.sample(words, 20), "cafe", "e", "x-y"})
    its = [levels_of(it) for it in run([program, "keys", *files], input="".join(f"{it}\n" for it in texts).encode()).decode().splitlines()]
    begin, same_letters, same_accents = ({it: [] for it in kind} for kind in ((it[0] for it in its), (it[0] for it in its), its))
    for number, (letters, accents) in enumerate(map(levels_of, keys.decode().splitlines()), 1):
        for length in range(0, len(letters) + 4, 4):
            if letters[:length] in begin and length <= len(letters):
                begin[letters[:length]].append(number)
        if letters in same_letters:
            same_letters[letters].append(number)
        if (letters, accents) in same_accents:
            same_accents[letters, accents].append(number)
    return [(text, (begin[both[0]], same_letters[both[0]], same_accents[both])) for text, both in zip(texts, its)]


def over_unicode(program, tried):
    """One of the four over Unicode's table and over a tailored one, with 100,000 words, by whole keys and by compact ones."""

    def check(work):
        data, tables = unicode_files(work, program)
        its_words = words(100_000)
        text = "".join(it + "\n" for it in its_words).encode()
        with open(f"{work}/words.txt", "wb") as it:
            it.write(text)
        for table in tables:
            files = ["--weighting", "shifted", table, data]
            keys, order = (run([program, command, *files], input=text) for command in ("keys", "sort"))
            lookups = looked_up(program, files, its_words, keys)
            for book, its_keys in ((None, keys.replace(b" ", b"")), (BOOK, compacted(program, keys, BOOK))):
                tried(work, table, data, book, its_keys.decode(), order.decode(), lookups)

    return check


def main():
    parser = argparse.ArgumentParser(description=__doc__, formatter_class=argparse.RawDescriptionHelpFormatter)
    parser.add_argument("--uca", default=f"{TOP}/crates/uca/out/uca")
    program = os.path.realpath(parser.parse_args().uca)
    missing = [it for it in ARCHIVES if not os.path.exists(it)]
    if missing:
        sys.exit(f"there is no {missing[0]}: run `tools/build.py uca_c uca_command_in_memory` first")
    checks = [("make", make), ("valgrind", valgrind), ("sanitizers", sanitizers), ("header in C++", header), ("exported names", exports),
              ("installation", installed), ("stored run", stored_run), ("docs/BINDINGS.md", page), ("keys", keys_like(program)), ("Python", python), ("Python under valgrind", python_valgrind), ("wheel", wheel), ("sort", sorted_like(program)), ("SQLite", sqlite),
              ("SQLite's loads", sqlite_loads), ("SQLite's authorizers", sqlite_authorizers), ("SQLite's files", sqlite_files), ("SQLite's languages", sqlite_languages), ("SQLite's compact keys", sqlite_compact), ("SQLite's numbers", sqlite_numbers), ("SQLite's arguments", sqlite_arguments), ("SQLite's checks", sqlite_checks),
              ("SQLite's books", sqlite_books), ("SQLite's lookups", sqlite_lookups), ("SQLite's schemas", sqlite_schemas), ("SQLite's restores", sqlite_restore),
              ("SQLite's attached databases", sqlite_attached), ("SQLite's threads", sqlite_threads), ("SQLite's moves from thread to thread", sqlite_moved), ("SQLite's upgrades", sqlite_upgrades),
              ("SQLite's loads of upgrades", sqlite_upgrade_loads), ("SQLite's compact keys in upgrades", sqlite_compact_upgrades), ("SQLite's moves", sqlite_moves),
              ("SQLite's indexes of texts", sqlite_texts), ("SQLite's memory", sqlite_memory), ("SQLite on the page", sqlite_page), ("SQLite's orders", sqlite_like(program)),
              ("PostgreSQL", postgresql), ("PostgreSQL's settings", postgresql_settings), ("PostgreSQL's numbers", postgresql_numbers), ("PostgreSQL's languages", postgresql_languages),
              ("PostgreSQL's uca_use_language", postgresql_use_language),
              ("PostgreSQL's dumps", postgresql_dumps),
              ("PostgreSQL's replication", postgresql_replication), ("PostgreSQL's changes", postgresql_changes), ("PostgreSQL's roles", postgresql_roles),
              ("PostgreSQL's owners", postgresql_owners), ("PostgreSQL's traps", postgresql_traps), ("PostgreSQL's dependents", postgresql_dependents), ("PostgreSQL's columns", postgresql_columns), ("PostgreSQL's compact keys", postgresql_compact),
              ("PostgreSQL's checks", postgresql_checks), ("PostgreSQL's books", postgresql_books), ("PostgreSQL's upgrades", postgresql_upgrades), ("PostgreSQL's files of upgrades", postgresql_upgrade_files),
              ("languages on the page", language_page(program)), ("PostgreSQL on the page", postgresql_page), ("PostgreSQL's upgrade on the page", postgresql_upgrade_page),
              ("PostgreSQL's upgrade in one transaction", postgresql_one_transaction), ("PostgreSQL's orders", postgresql_like(program))]
    tried = {"C": c_words, "Python": python_words, "SQLite": sqlite_words, "PostgreSQL": postgresql_words}
    checks += [(f"100,000 words in {name}", over_unicode(program, it)) for name, it in tried.items()]
    passed = failed = skipped = 0
    with tempfile.TemporaryDirectory() as work:
        for name, check in checks:
            try:
                check(work)
                passed += 1
            except NotHere as it:
                skipped += 1
                print(f"{name}: not run, since {it}")
            except AssertionError as it:
                failed += 1
                print(f"{name}: {it}")
    print(f"{passed} passed, {failed} failed" + (f", {skipped} not run" if skipped else ""))
    return 1 if failed else 0


if __name__ == "__main__":
    sys.exit(main())
