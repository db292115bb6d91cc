#!/usr/bin/env python3
"""Measures how many bytes an index on keys takes in SQLite and PostgreSQL: whole keys, compact keys, and those of ICU4C.

    tools/build.py && bench/index_bytes.py
    bench/index_bytes.py TABLE DATA LINES ..       a table, a data file, and files of lines

With no arguments the table, the data file and the lines are those of key_bytes.py, without its lines of marks.

The keys are those of `uca keys`, those of `uca compact` by examples/books/general.book, and those of ICU4C (icu_keys.c). Each kind goes into a
table of its own, `number, key`, with the key as `blob` or `bytea`. Then the index on the key is made. Its size is that of its pages: `dbstat` in SQLite,
`pg_relation_size` in PostgreSQL. The mean bytes of an entry are the size divided by the number of keys.

It starts a server of PostgreSQL of its own in a temporary folder, and stops it at the end. It installs nothing. It needs what key_bytes.py needs, and Debian's
packages sqlite3 and postgresql. A database that is not here is left out, and a line says so. The last line says whether each index on compact keys takes at most
1.1 times the bytes of that on ICU4C's keys.
"""
import contextlib
import os
import shutil
import subprocess
import sys
import tempfile

TOP = os.path.dirname(os.path.dirname(os.path.realpath(__file__)))
sys.path[:0] = [f"{TOP}/bench", f"{TOP}/examples/databases"]
sys.dont_write_bytecode = True

import key_bytes  # noqa: E402
from local_servers import PostgreSQL  # noqa: E402

MOST = 1.1
KINDS = "whole", "compact", "icu"


def sqlite(work):
    """A call that makes an index on printed keys in SQLite, and returns how many bytes it has."""

    def size_of(keys):
        database = f"{work}/keys.db"
        inserts = b"".join(b"insert into k (key) values (x'%s');\n" % key for key in keys)
        given = b"begin;\ncreate table k (number integer primary key, key blob not null);\n" + inserts
        given += b"create index k_key on k (key);\ncommit;\nselect sum(pgsize) from dbstat where name = 'k_key';\n"
        found = int(key_bytes.run(["sqlite3", "-bail", database], given))
        os.remove(database)
        return found

    return size_of


def postgresql(environment):
    """A call that makes an index on printed keys in PostgreSQL, and returns how many bytes it has."""

    environment = {**os.environ, **environment, "PGOPTIONS": "-c client_min_messages=warning"}

    def psql(*words, given=None):
        words = ["psql", "-qAt", "-v", "ON_ERROR_STOP=1", *words]
        return subprocess.run(words, check=True, stdout=subprocess.PIPE, input=given, env=environment).stdout

    def size_of(keys):
        psql("-c", "drop table if exists k", "-c", "create table k (number bigint generated always as identity, key bytea not null)")
        psql("-c", "\\copy k (key) from pstdin", given=b"".join(b"\\\\x%s\n" % key for key in keys))
        return int(psql("-c", "create index k_key on k (key)", "-c", "select pg_relation_size('k_key')"))

    return size_of


def keys_of(icu, weighting, table, data, path):
    """The keys of each kind of the lines of a file, as digits."""
    with open(path, "rb") as file:
        lines = file.read()
    whole = key_bytes.run([key_bytes.PROGRAM, "keys", "--lines", "--weighting", weighting, table, data], lines)
    compact = key_bytes.run([key_bytes.PROGRAM, "compact", "--weighting", weighting, f"{key_bytes.BOOKS}/general.book"], whole)
    printed = dict(zip(KINDS, (whole, compact, key_bytes.run([icu, weighting, "keys"], lines))))
    return {kind: [line.split(b"\t", 1)[0] for line in found.splitlines()] for kind, found in printed.items()}


def measure(name, size_of, path, weighting, keys):
    """A row of the table. It returns how many times the bytes of ICU4C's index that on compact keys has."""
    sizes = {kind: size_of(found) for kind, found in keys.items()}
    cells = [f"{sizes[kind] / 1e6:.2f} ({sizes[kind] / len(keys[kind]):.1f})" for kind in KINDS]
    ratios = [f"{sizes[one] / sizes[other]:.2f}" for one, other in (("compact", "whole"), ("compact", "icu"))]
    print("| " + " | ".join([name, os.path.basename(path), weighting, f"{len(keys['whole']):,}", *cells, *ratios]) + " |", flush=True)
    return sizes["compact"] / sizes["icu"]


def measure_all(databases, table, data, files, work):
    """The table, and its greatest ratio to ICU4C."""
    icu = key_bytes.icu_program(work)
    print("| Database | Lines | Weighting | Keys | Whole keys, MB (bytes a key) | Compact keys | ICU4C's keys | Compact / whole | Compact / ICU4C |")
    print("|---|---|---|--:|--:|--:|--:|--:|--:|")
    ratios = []
    for weighting in key_bytes.WEIGHTINGS:
        for path in files:
            keys = keys_of(icu, weighting, table, data, path)
            ratios += [measure(name, size_of, path, weighting, keys) for name, size_of in databases.items()]
    return max(ratios)


def main(table, data, files, work):
    databases = {"SQLite": sqlite(work)} if shutil.which("sqlite3") else {}
    with contextlib.ExitStack() as stack:
        try:
            databases["PostgreSQL"] = postgresql(stack.enter_context(PostgreSQL(work)).environment)
        except OSError as error:
            print(f"PostgreSQL is left out: {error}")
        greatest = measure_all(databases, table, data, files, work)
    print(f"the greatest ratio of compact keys to ICU4C's is {greatest:.2f}: {'at most' if greatest <= MOST else 'MORE THAN'} {MOST}")
    return int(greatest > MOST)


if __name__ == "__main__":
    if len(sys.argv) in (2, 3) or sys.argv[1:2] in (["-h"], ["--help"]):
        sys.exit(__doc__)
    with tempfile.TemporaryDirectory(prefix="uca-index-") as room:
        os.chmod(room, 0o755)
        if len(sys.argv) > 1:
            given = sys.argv[1], sys.argv[2], sys.argv[3:]
        else:
            table, data, files = key_bytes.given_files(room)
            given = table, data, [it for it in files if os.path.basename(it) != "marks"]
        sys.exit(main(*given, room))
