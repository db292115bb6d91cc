#!/usr/bin/env python3
"""Measures calls of the library for C beside ICU4C, and sorting in SQLite and PostgreSQL beside ICU4C's collation.

    tools/build.py uca_c uca_command_in_memory && make -C bindings/c
    bench/bindings.py [TABLE DATA LINES ..]          a table, a data file, and files of lines

With no arguments the table and the data file are Unicode's, and the lines are 100,000 words of nine languages, as in tests/by_hand/bindings.py.

For each file it prints how many calls for keys and for comparisons there are in a second (bindings.c), and how many keys in 1, 2, 4 .. threads
at once. Compact keys are by examples/books/general.book. The lines are sorted first. Then it prints the seconds of sorting without an index,
and of making an index. In SQLite they are those of `uca_key` and `icu_key`, and of the collations `uca_..` and `icu` (sqlite_icu.c). In
PostgreSQL they are those of `uca_key` and COLLATE "und-x-icu". All times but those of threads are processor time, and each is the least of
ROUNDS. The weighting is non-ignorable, but that of PostgreSQL's `uca_key` is shifted.

It installs nothing. It needs Debian's packages gcc, libicu-dev and pkgconf, and for each database those of tests/by_hand/bindings.py. A database that is
not here is left out, and a line says so. Compare only figures of one run.
"""
import os
import re
import subprocess
import sys
import tempfile

TOP = os.path.dirname(os.path.dirname(os.path.realpath(__file__)))
sys.path.insert(0, f"{TOP}/tests/by_hand")
sys.dont_write_bytecode = True

import bindings  # noqa: E402

ROUNDS = 3
BOOK = f"{TOP}/examples/books/general.book"
SORT, INDEX = "SELECT count(*) FROM (SELECT word FROM words ORDER BY {} {}) w;", "CREATE INDEX by_it ON words({});"


def run(words, **named):
    return subprocess.run(words, check=True, stdout=subprocess.PIPE, encoding="utf-8", **named).stdout


def icu_flags():
    return run(["pkg-config", "--cflags", "--libs", "icu-i18n", "icu-uc"]).split()


def compiled(work):
    program = f"{work}/bindings"
    run(["gcc", "-O2", "-std=c11", "-pthread", "-D_POSIX_C_SOURCE=200809L", f"-I{bindings.C}/include", "-o", program, f"{TOP}/bench/bindings.c", f"{bindings.C}/out/libuca.a", *icu_flags()])
    return program


def calls(program, table, data, lines, work):
    """Prints how many calls over sorted lines there are in a second."""
    with open(lines, encoding="utf-8") as file:
        ordered = sorted(set(file))
    path = f"{work}/lines"
    with open(path, "w", encoding="utf-8") as file:
        file.writelines(ordered)
    for line in run([program, table, data, BOOK, path]).splitlines():
        kind, own, icu = line.rsplit(maxsplit=2)
        print(f"| {os.path.basename(lines)} | {kind} | {1e9 / float(own):,.0f} | {1e9 / float(icu):,.0f} | {float(own) / float(icu):.2f} |")


def row(lines, kind, own, icu):
    print(f"| {os.path.basename(lines)} | {kind} | {own:.2f} | {icu:.2f} | {own / icu:.2f} |", flush=True)


# ---- SQLite


def sqlite_seconds(work, table, data, lines, statement):
    """The processor time of a statement over the lines."""
    words = [".bail on", f".load {TOP}/bindings/sqlite/out/uca", f".load {work}/icu", f"SELECT uca_load('{table}', '{data}', 'non-ignorable');"]
    words += ["PRAGMA temp_store = memory;", "PRAGMA cache_size = -400000;", "CREATE TABLE words(word TEXT);", ".mode tabs", f".import {lines} words"]
    least = []
    for _ in range(ROUNDS):
        said = run(["sqlite3", ":memory:"], input="\n".join([*words, ".timer on", statement]))
        least.append(sum(map(float, re.findall(r"(?:user|sys) ([\d.]+)", said.splitlines()[-1]))))
    return min(least)


def sqlite(work, table, data, files):
    bindings.sqlite_says(work, "SELECT 1;")
    print("\n| Lines | SQLite | uca, s | ICU4C, s | Ratio |\n|---|---|--:|--:|--:|")
    run(["gcc", "-O2", "-std=c11", "-shared", "-fPIC", "-o", f"{work}/icu.so", f"{TOP}/bench/sqlite_icu.c", *icu_flags()])
    fingerprint = bindings.fingerprint_of(table, data, "non-ignorable")
    compared = [("a key", f"uca_key(word, '{fingerprint}')", "icu_key(word)"), ("a collation", f"word COLLATE uca_{fingerprint}", "word COLLATE icu")]
    for lines in files:
        for kind, statement in ("sorted by", SORT), ("index on", INDEX):
            for name, own, icu in compared:
                row(lines, f"{kind} {name}", *(sqlite_seconds(work, table, data, lines, statement.format(it, "LIMIT -1 OFFSET 1")) for it in (own, icu)))


# ---- PostgreSQL


def postgresql_seconds(server, statement):
    """The processor time of a statement in one process of the server."""
    settings = "SET work_mem = '1GB'; SET maintenance_work_mem = '1GB'; SET max_parallel_workers_per_gather = 0; SET max_parallel_maintenance_workers = 0;"
    least = []
    for _ in range(ROUNDS):
        words = f"{settings} SET client_min_messages = log; SET log_statement_stats = on; BEGIN; {statement} SET log_statement_stats = off; ROLLBACK;"
        ran = subprocess.run(["psql", "-XAtq", "-v", "ON_ERROR_STOP=1"], input=words, capture_output=True, text=True, check=True, env={**os.environ, **server.environment})
        found = re.findall(r"!\s+([\d.]+) s user, ([\d.]+) s system, ", ran.stderr)
        least.append(max(float(user) + float(system) for user, system in found))
    return min(least)


def postgresql(work, table, data, files):
    print("\n| Lines | PostgreSQL | `uca_key`, s | ICU4C, s | Ratio |\n|---|---|--:|--:|--:|")
    with bindings.postgresql_server(work, table, data) as (server, says, _):
        for lines in files:
            with open(lines, encoding="utf-8") as file:
                values = ", ".join("('" + line.rstrip("\n").replace("'", "''").replace("\0", "") + "')" for line in file)
            says(f"DROP TABLE IF EXISTS words; CREATE TABLE words(word text); INSERT INTO words VALUES {values}; ANALYZE words;")
            for kind, statement in ("sorted", SORT), ("index", INDEX):
                row(lines, kind, *(postgresql_seconds(server, statement.format(it, "OFFSET 1")) for it in ("(uca_key(word))", '(word COLLATE "und-x-icu")')))


def given_files(work):
    """Unicode's table and data file, and words of nine languages."""
    for kind in ("table", "data"):
        with open(f"{work}/{kind}.txt", "w", encoding="utf-8") as it:
            it.write(run([sys.executable, f"{TOP}/languages/unicode_files.py", kind]))
    with open(f"{work}/words", "w", encoding="utf-8") as it:
        it.writelines(word + "\n" for word in bindings.words(100_000))
    return f"{work}/table.txt", f"{work}/data.txt", [f"{work}/words"]


def main(table, data, files, work):
    program = compiled(work)
    print("| Lines | Call | uca, a second | ICU4C, a second | Ratio of times |\n|---|---|--:|--:|--:|")
    for lines in files:
        calls(program, table, data, lines, work)
    for name, measure in ("SQLite", sqlite), ("PostgreSQL", postgresql):
        try:
            measure(work, table, data, files)
        except bindings.NotHere as it:
            print(f"{name} is left out, since {it}")


if __name__ == "__main__":
    if len(sys.argv) in (2, 3) or sys.argv[1:2] in (["-h"], ["--help"]):
        sys.exit(__doc__)
    with tempfile.TemporaryDirectory() as room:
        main(*((sys.argv[1], sys.argv[2], sys.argv[3:]) if len(sys.argv) > 1 else given_files(room)), room)
