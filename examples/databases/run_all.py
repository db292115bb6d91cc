#!/usr/bin/env python3
"""Runs the examples of this folder over the built program, and compares what they give with `uca sort`.

    examples/databases/run_all.py [EXAMPLE..] [--uca PROGRAM] [--lines COUNT] [--part COUNT]
        [--table FILE --data FILE] [--namespaces]

The examples are sqlite, postgresql, parts, workers, tailoring, upgrade, from_keys and page; all of them, unless some are named. `--uca` is the program
(crates/uca/out/uca), `--lines` how many lines are made (20,000). Without `--table` and `--data` it makes both of Unicode's files in
/usr/share/unicode, as docs/UNICODE.md says. The upgrade begins at Unicode 13.0.0, which Perl brings. It starts a PostgreSQL server and a Dask scheduler of its own and stops them at the end.
It installs nothing. It needs these packages of Debian, and an example without its package has failed: unicode-data, sqlite3,
postgresql, postgresql-client, python3-distributed, perl-modules-5.36; for `from_keys` g++, libicu-dev, unicode-cldr-core, wfrench. The last line is `N passed, M failed`.
"""
import argparse
import contextlib
import os
import shutil
import signal
import subprocess
import sys
import tempfile
import time
import unicodedata

HERE = os.path.dirname(os.path.realpath(__file__))
TOP = os.path.dirname(os.path.dirname(HERE))
sys.dont_write_bytecode = True
sys.path[:0] = [HERE, f"{TOP}/tests/by_hand"]

import editions  # noqa: E402
import packages  # noqa: E402
import tries_from_keys  # noqa: E402
from local_servers import Network, PostgreSQL, Workers  # noqa: E402

MOST_LINES = 1_000_000
ALLKEYS = "/usr/share/unicode/allkeys.txt"
BY_KEY = "select word from words order by key, number"
BEGIN = "substring(key from 1 for 2000)"


class Failed(Exception):
    """A command ended with another status than 0."""


class Bench:
    """The files of a run, and what passed and failed so far."""

    def __init__(self, given, room):
        self.given, self.room = given, room
        self.passed = self.failed = 0
        self.environment = {**os.environ, "PATH": f"{room}/bin:{os.environ['PATH']}", "LC_ALL": "C.UTF-8", "TMPDIR": room}
        os.mkdir(f"{room}/bin")
        os.symlink(os.path.realpath(given.uca), f"{room}/bin/uca")
        self.table, self.data = self.unicode_files() if not given.table else (os.path.abspath(given.table), os.path.abspath(given.data))
        self.lines = self.path("lines.txt")
        self.run([sys.executable, f"{HERE}/make_lines.py", str(given.lines)], out=self.lines)

    def path(self, name):
        return os.path.join(self.room, name)

    def run(self, command, lines=None, out=None):
        """What a command prints, or an error. Lines are its standard input, and the output goes to a file where one is named."""
        ran = subprocess.run(command, env=self.environment, input=lines, stdout=open(out, "wb") if out else subprocess.PIPE, stderr=subprocess.PIPE)
        if ran.returncode:
            raise Failed(f"{' '.join(command)[:200]}: {ran.stderr.decode()[-800:].strip() or ran.returncode}")
        return ran.stdout

    def example(self, script, *given, **more):
        """What a script of this folder prints."""
        return self.run([f"{HERE}/{script}", *given], **more)

    def uca(self, command, *given, lines=None):
        return self.run(["uca", command, *given], lines=lines)

    def content(self, name):
        with open(name, "rb") as file:
            return file.read()

    def sorted(self, *options):
        """What `uca sort` prints for the lines."""
        return self.uca("sort", *options, self.table, self.data, lines=self.content(self.lines))

    def check(self, what, holds, said=""):
        """Counts a check, and prints it."""
        self.passed, self.failed = (self.passed + 1, self.failed) if holds else (self.passed, self.failed + 1)
        print("%s %s%s" % ("ok    " if holds else "FAILED", what, f": {said}" if said else ""), flush=True)

    def unicode_files(self):
        """Unicode's table with the rows that it lacks, and a data file (docs/UNICODE.md)."""
        if not os.path.exists(ALLKEYS):
            raise Failed(f"there is no {ALLKEYS}: Debian has it in the package unicode-data; or give --table and --data")
        table, data, maker = self.path("table.txt"), self.path("data.txt"), f"{TOP}/languages/unicode_files.py"
        self.run([sys.executable, maker, "table"], out=table)
        self.run([sys.executable, maker, "data"], out=data)
        return table, data


def letters_of(line):
    """The letters and digits of a line, without accents, case, blanks and signs."""
    return "".join(it for it in unicodedata.normalize("NFD", line).casefold() if it.isalnum())


def lines_with_letters(text, letters):
    """The lines of a text that have these letters, and are otherwise free."""
    return [it for it in text.decode().split("\n") if letters_of(it) == letters]


def level_one(bench, text):
    """Level 1 of a text's key in hexadecimal: the groups before the first 0000."""
    groups = bench.uca("keys", bench.table, bench.data, lines=text.encode()).decode().split()
    return "".join(groups[:groups.index("0000")])


# ---- Databases


def zero_bytes(bench, kind, *database):
    """The scripts that load lines reject U+0000, also in the last line."""
    lines, book = bench.path("zero.txt"), bench.path("zero.book")
    for name, bytes_of in ((lines, b"c\na\0b\n"), (book, b"@book 1\n")):
        with open(name, "wb") as file:
            file.write(bytes_of)
    for script, given in ((f"load_{kind}.sh", []), (f"load_compact_{kind}.sh", [book])):
        try:
            bench.example(script, bench.table, bench.data, *given, lines, *database)
            bench.check(f"{kind}: {script} rejects U+0000", False)
        except Failed as it:
            bench.check(f"{kind}: {script} rejects U+0000", "rror" in str(it) or "ERROR" in str(it))


def try_sqlite(bench):
    """Order, ties and a lookup in SQLite."""
    zero_bytes(bench, "sqlite", bench.path("zero.db"))
    orders = [("order", []), ("order with --identical", ["--identical"]), ("order with --numeric", ["--numeric"])]
    for name, options in [*orders, ("non-ignorable order", ["--weighting", "non-ignorable"])]:
        database = bench.path("words.db")
        bench.example("load_sqlite.sh", bench.table, bench.data, bench.lines, database, *options)
        given = bench.run(["sqlite3", database, BY_KEY])
        bench.check(f"sqlite: {name} of uca sort", given == bench.sorted(*options), f"{given.count(10):,} lines, {os.path.getsize(database):,} bytes")
        if not options:
            sqlite_lookups(bench, database)
        os.remove(database)


def sqlite_lookups(bench, database):
    """The plan of the order, and the texts with the letters of `cafe`."""
    plan = bench.run(["sqlite3", database, f"explain query plan {BY_KEY}"]).decode()
    bench.check("sqlite: the order comes from the index", "USING INDEX words_key" in plan and "TEMP B-TREE" not in plan)
    letters = level_one(bench, "cafe")
    query = f"from words where key >= x'{letters}0000' and key < x'{letters}0001' order by key, number"
    found = bench.run(["sqlite3", database, f"select word {query}"]).decode().split("\n")[:-1]
    wanted = lines_with_letters(bench.sorted(), "cafe")
    bench.check("sqlite: lookup without accents and case", found == wanted and len(set(found)) > 4, f"{len(found)} lines: {', '.join(dict.fromkeys(found))}")
    plan = bench.run(["sqlite3", database, f"explain query plan select word {query}"]).decode()
    bench.check("sqlite: the lookup goes by the index", "SEARCH words USING INDEX words_key (key>? AND key<?)" in plan)


def try_postgresql(bench):
    """Order, ties, a lookup and long texts in a PostgreSQL server of its own."""
    with PostgreSQL(bench.room) as server:
        bench.environment.update(server.environment)
        zero_bytes(bench, "postgresql")
        orders = [("order with --identical", "--identical"), ("order with --numeric", "--numeric"), ("order",)]
        for name, *options in orders:
            bench.run(["psql", "-qc", "drop table if exists words"])
            bench.example("load_postgresql.sh", bench.table, bench.data, bench.lines, *options)
            given = bench.run(["psql", "-Atc", BY_KEY])
            sizes = bench.run(["psql", "-Atc", "select pg_table_size('words'), pg_indexes_size('words')"]).decode().strip().split("|")
            said = "%s lines, table %s, index %s bytes" % tuple(f"{int(it):,}" for it in [given.count(10), *sizes])
            bench.check(f"postgresql: {name} of uca sort", given == bench.sorted(*options), said)
        postgresql_lookups(bench)
        index_limits(bench)
        long_texts(bench)


def postgresql_lookups(bench):
    """The plan of the order, and the texts with the letters of `cafe`."""
    plan = bench.run(["psql", "-Atc", f"explain (costs off) {BY_KEY} limit 20"]).decode()
    bench.check("postgresql: the order comes from the index", plan == "Limit\n  ->  Index Scan using words_key on words\n", plan if "Sort" in plan else "")
    letters = level_one(bench, "cafe")
    query = f"select word from words where key >= decode('{letters}0000', 'hex') and key < decode('{letters}0001', 'hex') order by key, number"
    found = bench.run(["psql", "-Atc", query]).decode().split("\n")[:-1]
    wanted = lines_with_letters(bench.sorted(), "cafe")
    bench.check("postgresql: lookup without accents and case", found == wanted and len(set(found)) > 4, f"{len(found)} lines")
    plan = bench.run(["psql", "-Atc", f"explain {query}"]).decode()
    bench.check("postgresql: the lookup goes by the index", "Index Cond: ((key >=" in plan and "words_key" in plan)


def index_limits(bench):
    """The longest key that goes into an index where nothing can be compressed."""
    for columns, most in [("key", 2692), ("key, number", 2684)]:
        bench.run(["psql", "-qc", "drop table if exists long", "-c", "create table long (key bytea, number bigint)", "-c", f"create index on long ({columns})"])
        taken = []
        for length in (most, most + 1):
            made = f"(select substring(string_agg(sha256(it::text::bytea), '') for {length}) from generate_series(1, 100) as them(it))"
            try:
                bench.run(["psql", "-qv", "ON_ERROR_STOP=1", "-c", f"insert into long values ({made}, 1)"])
                taken.append(length)
            except Failed as it:
                bench.check(f"postgresql: index on ({columns})", taken == [most], str(it).split("ERROR:")[1].split("\n")[0].strip())
        if len(taken) == 2:
            bench.check(f"postgresql: index on ({columns})", False, f"takes more than {most} bytes")


def copy_lines(bench, lines):
    """Adds lines without backslashes and tabs, with their keys, to the table `words`."""
    rows = b"".join(b"\\\\x" + it + b"\n" for it in bench.uca("keys", "--lines", bench.table, bench.data, lines=lines).split(b"\n")[:-1])
    bench.run(["psql", "-qv", "ON_ERROR_STOP=1", "-c", "\\copy words (key, word) from pstdin"], lines=rows)


def long_texts(bench):
    """Texts whose keys the index rejects, and an index over the beginnings of the keys."""
    text = "".join(chr(0x61 + at * at * 7 % 26) + chr(0x61 + at // 26 % 26) + chr(0x61 + (at * 31 + at // 7) % 26) for at in range(2000))
    lines = "".join(it + "\n" for it in [text, text[:-1] + "Z", text + " end", "é" + text, "e\u0301" + text, text]).encode()
    try:
        copy_lines(bench, lines)
        bench.check("postgresql: the index rejects long texts", False, "it takes them")
    except Failed as it:
        bench.check("postgresql: the index rejects long texts", "maximum 2704" in str(it), str(it).split("ERROR:")[1].split("\n")[0].strip())
    bench.run(["psql", "-qv", "ON_ERROR_STOP=1", "-f", f"{HERE}/long_texts.sql"])
    copy_lines(bench, lines)
    order = f"select word from words order by {BEGIN}, key, number"
    wanted = bench.uca("sort", bench.table, bench.data, lines=bench.content(bench.lines) + lines)
    bench.check("postgresql: order of uca sort with long texts", bench.run(["psql", "-Atc", order]) == wanted)
    plan = bench.run(["psql", "-Atc", f"explain {order} limit 20"]).decode()
    bench.check("postgresql: that order comes from the index", "Presorted Key" in plan and "Index Scan using words_begin" in plan)


# ---- Large files

# All key lines in one `sort`, for more lines than `uca sort` takes.
ONE_SORT = """set -o pipefail
split -l 1000000 --filter='uca keys --lines "$TABLE" "$DATA"' "$LINES" | LC_ALL=C sort -s -t "$(printf '\\t')" -k 1,1 | cut -f 2-"""


def measured(bench, what, command, out):
    """Runs a command, and prints its seconds, processor seconds and peak memory. The output goes to a file."""
    begun = time.time()
    with open(out, "wb") as file:
        process = subprocess.Popen(command, env=bench.environment, stdout=file)
        _, status, used = os.wait4(process.pid, 0)
    process.returncode = os.waitstatus_to_exitcode(status)
    if process.returncode:
        raise Failed(f"{what}: status {process.returncode}")
    clock, processor, memory = time.time() - begun, used.ru_utime + used.ru_stime, used.ru_maxrss / 1024
    print(f"       {what}: {clock:.1f} s, {processor:.1f} s of processor time, {memory:.0f} MB in its largest process", flush=True)


def whole_order(bench):
    """The file of all lines in their order: by `uca sort`, or by one `sort` of the key lines where there are too many."""
    whole = bench.path("whole.txt")
    if os.path.exists(whole):
        return whole
    bench.environment.update(TABLE=bench.table, DATA=bench.data, LINES=bench.lines, SHELL="/bin/bash")
    if bench.given.lines <= MOST_LINES:
        measured(bench, "uca sort", ["sh", "-c", 'uca sort "$TABLE" "$DATA" < "$LINES"'], whole)
    else:
        measured(bench, "one sort of all key lines", ["bash", "-c", ONE_SORT], whole)
    return whole


def is_equal(first, second):
    return subprocess.run(["cmp", "-s", first, second]).returncode == 0


def try_parts(bench):
    """A file in parts, which are keyed and sorted alone and then merged."""
    whole, out = whole_order(bench), bench.path("merged.txt")
    said = f"{bench.given.lines:,} lines in parts of {bench.given.part:,}"
    measured(bench, said, [f"{HERE}/sort_parts.sh", bench.table, bench.data, bench.lines, str(bench.given.part)], out)
    bench.check("parts: equal to the whole order", is_equal(whole, out), said)
    os.remove(out)
    with open(bench.path("bad.txt"), "wb") as file:
        file.write(b"a\n" * 10 + b"\xff\n" + b"a\n" * 10)
    try:
        bench.example("sort_parts.sh", bench.table, bench.data, bench.path("bad.txt"), "5")
        bench.check("parts: a line that is rejected ends them", False)
    except Failed as it:
        bench.check("parts: a line that is rejected ends them", "input line 1: Utf8" in str(it))


def python_with_dask():
    """A Python that has Dask's distributed scheduler."""
    for python in (sys.executable, "/usr/bin/python3"):
        if subprocess.run([python, "-c", "import distributed"], stderr=subprocess.DEVNULL).returncode == 0:
            return python
    raise Failed("there is no module distributed: Debian has it in the package python3-distributed")


def other_program(bench):
    """A folder with another program of the name `uca`."""
    folder = bench.path("other")
    os.mkdir(folder)
    with open(f"{folder}/uca", "w") as file:
        file.write('#!/bin/sh\nexec /usr/bin/uca "$@"\n')
    os.chmod(f"{folder}/uca", 0o755)
    return folder


def try_workers(bench):
    """The same file on workers that talk to a scheduler by TCP."""
    python, whole, out = python_with_dask(), whole_order(bench), bench.path("ranges.txt")
    network = Network(3) if bench.given.namespaces else contextlib.nullcontext()
    with network as its, Workers(python, bench.room, bench.environment, 2, its) as workers:
        command = [python, f"{HERE}/dask_sort.py", bench.table, bench.data, bench.lines, bench.path("ranges"), "--scheduler", workers.address]
        said = bench.path("said.txt")
        measured(bench, "two workers of Dask", [*command, "--part", str(bench.given.part)], said)
        bench.run(["sh", "-c", 'cat "$1"/*', "sh", bench.path("ranges")], out=out)
        bench.check("workers: equal to the whole order", is_equal(whole, out), bench.content(said).decode().strip())
        workers.add(other_program(bench))
        command[5] = bench.path("none")
        ran = subprocess.run([*command, "--workers", "3"], env=bench.environment, capture_output=True, text=True)
        bench.check("workers: one with another uca is rejected", ran.returncode == 1 and "has another uca" in ran.stderr, ran.stderr.strip()[-200:])


# ---- After a tailoring

STAYING, MOVING, OTHER, NUMBERS = "&b < bh\n", "&b < bh <<< Bh\n", "&c < ch\n", "&b < 21\n"


def tailored(bench, name, rules):
    """The files of a tailoring: rules, tailored table, certificate."""
    paths = [bench.path(f"{name}.{it}") for it in ("rules", "table", "certificate")]
    with open(paths[0], "w", encoding="utf-8") as file:
        file.write(rules)
    bench.run(["uca", "tailor", bench.table, bench.data, paths[0], paths[2]], out=paths[1])
    return paths


def try_tailoring(bench):
    """Stored keys after a tailoring: which stay, and how the others are made again."""
    database = bench.path("tailored.db")
    with PostgreSQL(bench.room) as server:
        bench.environment.update(server.environment)
        bench.example("load_sqlite.sh", bench.table, bench.data, bench.lines, database)
        bench.example("load_postgresql.sh", bench.table, bench.data, bench.lines)
        mend(bench, "sqlite", ["sqlite3", database, BY_KEY], ["mend_sqlite.sh"], [database])
        mend(bench, "postgresql", ["psql", "-Atc", BY_KEY], ["mend_postgresql.sh"], [])
        os.remove(database)
        bench.run(["psql", "-qc", "drop table words"])
        mend_numbers(bench, "sqlite", ["sqlite3", database, BY_KEY], [database])
        mend_numbers(bench, "postgresql", ["psql", "-Atc", BY_KEY], [])
    others_keep_their_order(bench)


def mend(bench, kind, query, script, database):
    """Makes the keys of affected lines again in a database. Where weights move, the script changes nothing."""
    lines = bench.content(bench.lines)
    rules, table, certificate = tailored(bench, "moving", MOVING)
    before = bench.run(query)
    try:
        bench.example(*script, bench.table, bench.data, rules, table, certificate, *database)
        bench.check(f"tailoring: {kind}: a certificate that moves weights is seen", False)
    except Failed as it:
        bench.check(f"tailoring: {kind}: a certificate that moves weights is seen", "make all keys again" in str(it) and bench.run(query) == before)
    rules, table, certificate = tailored(bench, "staying", STAYING)
    wanted = bench.uca("sort", table, bench.data, lines=lines)
    bench.check(f"tailoring: {kind}: the old keys give another order", before != wanted)
    other = tailored(bench, "other", OTHER)[1]
    wrong = [
        ("other settings are seen", "other files or settings", [bench.table, bench.data, rules, table, certificate, *database, "--weighting", "non-ignorable"]),
        ("another table is seen", "other files or settings", [table, bench.data, rules, table, certificate, *database]),
        ("a table of other rules is seen", "not accepted", [bench.table, bench.data, rules, other, certificate, *database]),
    ]
    for what, said, given in wrong:
        try:
            bench.example(*script, *given)
            bench.check(f"tailoring: {kind}: {what}", False)
        except Failed as it:
            bench.check(f"tailoring: {kind}: {what}", said in str(it) and bench.run(query) == before)
    bench.run([*query[:-1], "insert into words (key, word) values ('', 'b\nbh')"])
    try:
        bench.example(*script, bench.table, bench.data, rules, table, certificate, *database)
        bench.check(f"tailoring: {kind}: a text with a line feed is seen", False)
    except Failed as it:
        bench.check(f"tailoring: {kind}: a text with a line feed is seen", "a text has a line feed" in str(it))
    bench.run([*query[:-1], "delete from words where key = ''"])
    bench.example(*script, bench.table, bench.data, rules, table, certificate, *database)
    affected = bench.uca("affected", bench.data, rules, lines=lines)
    said = f"{affected.count(10):,} of {lines.count(10):,} lines are affected"
    bench.check(f"tailoring: {kind}: with these keys made again it is that of uca sort", bench.run(query) == wanted, said)


def mend_numbers(bench, kind, query, database):
    """With --numeric `b 10` is read as `b 210`, so a rule for `21` affects it."""
    lines = bench.path("numbers.txt")
    with open(lines, "w", encoding="utf-8") as file:
        file.writelines(f"b {it}\n" for it in range(40))
    rules, table, certificate = tailored(bench, "numbers", NUMBERS)
    bench.example(f"load_{kind}.sh", bench.table, bench.data, lines, *database, "--numeric")
    before, wanted = bench.run(query), bench.uca("sort", "--numeric", table, bench.data, lines=bench.content(lines))
    given = [bench.table, bench.data, rules, table, certificate, *database]
    try:
        bench.example(f"mend_{kind}.sh", *given)
        bench.check(f"tailoring: {kind}: keys with --numeric are seen", False)
    except Failed as it:
        said = "other files or settings" in str(it) and bench.run(query) == before
        bench.check(f"tailoring: {kind}: keys with --numeric are seen", said)
    bench.example(f"mend_{kind}.sh", *given, "--numeric")
    bench.check(f"tailoring: {kind}: numbers by value", before != wanted and bench.run(query) == wanted)


def others_keep_their_order(bench):
    """Lines that are not affected have the same order under both tables, also where weights move."""
    lines = bench.content(bench.lines)
    rules, table, _ = tailored(bench, "moving", MOVING)
    affected = set(bench.uca("affected", bench.data, rules, lines=lines).split(b"\n"))
    given = b"".join(it + b"\n" for it in lines.split(b"\n")[:-1] if it not in affected)
    before, after = (bench.uca("sort", it, bench.data, lines=given) for it in (bench.table, table))
    keys = [bench.uca("keys", it, bench.data, lines=given).split(b"\n") for it in (bench.table, table)]
    other = sum(old != new for old, new in zip(*keys))
    bench.check("tailoring: lines that are not affected keep their order", before == after, f"{other:,} of {given.count(10):,} have another key")


# ---- After a new edition


class Upgrade:
    """The files of two editions, lines, and a book that is chosen by their old keys."""

    def __init__(self, bench):
        if packages.missing(["perl-modules-5.36"]):
            raise Failed(f"there is no {packages.OLD_KEYS}: Debian has it in the package perl-modules-5.36")
        self.bench = bench
        self.old, self.old_data, self.changes, self.certificate, self.book, self.new_book = (
            bench.path(f"upgrade.{it}") for it in ("table", "data", "changes", "certificate", "old.book", "new.book"))
        bench.run([sys.executable, f"{TOP}/languages/unicode_files.py", "table", packages.OLD_KEYS], out=self.old)
        with open(self.old_data, "w", encoding="utf-8") as file:
            file.write(editions.old_data(bench.content(bench.data).decode()))
        self.files = [self.old, self.old_data, bench.table, bench.data]
        bench.run(["uca", "changes", *self.files, self.certificate], out=self.changes)
        self.lines, self.kept = bench.path("upgrade.lines"), bench.path("upgrade.kept")
        affected = self.make_lines()
        keys = bench.uca("keys", self.old, self.old_data, lines=bench.content(self.lines))
        bench.run([sys.executable, f"{TOP}/examples/books/choose_book.py", self.old], lines=keys, out=self.book)
        bench.run(["uca", "book", self.certificate, self.book], out=self.new_book)
        bench.check("upgrade: there are affected lines, and others", 100 < len(affected) < bench.given.lines, f"{len(affected):,} of {self.count:,}")

    def make_lines(self):
        """Writes the lines of the run with some listed texts among them, and those that are not affected. It returns the affected ones."""
        texts = [text for text in editions.Listed(self.changes).texts if "\n" not in text][::4]
        lines = self.bench.content(self.bench.lines) + "".join(f"\"it's\" \\{text}\tx\n" for text in texts).encode()
        affected = set(self.bench.uca("affected", "--changes", self.bench.data, self.changes, lines=lines).split(b"\n")[:-1])
        for path, skipped in ((self.lines, set()), (self.kept, affected)):
            with open(path, "wb") as file:
                file.writelines(line + b"\n" for line in lines.split(b"\n")[:-1] if line not in skipped)
        self.count = lines.count(b"\n")
        return affected

    def arguments(self, mode):
        return [mode, *self.files, self.changes, self.certificate]

    def state(self, is_new, lines, *options):
        """What a table of these lines holds under an edition: the header, the book, and each row with its key."""
        table, data, book = [self.bench.table, self.bench.data, self.new_book] if is_new else [self.old, self.old_data, self.book]
        keys = self.bench.uca("keys", *options, table, data, lines=self.bench.content(lines))
        of_keys = [it for it in options if it != "--numeric"]
        compact = self.bench.uca("compact", *of_keys, book, lines=keys).split()
        header = self.bench.uca("keys", "--header", *options, table, data, lines=b"")
        return header + self.bench.content(book) + b"".join(b"%d|%s\n" % row for row in enumerate(compact, 1))


class SQLiteStore:
    """A SQLite database of compact keys. It counts the rows that are written."""

    KIND = "sqlite"

    def __init__(self, bench):
        self.bench, self.database = bench, bench.path("upgrade.db")

    def query(self, statements):
        # a program that was killed may hold the database for a moment
        return self.bench.run(["sqlite3", "-bail", "-cmd", ".timeout 20000", self.database, statements])

    def load(self, upgrade, lines, *options):
        if os.path.exists(self.database):
            os.remove(self.database)
        self.bench.example("load_compact_sqlite.sh", upgrade.old, upgrade.old_data, upgrade.book, lines, self.database, *options)
        self.query("create table written (number); create trigger notes after update on compact_words begin insert into written values (new.number); end")

    def state(self):
        return self.query("select header || char(10) || book from compact_made_by; select number, hex(key) from compact_words order by number")

    def written(self):
        """Which rows were written since they were loaded."""
        return self.query("select number from written order by number")

    def command(self, arguments, options):
        return [f"{HERE}/upgrade_sqlite.sh", *arguments, self.database, *options]


class PostgreSQLStore:
    """A table of compact keys in PostgreSQL. It knows which transaction wrote a row."""

    KIND = "postgresql"

    def __init__(self, bench):
        self.bench, self.loaded = bench, b""

    def query(self, *statements):
        return self.bench.run(["psql", "-qAtv", "ON_ERROR_STOP=1", *(it for statement in statements for it in ("-c", statement))])

    def load(self, upgrade, lines, *options):
        self.query("drop table if exists compact_words, compact_made_by")
        self.bench.example("load_compact_postgresql.sh", upgrade.old, upgrade.old_data, upgrade.book, lines, *options)
        self.loaded = self.query("select distinct xmin from compact_words").decode().strip()

    def state(self):
        return self.query("select header || chr(10) || book from compact_made_by", "select number, upper(encode(key, 'hex')) from compact_words order by number")

    def written(self):
        return self.query(f"select number from compact_words where xmin::text <> '{self.loaded}' order by number")

    def command(self, arguments, options):
        return [f"{HERE}/upgrade_postgresql.sh", *arguments, *options]


def try_upgrade(bench):
    """Compact keys after a new edition, in one transaction."""
    upgrade = Upgrade(bench)
    with PostgreSQL(bench.room) as server:
        bench.environment.update(server.environment)
        for store in SQLiteStore(bench), PostgreSQLStore(bench):
            store.load(upgrade, upgrade.lines)
            upgrade_errors(bench, upgrade, store)
            upgrade_is_killed(bench, upgrade, store)
            store.load(upgrade, upgrade.lines)
            upgrade_all(bench, upgrade, store, "texts", upgrade.lines)
            store.load(upgrade, upgrade.lines, "--numeric")
            upgrade_all(bench, upgrade, store, "texts", upgrade.lines, "--numeric")
            store.load(upgrade, upgrade.kept, "--weighting", "non-ignorable", "--identical")
            upgrade_all(bench, upgrade, store, "texts", upgrade.kept, "--weighting", "non-ignorable", "--identical")
            store.load(upgrade, upgrade.kept)
            store.query("alter table compact_words drop column word")
            upgrade_all(bench, upgrade, store, "none-affected", upgrade.kept)


def changed_rows(before, after):
    """The numbers of rows that are not the same in two states."""
    lines = [set(it.split(b"\n")) for it in (before, after)]
    return b"".join(b"%d\n" % number for number in sorted(int(it.split(b"|")[0]) for it in lines[1] - lines[0] if b"|" in it))


def upgrade_all(bench, upgrade, store, mode, lines, *options):
    """The keys, the header and the book are those of the new edition, and only rows of other bytes were written."""
    what, wanted = " ".join([store.KIND, mode, *options]), upgrade.state(True, lines, *options)
    before, begun = store.state(), time.time()
    bench.run(store.command(upgrade.arguments(mode), options))
    seconds, after = time.time() - begun, store.state()
    bench.check(f"upgrade: {what}: before, the old edition's keys", before == upgrade.state(False, lines, *options))
    bench.check(f"upgrade: {what}: then those that the new edition makes", after == wanted, f"{seconds:.1f} s")
    changed, written = changed_rows(before, after), store.written()
    said = f"{changed.count(10):,} of {wanted.count(b'|'):,} rows"
    bench.check(f"upgrade: {what}: only rows of other bytes are written", changed == written and 0 < changed.count(10) < wanted.count(b"|"), said)
    upgrade_fails(bench, upgrade, store, f"{what}: a second time", "other files or settings", upgrade.arguments(mode), options)


def upgrade_fails(bench, upgrade, store, what, said, arguments, options=()):
    """The script ends with an error, and changes nothing."""
    before = store.state()
    try:
        bench.run(store.command(arguments, options))
        bench.check(f"upgrade: {store.KIND}: {what}", False, "no error")
    except Failed as it:
        bench.check(f"upgrade: {store.KIND}: {what}", said in str(it) and store.state() == before, str(it)[-120:])


def upgrade_errors(bench, upgrade, store):
    """What the script rejects."""
    mode, *files, changes, certificate = upgrade.arguments("texts")
    fewer = bench.path("fewer.changes")
    with open(fewer, "wb") as file:
        file.writelines(line for at, line in enumerate(open(upgrade.changes, "rb")) if at != 1)
    upgrade_fails(bench, upgrade, store, "other settings are seen", "other files or settings", upgrade.arguments(mode), ["--identical"])
    upgrade_fails(bench, upgrade, store, "other files are seen", "other files or settings", [mode, *files[2:], *files[2:], changes, certificate])
    upgrade_fails(bench, upgrade, store, "changes without one of the texts are seen", "not accepted", [mode, *files, fewer, certificate])
    for said, row, back in (
        ("a text with a line feed is seen", "update compact_words set word = 'a' || {}(10) || 'b' where number = 1", "update compact_words set word = 'a' where number = 1"),
        ("a key that is none is seen", "insert into compact_words (key, word) select {}, 'a'", "delete from compact_words where number = (select max(number) from compact_words)"),
    ):
        is_sqlite = store.KIND == "sqlite"
        store.query(row.format(("char" if is_sqlite else "chr") if "(10)" in row else "x'FF'" if is_sqlite else "'\\xff'::bytea"))
        upgrade_fails(bench, upgrade, store, said, "", upgrade.arguments(mode))
        store.query(back)


def upgrade_is_killed(bench, upgrade, store):
    """The script and all that it started are killed at several moments. Each time the table is as it was, or it is that of the new edition."""
    command, states = store.command(upgrade.arguments("texts"), []), [upgrade.state(is_new, upgrade.lines) for is_new in (False, True)]
    begun = time.time()
    store.load(upgrade, upgrade.lines)
    bench.run(command)
    whole, found = time.time() - begun, []
    for part in range(1, 17):
        store.load(upgrade, upgrade.lines)
        process = subprocess.Popen(command, env=bench.environment, start_new_session=True, stdout=subprocess.DEVNULL, stderr=subprocess.DEVNULL)
        time.sleep(whole * part / 16)
        os.killpg(process.pid, signal.SIGKILL)
        process.wait()
        state = store.state()
        found.append(states.index(state) if state in states else 2)
    said = f"{found.count(0)} times the old state, {found.count(1)} times the new one"
    bench.check(f"upgrade: {store.KIND}: killed in the middle, it leaves a whole state", 2 not in found and found.count(0) > 4, said)


# ---- From keys alone


def try_from_keys(bench):
    """What from_keys.py makes of keys, beside ICU."""
    missing = packages.missing(["g++", "libicu-dev", "unicode-cldr-core", "sqlite3", "wfrench"])
    if missing:
        raise Failed(f"Debian's {', '.join(missing)} are not here")
    tries_from_keys.try_all(bench)


# ---- The page


def try_page(bench):
    """The commands of docs/STORED_KEYS.md, with a PostgreSQL server for those that want one."""
    sys.path.insert(0, f"{TOP}/tools/pages")
    import pages

    folder = bench.path("page")
    shutil.copytree(f"{TOP}/examples", f"{folder}/examples")
    commands = pages.commands_of("docs/STORED_KEYS.md", "console(?: postgresql)?")
    with PostgreSQL(bench.room) as server:
        given = pages.outputs_of(commands, folder, {**bench.environment, **server.environment})
    for (command, wanted), got in zip(commands, given + [None] * len(commands)):
        bench.check(f"page: $ {command[:100]}", got == wanted, "" if got == wanted else f"printed:\n{got}\nthe page shows:\n{wanted}")


# ---- All

EXAMPLES = {"sqlite": try_sqlite, "postgresql": try_postgresql, "parts": try_parts, "workers": try_workers, "tailoring": try_tailoring, "upgrade": try_upgrade,
            "from_keys": try_from_keys, "page": try_page}
BOTH = {"sqlite3": "sqlite3", "psql": "postgresql"}
WANTED = {"sqlite": {"sqlite3": "sqlite3"}, "postgresql": {"psql": "postgresql"}, "workers": {"dask-scheduler": "python3-distributed"},
          "tailoring": BOTH, "upgrade": BOTH, "page": BOTH}


def run_example(bench, name):
    """Runs one example. One that cannot run has failed."""
    for program, package in WANTED.get(name, {}).items():
        if not shutil.which(program):
            bench.check(name, False, f"there is no {program}: Debian has it in the package {package}")
            return
    try:
        EXAMPLES[name](bench)
    except (Failed, OSError) as it:
        bench.check(name, False, str(it))


def arguments():
    parser = argparse.ArgumentParser(description="Runs the examples of this folder, and compares what they give with `uca sort`.")
    parser.add_argument("examples", nargs="*", metavar="EXAMPLE", help=", ".join(EXAMPLES))
    parser.add_argument("--uca", default=f"{TOP}/crates/uca/out/uca", help="the program")
    parser.add_argument("--lines", type=int, default=20_000, help="how many lines are made")
    parser.add_argument("--part", type=int, default=3_000, help="the lines of a part of a large file")
    parser.add_argument("--table", help="a table; otherwise Unicode's")
    parser.add_argument("--data", help="its data file")
    parser.add_argument("--namespaces", action="store_true", help="each Dask worker in a network namespace of its own (root)")
    given = parser.parse_args()
    if set(given.examples) - set(EXAMPLES) or bool(given.table) != bool(given.data):
        parser.error(f"the examples are {', '.join(EXAMPLES)}; --table and --data go together")
    if not os.path.exists(given.uca):
        parser.error(f"there is no {given.uca}: run tools/build.py first, or give --uca")
    return given


def main():
    given = arguments()
    with tempfile.TemporaryDirectory(prefix="uca-databases-") as room:
        os.chmod(room, 0o755)
        try:
            bench = Bench(given, room)
        except Failed as it:
            sys.exit(f"{it}\n0 passed, 1 failed")
        for name in given.examples or EXAMPLES:
            run_example(bench, name)
    print(f"{bench.passed} passed, {bench.failed} failed")
    return 1 if bench.failed else 0


if __name__ == "__main__":
    sys.exit(main())
