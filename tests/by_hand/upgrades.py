#!/usr/bin/env python3
"""Takes stored keys from Unicode 13.0.0 to the edition of /usr/share/unicode inside of SQLite and PostgreSQL, while rows come in.

    tools/build.py uca uca_c uca_command_in_memory     # first
    tests/by_hand/upgrades.py [--uca PATH] [--rows COUNT] [--kills COUNT] [PART ..]

The parts are keys and texts, both in SQLite, postgresql and separators; all of them, unless some are named.
The files are those of tests/by_hand/editions.py, and the lines too: 100,000, unless another number is given. The extensions are built here, and nothing is
installed. In each database

- the keys of the lines are made by the old edition, and then taken to the new one by the statements of docs/BINDINGS.md;
- the move is killed at several moments inside of its transaction, eight as a rule. In SQLite all rows have to be as they were, or as they will be. In
  PostgreSQL other connections write all the time, and each row that they did not write has to be as it was;
- the move runs while other connections add, change and delete rows. In SQLite they wait for its end, and each row has to be as they wrote it last. In
  PostgreSQL rows come in meanwhile;
- then each key has to be the one that `uca keys` prints under the new edition, and the order that of `uca sort`.

The part texts does so with an index of SQLite that holds texts: its affected rows alone are taken to the new edition. The part separators shows that an index of
texts in PostgreSQL cannot go this way, and has to be made again. What each step took is printed. The last line is `N passed, M failed`.
"""
import argparse
import os
import random
import re
import shutil
import signal
import sqlite3
import subprocess
import sys
import tempfile
import threading
import time

import bindings_postgresql
import bindings_shared
import editions
import packages

NEEDS = ["gcc", "make", "sqlite3", "libsqlite3-dev", "postgresql", "postgresql-server-dev-15", "unicode-data", "perl-modules-5.36"]
WANTS = []
ROWS, MORE_ROWS, KILLS, SEED = 100_000, 20_000, 8, 20_261_128
# How often a writer of SQLite adds, changes and deletes rows of each edition at least.
WRITES = 20
# The lines that `uca sort` and `uca keys` take.
MOST_LINES = 1_000_000
FILES = ["old.txt", "old_data.txt", "new.txt", "new_data.txt", "changes.txt", "certificate.txt"]
PAGE = f"{bindings_shared.TOP}/docs/BINDINGS.md"
see = editions.see


class Given:
    """The six files, their fingerprints, the lines that are stored, other lines, and how often a move is killed."""

    def __init__(self, folder, rows, kills):
        self.folder, self.files, self.kills = folder, [folder.file(it) for it in FILES], kills
        editions.make(folder)
        status, _, said, _ = folder.run("changes", *FILES[:4], FILES[5], out=FILES[4])
        see("changes", status == 0, said or "found")
        self.old, self.new = (bindings_shared.fingerprint_of(*self.files[at : at + 2]) for at in (0, 2))
        chosen = random.Random(SEED)
        editions.LINES = rows + MORE_ROWS
        lines = [it for it in editions.make_lines(folder, chosen) if "\0" not in it]
        chosen.shuffle(lines)
        self.lines, self.others = lines[:rows], lines[rows:]

    def printed(self, command, lines):
        """What `uca keys` or `uca sort` prints of lines under the new edition."""
        status, out, said, _ = self.folder.run(command, "--weighting", "shifted", *FILES[2:4], given=editions.as_input(lines))
        if status:
            raise AssertionError(f"uca {command}: {said}")
        return out

    def check(self, what, rows):
        """The rows are pairs of a text and the digits of its key, in the order of the keys."""
        # each part begins with the last line of the one before it
        parts = [rows[at : at + MOST_LINES] for at in range(0, max(len(rows) - 1, 1), MOST_LINES - 1)]
        lines = [[word for word, _ in part] for part in parts]
        see(f"{what}: the order is that of uca sort", all(editions.as_input(it) == self.printed("sort", it) for it in lines), f"{len(rows):,} rows")
        keys = ["".join(f"{key}\n" for _, key in part).encode() for part in parts]
        see(f"{what}: the keys are those of uca keys", all(one == self.printed("keys", it).replace(b" ", b"") for one, it in zip(keys, lines)), f"{len(rows):,} keys")


def statements(heading, given):
    """The statements of a section of docs/BINDINGS.md, by blocks, with the fingerprints of these files."""
    section = re.search(rf"^### {heading}\n(.*?)^##", bindings_shared.content(PAGE).decode(), re.S | re.M).group(1)
    return [it.replace(bindings_shared.USED, given.old).replace(bindings_shared.NEXT, given.new) for it in re.findall(r"```sql\n(.*?)```", section, re.S)]


# ---- SQLite


class Sqlite:
    """A database in a file, and statements that run in the program sqlite3 with both editions and the upgrade."""

    def __init__(self, work, given):
        self.path, self.given = f"{work}/words.db", given
        loads = [f"SELECT 0 WHERE uca_load('{given.files[at]}', '{given.files[at + 1]}', 'shifted') IS NULL;" for at in (0, 2)]
        names = ", ".join(f"'{it}'" for it in given.files)
        self.head = "\n".join([".bail on", ".timeout 600000", f".load {bindings_shared.TOP}/bindings/sqlite/out/uca", *loads,
                               f"SELECT 0 WHERE uca_load_upgrade({names}, 'shifted', '', '{given.old}') IS NULL;", ""])

    def opened(self):
        """A process that reads statements."""
        process = subprocess.Popen(["sqlite3", "-separator", "\t", self.path], stdin=subprocess.PIPE, stdout=subprocess.PIPE, stderr=subprocess.STDOUT)
        process.stdin.write(self.head.encode())
        return process

    def start(self, script):
        process = self.opened()
        process.stdin.write(f"{script}\n".encode())
        process.stdin.close()
        return process

    def run(self, script):
        """What the statements print, and how many seconds they took."""
        start = time.perf_counter()
        process = self.start(script)
        said = process.stdout.read().decode()
        if process.wait():
            raise AssertionError(f"sqlite3: {said[-300:]}")
        return said, time.perf_counter() - start

    def fill(self, table):
        """A new database with a table of the lines, which are its first column."""
        for it in (self.path, f"{self.path}-wal", f"{self.path}-shm", f"{self.path}-journal"):
            if os.path.exists(it):
                os.remove(it)
        with sqlite3.connect(self.path) as made:
            made.execute(f"CREATE TABLE {table}")
            made.executemany(f"INSERT INTO {table.partition(' ')[0]}) VALUES (?)", ((it,) for it in self.given.lines))
        made.close()

    def rows(self, table="words", column="word", by="key"):
        """The texts in an order, with the digits of their new keys."""
        key = "hex(key)" if table == "words" else f"hex(uca_key({column}, '{self.given.new}'))"
        said, _ = self.run(f"SELECT hex(CAST({column} AS BLOB)), {key} FROM {table} ORDER BY {by}, rowid;")
        return [(bytes.fromhex(word).decode(), digits) for word, digits in (it.split("\t") for it in said.splitlines())]

    def is_inside(self):
        """Whether a transaction has begun to write and has not ended: it has a journal."""
        return os.path.exists(f"{self.path}-journal")

    def start_inside(self, script):
        """A process that runs the script, whose transaction has begun to write."""
        process = self.start(script)
        while not self.is_inside():
            if process.poll() is not None:
                raise AssertionError(f"no transaction was seen: {process.stdout.read().decode()[-300:]}")
            time.sleep(0.0005)
        return process

    def seconds_inside(self, script):
        """How many seconds the transaction of the script takes from its first write on."""
        process = self.start_inside(script)
        start = time.perf_counter()
        while self.is_inside():
            time.sleep(0.0005)
        end = time.perf_counter()
        said = process.stdout.read().decode()
        if process.wait():
            raise AssertionError(f"sqlite3: {said[-300:]}")
        return end - start

    def is_killed(self, what, script, seconds, state, states):
        """The script is killed at several moments of its transaction. Each time the state is one of two, and the file is kept as it was before. The
        journal that a killed process leaves shows that its transaction had not ended."""
        kept, found, inside = f"{self.path}.kept", [], 0
        shutil.copy(self.path, kept)
        for at in range(self.given.kills):
            process = self.start_inside(script)
            time.sleep(seconds * at / self.given.kills)
            process.send_signal(signal.SIGKILL)
            process.wait()
            inside += self.is_inside()
            # where the transaction was over, the machine has less other work than before
            seconds *= 1 if self.is_inside() else 0.75
            its_state = state()
            found.append(states.index(its_state) if its_state in states else 2)
            for it in (f"{self.path}-wal", f"{self.path}-shm", f"{self.path}-journal"):
                if os.path.exists(it):
                    os.remove(it)
            shutil.copy(kept, self.path)
        see(f"{what}: it is killed inside of its transaction", 2 * inside >= self.given.kills > 0, f"{inside} of {self.given.kills} times")
        see(f"{what}: killed in the middle, it leaves a whole state", 2 not in found and found.count(0) >= inside, f"{found.count(0)} times the old one, {found.count(1)} times the new one")


class Connection:
    """A process of the program sqlite3 that stays, and takes statements in turn."""

    def __init__(self, database):
        self.process = database.opened()
        self.ask("")

    def ask(self, statements):
        """The lines that the statements print."""
        self.process.stdin.write(f"{statements}\nSELECT 'end';\n".encode())
        self.process.stdin.flush()
        lines = []
        while (line := self.process.stdout.readline().decode()) != "end\n":
            lines.append(line)
            if not line:
                raise AssertionError(f"sqlite3: {''.join(lines)[-300:]}")
        return lines

    def close(self):
        self.process.stdin.close()
        self.process.stdout.read()
        self.process.wait()


class Writer:
    """A connection that adds, changes and deletes rows all the time. It knows the text that each row has to have. Of each row that it writes it knows
    the fingerprint that the database had then, and when it wrote. `statements` are an INSERT of a text, an UPDATE of a row, and a DELETE."""

    KINDS = ("added", "changed", "deleted")

    def __init__(self, database, table, fingerprint, statements):
        self.database, self.given, self.table = database, database.given, table
        self.statements = dict(zip(self.KINDS, (f"{it} RETURNING rowid, {fingerprint};" for it in statements)))
        self.rows, self.writes = dict(enumerate(self.given.lines, 1)), []
        self.error, self.stops = None, threading.Event()
        self.thread = threading.Thread(target=self.work, daemon=True)
        self.thread.start()

    def work(self):
        try:
            connection = Connection(self.database)
            self.write(connection, random.Random(SEED))
            connection.close()
        except (AssertionError, OSError, ValueError) as error:
            self.error = error

    def write(self, connection, chosen):
        while not self.stops.is_set():
            kind, text, row = chosen.choice(("added", *self.KINDS)), chosen.choice(self.given.others), chosen.randint(1, len(self.given.lines))
            if kind != "added" and row not in self.rows:
                continue
            start = time.perf_counter()
            (said,) = connection.ask(self.statements[kind].format(bindings_shared.quoted(text), row))
            end = time.perf_counter()
            number, fingerprint = said.split()
            if kind == "deleted":
                del self.rows[row]
            else:
                self.rows[int(number)] = text
            self.writes.append((start, end, kind, fingerprint))
            time.sleep(0.001)

    def counts(self, fingerprint):
        """How many rows it added, changed and deleted while the database had this fingerprint."""
        found = [kind for _, _, kind, its in [*self.writes] if its == fingerprint]
        return [found.count(it) for it in self.KINDS]

    def move(self, what, statements, column):
        """Runs the statements of the move while it writes, and checks what it wrote. Who writes meanwhile waits for the end of the move."""
        old, new = self.given.old, self.given.new
        try:
            mover = Connection(self.database)
            self.wait_for(old)
            start = time.perf_counter()
            mover.ask(statements)
            end = time.perf_counter()
            mover.close()
            self.wait_for(new)
        finally:
            self.stops.set()
            self.thread.join()
        see(f"{what}: the writer has no error", self.error is None, self.error or f"{len(self.writes):,} rows")
        for name, it in (("old", old), ("new", new)):
            see(f"{what}: a writer adds, changes and deletes rows of the {name} edition", min(self.counts(it)) >= WRITES, ", ".join(f"{count} {kind}" for count, kind in zip(self.counts(it), self.KINDS)))
        found = [it for *_, it in self.writes]
        see(f"{what}: from the first row of the new edition on, all are of it", found == sorted(found, key=(old, new).index), "in the order of the writes")
        waited = max((last - begin for begin, last, *_ in self.writes if begin < end and last > start), default=0)
        see(f"{what}: who writes while the move runs waits for its end", waited > (end - start) / 2, f"{waited:.1f} s; the move took {end - start:.1f} s")
        said, _ = self.database.run(f"SELECT rowid, hex(CAST({column} AS BLOB)) FROM {self.table};")
        rows = {int(number): bytes.fromhex(word).decode() for number, word in (it.split("\t") for it in said.splitlines())}
        see(f"{what}: each row has the text that was written last", rows == self.rows, f"{len(rows):,} rows")

    def wait_for(self, fingerprint):
        """Waits until it has added, changed and deleted rows of this fingerprint."""
        while self.thread.is_alive() and min(self.counts(fingerprint)) < WRITES:
            time.sleep(0.05)


def sqlite_keys(work, given):
    """The keys of a table are taken to the new edition, while another connection writes."""
    database = Sqlite(work, given)
    database.fill("words(word TEXT, key BLOB)")
    made, page, _ = statements("A new edition in SQLite", given)
    of_made_by = made[made.index("CREATE TABLE made_by") : made.index("CREATE TABLE words")]
    triggers = made[made.index("CREATE TRIGGER") : made.index("INSERT INTO words")]
    database.run(f"{of_made_by} UPDATE words SET key = uca_key(word, fingerprint) FROM made_by; CREATE INDEX by_key ON words(key);\n{triggers}")
    move = re.search(r"^UPDATE made_by .*;$", page, re.M).group()
    affected, seconds = database.run(f"SELECT count(*) FROM words WHERE uca_affected(word, '{given.old}', '{given.new}');")
    see("SQLite: there are affected lines, and others", 100 < int(affected) < len(given.lines), f"{int(affected):,} of {len(given.lines):,}, found in {seconds:.1f} s")
    count = f"SELECT fingerprint, (SELECT count(*) FROM words WHERE key = uca_key(word, fingerprint)) FROM made_by;"
    states = [f"{it}\t{len(given.lines)}\n" for it in (given.old, given.new)]
    kept = bindings_shared.content(database.path)
    seconds = database.seconds_inside(move)
    with open(database.path, "wb") as file:
        file.write(kept)
    database.is_killed("SQLite: a table of keys", move, seconds, lambda: database.run(count)[0], states)
    fingerprint = "(SELECT fingerprint FROM made_by)"
    key = f"uca_key({{0}}, {fingerprint})"
    writes = (f"INSERT INTO words VALUES ({{0}}, {key})", f"UPDATE words SET word = {{0}}, key = {key} WHERE rowid = {{1}}", "DELETE FROM words WHERE rowid = {1}")
    writer = Writer(database, "words", fingerprint, writes)
    writer.move("SQLite", move, "word")
    see("SQLite: no key is another one", database.run(count)[0] == f"{given.new}\t{len(writer.rows)}\n", "by uca_key")
    given.check("SQLite", database.rows())


def sqlite_texts(work, given):
    """An index that holds texts: only affected rows are taken out and put back, while another connection writes."""
    database = Sqlite(work, given)
    database.fill("names(name TEXT, note TEXT)")
    database.run(f"CREATE INDEX by_name ON names(name COLLATE uca_{given.old});")
    page = statements("A new edition in SQLite", given)[2]
    move = page[page.index("BEGIN IMMEDIATE;") : page.index("COMMIT;") + len("COMMIT;")]
    # a state is the test of the index, what a query finds by it, the schema, and all rows
    ok = lambda fingerprint: ("SELECT integrity_check FROM pragma_integrity_check LIMIT 1;"
                              f"SELECT count(*) FROM names WHERE name >= '' COLLATE uca_{fingerprint}; SELECT sql FROM sqlite_schema WHERE name = 'by_name';"
                              "SELECT rowid, hex(CAST(name AS BLOB)), note IS NULL FROM names NOT INDEXED ORDER BY rowid;")
    states = [database.run(ok(given.old))[0]]
    kept = bindings_shared.content(database.path)
    seconds = database.seconds_inside(move)
    states.append(database.run(ok(given.new))[0])
    holds = states[1].startswith("ok\n") and states[1] == states[0].replace(given.old, given.new)
    see("SQLite: an index of texts is in order, and has the same rows", holds, f"the move took {seconds:.1f} s")
    _, again = database.run(f"DROP INDEX by_name; CREATE INDEX by_name ON names(name COLLATE uca_{given.new});")
    with open(database.path, "wb") as file:
        file.write(kept)
    less = database.seconds_inside(re.sub(r"CREATE TABLE tested.*DROP TABLE tested;\n", "", move, flags=re.S))
    print(f"     to make this index again takes {again:.1f} s, and the move without the test of the index {less:.1f} s")
    with open(database.path, "wb") as file:
        file.write(kept)
    state = lambda: database.run(ok(given.new if given.new in database.run("SELECT sql FROM sqlite_schema WHERE name = 'by_name';")[0] else given.old))[0]
    database.is_killed("SQLite: an index of texts", move, seconds, state, states)
    fingerprint = "(SELECT substr(sql, instr(sql, 'uca_') + 4, 64) FROM sqlite_schema WHERE name = 'by_name')"
    writes = ("INSERT INTO names(name) VALUES ({0})", "UPDATE names SET name = {0} WHERE rowid = {1}", "DELETE FROM names WHERE rowid = {1}")
    Writer(database, "names", fingerprint, writes).move("SQLite: an index of texts", move, "name")
    said, _ = database.run("SELECT integrity_check FROM pragma_integrity_check;")
    see("SQLite: an index of texts is in order after a writer", said == "ok\n", said.strip()[:200])
    plan, _ = database.run(f"EXPLAIN QUERY PLAN SELECT name FROM names ORDER BY name COLLATE uca_{given.new};")
    see("SQLite: a query reads that index", "by_name" in plan, plan.splitlines()[-1])
    given.check("SQLite: an index of texts", database.rows("names", "name", f"name COLLATE uca_{given.new}"))


# ---- PostgreSQL


class Writers:
    """Connections that write all the time: three add rows, and one changes and deletes rows that were there at the beginning. They know the text that each
    row has to have, but for those of a batch that an error ended: these are the unsure ones."""

    def __init__(self, store, given):
        self.store, self.given, self.stops = store, given, threading.Event()
        # the rows that came in, and the rows that were asked to change, by batches
        self.added, self.asked, self.lock = [], [], threading.Lock()
        self.rows, self.unsure = dict(enumerate(given.lines, 1)), set()
        self.threads = [threading.Thread(target=self.write, args=(number,), daemon=True) for number in range(4)]
        for it in self.threads:
            it.start()

    def write(self, number):
        chosen = random.Random(number)
        while not self.stops.is_set():
            texts = chosen.choices(self.given.others, k=20)
            if number:
                made = "".join(f"INSERT INTO words(word) VALUES ({bindings_shared.quoted(it)}) RETURNING id;\n" for it in texts)
            else:
                rows = [chosen.randint(1, len(self.given.lines)) for _ in texts]
                self.asked.append(rows)
                made = "".join(f"UPDATE words SET word = {bindings_shared.quoted(it)} WHERE id = {row};\n" for it, row in zip(texts[1:], rows)) + f"DELETE FROM words WHERE id = {rows[-1]};\n"
            said, is_whole = self.store.tried(made)
            numbers = [int(it) for it in said.split()]
            with self.lock:
                self.added += [(time.perf_counter(), it) for it in numbers]
                if not is_whole:
                    self.unsure.update(numbers if number else rows)
                elif number:
                    self.rows.update(zip(numbers, texts))
                else:
                    self.rows.update((row, it) for it, row in zip(texts[1:], rows) if row in self.rows)
                    self.rows.pop(rows[-1], None)
            if not is_whole:
                time.sleep(0.1)

    def stop(self):
        self.stops.set()
        for it in self.threads:
            it.join()

    def check(self, found):
        """`found` are the texts of all rows by their numbers."""
        see("PostgreSQL: each row that came in is there", self.added != [] and all(number in found for _, number in self.added), f"{len(self.added):,} rows")
        sure = {*self.rows, *range(1, len(self.given.lines) + 1)} - self.unsure
        other = sum(found.get(it) != self.rows.get(it) for it in sure)
        gone = sum(it not in found for it in sure)
        holds = other == 0 and gone > 0 and len(sure) > len(self.given.lines) / 2
        see("PostgreSQL: each row has the text that was written last", holds, f"{len(sure) - gone:,} rows, and {gone:,} are deleted; {other:,} are other ones")


class Store:
    """A server with both editions."""

    def __init__(self, server):
        self.server, self.environment = server, {**os.environ, **server.environment, "PGOPTIONS": "-c client_min_messages=error"}

    def start(self, script, *words):
        process = subprocess.Popen(["psql", "-XAtq", *words], stdin=subprocess.PIPE, stdout=subprocess.PIPE, stderr=subprocess.PIPE, env=self.environment)
        process.stdin.write(script.encode())
        process.stdin.close()
        return process

    def tried(self, script):
        """What the statements print, and whether there was no error."""
        process = self.start(script)
        said, errors = process.stdout.read().decode(), process.stderr.read()
        return said, process.wait() == 0 and not errors

    def run(self, script):
        """What the statements print, and how many seconds they took."""
        start = time.perf_counter()
        process = self.start(script, "-v", "ON_ERROR_STOP=1")
        said, errors = process.stdout.read().decode(), process.stderr.read().decode()
        if process.wait():
            raise AssertionError(f"psql: {errors[:300]}")
        return said, time.perf_counter() - start


def escaped(text):
    """A text for COPY."""
    return "".join({"\\": "\\\\", "\t": "\\t", "\r": "\\r", "\n": "\\n"}.get(it, it) for it in text)


def postgresql_is_killed(store, writers, update, seconds, given):
    """The UPDATE is killed at several moments, the last time with the server. Afterwards each row is as it was before, unless a writer changed or
    deleted it meanwhile. No row has a wrong key."""
    all_rows = "SELECT id, md5(ROW(word, key_e7f5, key_d8c5)::text) FROM words;"
    wrong = f"SELECT count(*) FROM words WHERE key_d8c5 IS NOT NULL AND key_d8c5 IS DISTINCT FROM uca_key(word, '{given.new}');"
    # a transaction has an identifier as soon as it has written
    inside, its_process = "backend_xid IS NOT NULL", "FROM pg_stat_activity WHERE query LIKE 'UPDATE words SET key_d8c5%' AND pid <> pg_backend_pid();"
    found, written, compared = [], 0, []
    for at in range(1, given.kills + 1):
        # the last batch may not be there yet
        first = max(len(writers.asked) - 1, 0)
        before = {*store.run(all_rows)[0].split()}
        process = store.start(update)
        time.sleep(seconds * at / (2 * given.kills))
        if at == given.kills:
            said, _ = store.run(f"SELECT {inside} {its_process}")
            store.server.call("pg_ctl", "-w", "-m", "immediate", "stop")
            store.server.start(store.settings)
        else:
            said, _ = store.run(f"SELECT {inside}, pg_terminate_backend(pid) {its_process}")
        written += said.startswith("t")
        errors = process.stderr.read().decode()
        process.wait()
        after = {*store.run(all_rows)[0].split()}
        asked = {row for batch in writers.asked[first:] for row in batch}
        others = {int(it.partition("|")[0]) for it in before - after} - asked
        compared.append(len(before) - len(asked))
        its_wrong = int(store.run(wrong)[0])
        if others or its_wrong or not errors:
            found.append(f"{len(others):,} others are not as they were, {its_wrong:,} keys are wrong: {errors.partition(chr(10))[0] or 'it was not killed'}")
    see("PostgreSQL: the UPDATE is killed after it has written", 2 * written >= given.kills > 0, f"{written} of {given.kills} times")
    holds = not found and min(compared, default=0) > len(given.lines) / 2
    see("PostgreSQL: killed in the middle, it leaves each row as it was, but for the writers' rows", holds, "; ".join(found) or f"{min(compared):,} rows or more, {given.kills} times")


def postgresql_keys(work, given):
    """The keys of a table are taken to the new edition, while other connections write it."""
    # a server that is killed reads what it wrote since the last checkpoint
    more = "checkpoint_timeout = 30s\nmax_wal_size = 256MB\n"
    with bindings_postgresql.postgresql_server(work, *given.files[:2], editions=given.files[2:], more=more) as (server, _, settings):
        store = Store(server)
        store.settings = settings
        blocks = statements("A new edition in PostgreSQL", given)
        made, step1, update, step3, step4 = blocks
        made = re.sub(r"INSERT INTO words .*\n", "", made).replace("(word text", "(id serial, word text")
        store.run(made)
        lines = "".join(f"{escaped(it)}\n" for it in given.lines)
        _, seconds = store.run(f"COPY words(word) FROM STDIN;\n{lines}\\.\n")
        print(f"     {len(given.lines):,} rows come in, with their keys: {seconds:.1f} s")
        store.run("CREATE INDEX by_id ON words (id); CREATE INDEX by_key ON words (key_e7f5); ANALYZE words;")
        writers = Writers(store, given)
        time.sleep(1)
        _, seconds = store.run(step1)
        print(f"     step 1, under writers: {seconds:.1f} s")
        _, seconds = store.run(f"BEGIN;\n{update}ROLLBACK;\n")
        postgresql_is_killed(store, writers, update, seconds, given)
        start = time.perf_counter()
        _, seconds = store.run(update)
        end = start + seconds
        meanwhile = sum(start < at < end for at, _ in writers.added)
        see("PostgreSQL: rows come in while the UPDATE runs", meanwhile > 0, f"{meanwhile:,} rows in {seconds:.1f} s")
        for number, step in ((3, step3), (4, step4)):
            _, seconds = store.run(step)
            print(f"     step {number}, under writers: {seconds:.1f} s")
        time.sleep(1)
        writers.stop()
        wrong, _ = store.run(f"SELECT count(*) FROM words WHERE key_d8c5 IS DISTINCT FROM uca_key(word, '{given.new}');")
        see("PostgreSQL: no key is another one", wrong == "0\n", wrong.strip())
        said, _ = store.run("SET enable_seqscan = off; SELECT id, encode(convert_to(word, 'UTF8'), 'hex'), upper(encode(key_d8c5, 'hex')) FROM words ORDER BY key_d8c5, id;")
        rows = [(int(number), bytes.fromhex(word).decode(), key) for number, word, key in (it.split("|") for it in said.splitlines())]
        writers.check({number: word for number, word, _ in rows})
        given.check("PostgreSQL", [(word, key) for _, word, key in rows])


def postgresql_separators(work, given):
    """Why PostgreSQL makes an index of texts again. The way of SQLite takes affected rows out and puts them back under the new order. Here it leaves
    deleted texts as separators between pages, in the old order. Then amcheck finds an error, and look-ups do not find each row."""
    with bindings_postgresql.postgresql_server(work, *given.files[:2], editions=given.files[2:]) as (server, says, settings):
        lines = "".join(f"{escaped(it)}\n" for it in given.lines)
        says(f"CREATE EXTENSION amcheck; CREATE TABLE names (name uca_text);\nCOPY names FROM STDIN;\n{lines}\\.\nCREATE INDEX by_name ON names (name);")
        amcheck, by_index = "SELECT bt_index_parent_check('by_name', true, true);", "SET enable_seqscan = off; SET enable_bitmapscan = off;"
        # each row is looked for by the index
        looked_for = f"{by_index} SET enable_hashjoin = off; SET enable_mergejoin = off; SELECT count(*) FROM (SELECT name || '' AS name FROM names OFFSET 0) it JOIN names ON names.name = it.name::uca_text;"
        its_own = re.sub(r"^uca\.(table|data|changes|certificate)_file.*\n", "", settings, flags=re.M).replace("uca.next_", "uca.")
        uses = "UPDATE uca_files SET fingerprint = '{}';"
        see("PostgreSQL: an index of texts finds each row", says(f"{amcheck} {looked_for}") == f"\n{len(given.lines)}\n", f"{len(given.lines):,} rows")
        says(f"CREATE TABLE moved AS SELECT name FROM names WHERE uca_affected(name::text, '{given.old}', '{given.new}'); DELETE FROM names USING moved WHERE names.name = moved.name;")
        says("VACUUM (INDEX_CLEANUP on) names;")
        affected = int(says("SELECT count(*) FROM moved;"))
        server.restart(its_own)
        says(uses.format(given.new))
        said = says(f"{by_index} SET enable_sort = off; SELECT count(*) FROM (SELECT name, lag(name) OVER (ORDER BY name) FROM names) it WHERE name < lag;")
        see("PostgreSQL: without the affected rows, the others are in the order of both editions", said == "0\n", f"{len(given.lines) - affected:,} rows, in the order of the index")
        # an entry that points to the index is a separator, and one that points to the heap is a row
        process = Store(server).start(amcheck)
        errors = process.stderr.read().decode()
        process.wait()
        holds = "item order invariant violated" in errors and "(points to index tid=" in errors and "heap" not in errors
        see("PostgreSQL: without the affected rows, separators of the index are in the old order", holds, " ".join(errors.split()[:24]))
        says("INSERT INTO names SELECT name FROM moved;")
        found = int(says(looked_for))
        see("PostgreSQL: when the affected rows are put back, look-ups do not find each row", found < len(given.lines), f"{len(given.lines) - found:,} of {len(given.lines):,} rows are not found; {affected:,} were affected")
        says(f"{uses.format(given.old)} SELECT uca_use_files(again => true);")
        see("PostgreSQL: an index that is made again finds each row", says(f"{amcheck} {looked_for}") == f"\n{len(given.lines)}\n", f"{len(given.lines):,} rows")
        said = says(f"{by_index} SET enable_sort = off; SELECT encode(convert_to(name::text, 'UTF8'), 'hex'), upper(encode(uca_key(name::text), 'hex')) FROM names ORDER BY name;")
        given.check("PostgreSQL: an index of texts", [(bytes.fromhex(word).decode(), key) for word, key in (it.split("|") for it in said.splitlines())])


PARTS = {"keys": sqlite_keys, "texts": sqlite_texts, "postgresql": postgresql_keys, "separators": postgresql_separators}


def main():
    parser = argparse.ArgumentParser(description=__doc__, formatter_class=argparse.RawDescriptionHelpFormatter)
    parser.add_argument("--uca", default=f"{bindings_shared.TOP}/crates/uca/out/uca", help="the program")
    parser.add_argument("--rows", type=int, default=ROWS, help="how many rows there are at the beginning")
    parser.add_argument("--kills", type=int, default=KILLS, help="how often each move is killed")
    parser.add_argument("parts", nargs="*", metavar="PART", help=", ".join(PARTS))
    options = parser.parse_args()
    if unknown := {*options.parts} - {*PARTS}:
        parser.error(f"no part is named {', '.join(sorted(unknown))}: they are {', '.join(PARTS)}")
    packages.stop_without(NEEDS)
    os.environ["PGCTLTIMEOUT"] = "600"  # a server that was killed may start slowly
    bindings_shared.run(["make", "-s", "-C", bindings_shared.C])
    bindings_shared.run(["make", "-s", "-C", f"{bindings_shared.TOP}/bindings/sqlite"])
    with tempfile.TemporaryDirectory() as work:
        given = Given(editions.Folder(options.uca, work), options.rows, options.kills)
        for name in options.parts or PARTS:
            try:
                PARTS[name](work, given)
            except (AssertionError, OSError) as error:
                see(name, False, error)
    print(f"{editions.COUNTS[True]} passed, {editions.COUNTS[False]} failed")
    return 1 if editions.COUNTS[False] else 0


if __name__ == "__main__":
    sys.exit(main())
