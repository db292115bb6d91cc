#!/usr/bin/env python3
"""Lets each allocation of PostgreSQL's extension fail in turn, and judges what the server does. It installs nothing.

    tests/by_hand/postgresql_memory.py [NAME ..]        all checks, unless some are named

First prove and build the static library: `tools/build.py uca_c uca_command_in_memory`. Then this script makes bindings/c/out, and the extension with `bindings/postgresql/memory.c`. The head of that file
says what is an allocation here, and what never fails. The extension goes to a copy of the server's programs in a temporary folder. Servers run there as those of bindings.py do. In each run
of a check one allocation fails: each alone, and each third with all after it, unless the check says otherwise. After its error a statement makes no more calls, so more runs with all after
it would show little. The checks are

- names: what takes memory, and is called by the extension or by the library, is in memory.c;
- starts: the server starts with both editions, with the present one, or with none, and says why. Or it does not start, and is out of memory. What it has makes the right keys. Each of
  the first 200 allocations fails alone, and each fourth of the others. With a book it is each fourth of all. Each 12th fails with all after it;
- languages: the same for a start by `uca.language`. Each of its first 20 allocations fails alone, and each 16th with all after it;
- keys and texts: statements that make keys, and statements that compare texts. Each run is in a session that has called nothing of the extension before. A statement prints what it prints
  with memory, or is the error 53200, out of memory. The next statement of this session is right;
- sessions: the same statements in one session, which goes on after each error. In the end it has as many blocks of the library as a session in which nothing failed;
- parallel: statements in which workers compare, and an index that they build;
- writes: statements that write rows or indexes. After an error all is as before, and else as it has to be. amcheck looks through each index;
- pages: an insertion that splits pages of an index, and VACUUM, which deletes some;
- transactions: after an error the transaction goes on by a savepoint or by a handler of PL/pgSQL. Others end in a cursor or at COMMIT;
- editions: the transaction of docs/BINDINGS.md that takes a table to the next edition. All rows have the keys of one edition;
- files: CREATE EXTENSION, and `uca_use_language(.., again => true)` after a start by a language. Each does all or nothing. In the second one each third allocation
  fails alone, and each 13th with all after it.

No process of the server may end by a signal. Keys and orders were worked by hand from examples/table.txt, or are those of bindings.py, which were. A check prints how many runs it had, and how
many of them were errors. In the others the extension did without that memory. It needs Debian's packages of NEEDS, and takes about two minutes. The last line is `N passed, M failed`.
"""
import argparse
import contextlib
import itertools
import mmap
import os
import re
import shutil
import struct
import subprocess
import sys
import tempfile

import bindings_postgresql
import bindings_shared
import packages
from bindings_postgresql import RUN_OF_65
from bindings_shared import (
    AFFECTED, BOOK, DATA, EDITIONS, LOOKED_THROUGH, LOOKUPS, MENDED, NEW_DATA, NEW_TABLE, OTHER, TABLE, TOP, content, fingerprint_of, quoted, run, same,
)
from postgresql_texts import BY_INDEX, PARALLEL, has

NEEDS, WANTS = ["gcc", "make", "postgresql", "postgresql-server-dev-15"], []
EXTENSION = f"{TOP}/bindings/postgresql"
FOREVER = 1 << 62
OUT_OF_MEMORY = re.compile(r"ERROR:  53200: (uca: )?out of memory")
# A server that starts quickly, and in which no process calls the extension by itself.
SMALL = "autovacuum = off\nshared_buffers = 4MB\nmax_connections = 10\njit = off\n"


# ---- Servers and sessions


class Memory:
    """The file of numbers that memory.c shares."""

    def __init__(self, folder):
        self.path = f"{folder}/numbers"
        with open(self.path, "wb") as file:
            file.write(bytes(32))
        os.chmod(self.path, 0o666)
        with open(self.path, "r+b") as file:
            self.numbers = mmap.mmap(file.fileno(), 32)

    def fail(self, first, last):
        """From now on these allocations fail. They are counted from 1."""
        self.numbers[:24] = struct.pack("3q", first, last, 0)

    def stop(self):
        """From now on none fails. Returns how many there were."""
        count = struct.unpack("4q", self.numbers)[2]
        self.fail(0, 0)
        return count

    def take_blocks(self):
        """How many blocks the library took, and did not give back, since this was called before."""
        blocks = struct.unpack("4q", self.numbers)[3]
        self.numbers[24:] = bytes(8)
        return blocks


class Session:
    """A psql that takes statements while it runs."""

    END = "end of the statements"

    def __init__(self, server):
        environment = {**os.environ, **server.environment, "PGOPTIONS": "-c client_min_messages=error"}
        self.psql = subprocess.Popen(["psql", "-XAtq"], stdin=subprocess.PIPE, stdout=subprocess.PIPE, stderr=subprocess.STDOUT, text=True, env=environment)
        self.does("\\set VERBOSITY verbose\n\\set SHOW_CONTEXT never")

    def says(self, statements):
        """What these print, as lines. An error is one line, with its code."""
        self.psql.stdin.write(f"{statements}\n\\warn {self.END}\n")
        self.psql.stdin.flush()
        lines = []
        for line in self.psql.stdout:
            line = line.removesuffix("\n")
            if line == self.END:
                return [it for it in lines if not re.match("(DETAIL|HINT|LOCATION|[A-Z]+ NAME):  ", it)]
            lines.append(line)
        raise AssertionError(f"the session ended: {lines}")

    def does(self, statements):
        """Statements that print nothing."""
        same(self.says(statements), [], statements)

    def begin_anew(self, database="postgres"):
        """From here on it has another process of the server."""
        self.does(f"\\c {database}")


class Tries:
    """What a check uses: a server with both editions, a session in which allocations fail, and another one in which none does."""

    def __init__(self, server, settings, memory, book):
        self.server, self.settings, self.memory, self.book = server, settings, memory, book
        self.old, self.new = (fingerprint_of(*it, book=book) for it in ((TABLE, DATA), (NEW_TABLE, NEW_DATA)))
        self.tried, self.other = Session(server), Session(server)
        self.runs = self.errors = 0

    def each(self, once, alone=None, together=None):
        """Calls `once` with the first and the last allocation that fails, as long as the first one is there. It returns how many there were. Each fails alone, and each third one with all after
        it, unless others are given."""
        before = self.runs
        for numbers, is_alone in ((alone or itertools.count(1), True), (together or itertools.count(1, 3), False)):
            for first in numbers:
                if once(first, first if is_alone else FOREVER) < first:
                    break
                self.runs += 1
        if self.runs == before:
            raise AssertionError("no allocation failed")

    def failing(self, statements, first, last):
        """What statements print while these fail, and how many allocations there were."""
        self.memory.fail(first, last)
        found = self.tried.says(statements)
        return found, self.memory.stop()

    def is_error(self, found, wanted, count, first, what):
        """Whether these lines are the error where an allocation failed. Else they are what is wanted."""
        errors = [line for line in found if not line.startswith("ERROR:  25P02: current transaction is aborted")]
        if count >= first and len(errors) == 1 and OUT_OF_MEMORY.fullmatch(errors[0]):
            self.errors += 1
            return True
        same(found, wanted, f"{what:.200}, where allocation {first} of {count} fails")
        return False

    def try_statement(self, before, statement, wanted, then=lambda is_error: None):
        """A statement in sessions that have called nothing of the extension, except in what comes before it. `then` gets whether it was an error."""

        def once(first, last):
            self.tried.begin_anew()
            self.tried.does(before)
            found, count = self.failing(statement, first, last)
            is_error = self.is_error(found, wanted, count, first, statement)
            self.tried.does("ROLLBACK;")
            same(self.tried.says(after(self)), AFTER, f"{statement:.200}, and then")
            then(is_error)
            return count

        self.each(once)


@contextlib.contextmanager
def memory_server(work, book=None):
    """A server whose allocations fail when it is told."""
    run(["make", "-s", "-C", EXTENSION, "uca_memory.so"])
    bindings_postgresql.postgresql_programs(work)
    library = run([os.environ.get("PG_CONFIG", "pg_config"), "--pkglibdir"]).decode().strip()
    shutil.copy(f"{EXTENSION}/uca_memory.so", f"{work}/server{library}/uca.so")
    memory = Memory(work)
    os.environ["UCA_MEMORY"] = memory.path
    with bindings_postgresql.postgresql_server(work, book=book, editions=EDITIONS[2:], more=SMALL) as (server, _, settings):
        tries = Tries(server, settings, memory, book)
        try:
            yield tries
        finally:
            memory.stop()
            tries.tried.psql.communicate()
            tries.other.psql.communicate()
            if found := re.search(r".*(?:terminated by signal|PANIC:|TRAP:).*", content(f"{server.folder}/log").decode(errors="replace")):
                raise AssertionError(found[0])


def both_books(check):
    """A check with a server that has no book, and then with one that has. Returns how many runs and how many errors there were."""

    def checked(work):
        runs = errors = 0
        for book in (None, BOOK):
            with memory_server(work, book) as tries:
                check(tries)
                runs, errors = runs + tries.runs, errors + tries.errors
        return runs, errors

    return checked


def no_book(check):
    """A check with a server that has no book."""

    def checked(work):
        with memory_server(work) as tries:
            check(tries)
            return tries.runs, tries.errors

    return checked


# ---- Statements, and what they print


def array(texts):
    return f"ARRAY[{', '.join(map(quoted, texts))}]"


def shown(key, fingerprint, book):
    """The digits of a whole key, or of what a compact key stands for."""
    return f"encode(uca_expand({key}, '{fingerprint}'), 'hex')" if book else f"encode({key}, 'hex')"


def whole_key(weights):
    """The digits of the whole key of small letters without accents, which have these weights."""
    return "0000".join(["".join(weights), *(it * len(weights) for it in ("0020", "0002", "ffff"))])


def with_code(error):
    """An error of a state that another server would not have, as a session prints it."""
    return error.replace("ERROR:  ", "ERROR:  55000: ")


# In order, with their keys by both editions.
WORDS = [text for text, _, _ in MENDED]
OLD_KEYS, NEW_KEYS = ([keys[at].lower() for keys in MENDED] for at in (1, 2))
FEW_IN_ORDER = f"SELECT string_agg(it, '|' ORDER BY it::uca_text) FROM unnest({array(['ch', 'b', '', 'c-h', 'cb'])}) it;"
FEW_SORTED = "|b|cb|c-h|ch"


def after(tries):
    """What a session is asked for after each failure."""
    keys = [shown(f"uca_key({quoted(WORDS[2])})", tries.old, tries.book), shown(f"uca_key({quoted(WORDS[3])}, '{tries.new}')", tries.new, tries.book)]
    return f"SELECT {', '.join(keys)}, uca_affected('ch', '{tries.old}', '{tries.new}'), 'cb' < 'c-h'::uca_text, 'c-h' < 'ch'::uca_text;"


AFTER = [f"{OLD_KEYS[2]}|{NEW_KEYS[3]}|t|t|t"]


def of_keys(tries):
    """Statements on keys: settings that come before, the statement, and what it prints."""
    old, new, book = tries.old, tries.new, tries.book
    named, whole = f"'{old}', '{new}'", f"uca_expand(uca_key('b a', '{new}'), '{new}')"
    made = [("uca_key(it)", old, OLD_KEYS), (f"uca_key(it, '{old}')", old, OLD_KEYS), (f"uca_key(it, '{new}')", new, NEW_KEYS), (f"uca_rekey(uca_key(it, '{old}'), {named})", new, NEW_KEYS)]
    found = "SELECT string_agg(it, ' ' ORDER BY uca_key(it)) FROM (VALUES {}) v(it) WHERE uca_key(it) >= {} AND uca_key(it) < {};"
    rejected = "ERROR:  22P02: uca: the text is rejected: LongRun at 1"
    listed = [
        *((f"SELECT string_agg({shown(key, by, book)}, ' ') FROM unnest({array(WORDS)}) it;", " ".join(keys)) for key, by, keys in made),
        *((found.format(LOOKED_THROUGH, call.format("low"), call.format("high")), wanted) for call, wanted in LOOKUPS[:2]),
        (f"SELECT uca_key('A', '{new}', 1) = uca_range_low('á', '{new}', 1), uca_key('áb', '{new}') < uca_prefix_high('A', '{new}');", "t|t"),
        (f"SELECT left(encode(uca_any_key({RUN_OF_65}), 'hex'), 8), left(encode(uca_any_key({RUN_OF_65}, '{new}'), 'hex'), 8);", "0161cc81|0161cc81"),
        (f"SELECT uca_check('a') IS NULL, uca_check({RUN_OF_65}), uca_check({RUN_OF_65}, '{new}');", "t|LongRun at 1|LongRun at 1"),
        (f"SELECT uca_key({RUN_OF_65});", rejected),
        (f"SELECT uca_key({RUN_OF_65}, '{new}');", rejected),
        (f"SELECT string_agg(left(uca_affected(it, {named})::text, 1), '') FROM unnest({array(AFFECTED + WORDS)}) it;", "t" * len(AFFECTED) + "f" * len(WORDS)),
        (f"SELECT uca_rekey(uca_key('ch', '{old}'), {named});", "ERROR:  22P03: uca: the bytes are rejected: NoImage"),
        (f"SELECT uca_key('a', '{OTHER}');", with_code(bindings_postgresql.OTHERS_NAMED)),
        ("SELECT uca_fingerprint(), uca_next_fingerprint();", f"{old}|{new}"),
        ("SELECT uca_use_language('pl');", with_code(f"ERROR:  {bindings_postgresql.NO_LANGUAGE.format('pl')}")),
        (f"SELECT length({'uca_expand(uca_key(word))' if book else 'uca_key(word)'}) FROM long_texts;", "24006"),
        (f"SELECT uca_compact({whole}, '{new}') = uca_key('b a', '{new}'), encode({whole}, 'hex') = '{NEW_KEYS[3]}';", "t|t" if book else with_code(bindings_postgresql.NO_SERVER_BOOK)),
    ]
    return [("", statement, wanted.split("\n")) for statement, wanted in listed]


TEXTS = ["ch", "c-h", "a", "á", "", "A", "b", "cb", "bach", "d", "一", "\U0001f600", "ab" * 40]
# The first four code points of each, in order; then of a rejected text, and NULL.
SORTED = "|\U0001f600|a|A|á|abab|b|bach|cb|c-h|ch|d|一|a\u0301\u0301\u0301|NULL"
TABLES = f"""
CREATE EXTENSION amcheck;
CREATE TABLE plain(name uca_text, word text);
INSERT INTO plain SELECT it, it FROM unnest({array(TEXTS)} || ARRAY[{RUN_OF_65}, NULL]) it;
CREATE TABLE words AS TABLE plain;
CREATE INDEX by_name ON words(name); CREATE INDEX by_word ON words(word uca_ops); CREATE INDEX by_key ON words(uca_any_key(word));
CREATE TABLE long_texts AS SELECT repeat('a', 3000) AS word;
VACUUM ANALYZE;
"""


def listed(column, rows, order=""):
    """A statement that prints the beginnings of texts."""
    return f"SELECT string_agg(coalesce(left({column}::text, 4), 'NULL'), '|'{order}) FROM {rows};"


def of_texts(tries):
    """Statements on uca_text and uca_ops. With a book there are those that sort, since others do the same as without."""
    sorts = [
        ("", listed("name", "plain", " ORDER BY name"), SORTED),
        ("", listed("word", "plain", " ORDER BY word USING <~"), SORTED),
        ("", listed("word", "plain", " ORDER BY uca_any_key(word)"), SORTED),
    ]
    counted = ("SELECT count(*) FILTER (WHERE name > 'b'), count(*) FILTER (WHERE name BETWEEN 'a' AND 'b'), count(*) FILTER (WHERE name ^@ 'b'),"
               " count(*) FILTER (WHERE word >=~ uca_range_low('A', 1) AND word <~ uca_range_high('A', 1)) FROM plain;")
    joined = "SELECT count(*), min(a.name) = '' FROM plain a JOIN words b ON a.name = b.name;"
    others = [
        ("", listed("name", "(SELECT name FROM plain ORDER BY name LIMIT 3) it"), "|\U0001f600|a"),
        ("SET enable_hashagg = off;", "SELECT count(*) FROM (SELECT DISTINCT name FROM plain) it;", "15"),
        ("", "SELECT min(name), left(max(name)::text, 2), count(DISTINCT name) FROM plain;", "|a\u0301|14"),
        ("", counted, "7|5|2|3"),
        ("", "SELECT name, greatest(name, 'c'), least('ba', name) FROM plain WHERE name IN ('b', 'ch') ORDER BY name;", "b|c|b\nch|ch|ba"),
        (BY_INDEX, listed("name", "(SELECT name FROM words WHERE name > 'b' ORDER BY name) it"), "bach|cb|c-h|ch|d|一|a\u0301\u0301\u0301"),
        (BY_INDEX, listed("name", "(SELECT name FROM words ORDER BY name DESC) it"), "|".join(reversed(SORTED.split("|")))),
        (BY_INDEX, listed("name", "(SELECT name FROM words WHERE name ^@ 'b' ORDER BY name) it"), "b|bach"),
        (BY_INDEX, listed("word", "(SELECT word FROM words WHERE uca_begins(word, 'c') ORDER BY word USING <~) it"), "cb|c-h"),
        (BY_INDEX, listed("word", "(SELECT word FROM words WHERE uca_any_key(word) < uca_any_key('A') ORDER BY uca_any_key(word)) it"), "|\U0001f600|a"),
        (BY_INDEX, "SELECT count(*), max(name) FROM words WHERE name = ANY (ARRAY['b', 'x', 'ch']::uca_text[]);", "2|ch"),
        ("SET enable_mergejoin = off; SET enable_nestloop = off;", joined, "14|t"),
        ("SET enable_hashjoin = off; SET enable_nestloop = off;", joined, "14|t"),
    ]
    return [(before, statement, wanted.split("\n")) for before, statement, wanted in (sorts if tries.book else sorts + others)]


def plan_has(tries, before, statement, part):
    """The plan of a statement has this part."""
    has(tries.other.says(f"{before} EXPLAIN (costs off) {statement} RESET ALL;"), part, statement)


# ---- Checks of what a server says


def names(work):
    """What takes memory, and is called by the extension or by the library, is in memory.c. Returns how many functions that has."""
    run(["make", "-s", "-C", EXTENSION, "uca_memory.so"])
    objects = [*(f"{EXTENSION}/{it}.o" for it in ("uca_postgresql", "uca_language", "uca_text")), f"{bindings_shared.C}/out/libuca.a"]
    called = {*re.findall(r" U (\w+)", run(["nm", "-u", *objects]).decode())} - {*re.findall(r" [TtDdRrBb] (\w+)", run(["nm", *objects]).decode())}
    able = {*re.findall(r" T __wrap_(\w+)", run(["nm", f"{EXTENSION}/memory.o"]).decode())}
    takers = {it for it in called if re.search("alloc|memalign|strn?dup|sprintf|open|mmap|StringInfo|_to_cstring|_to_text|[sS]napshot|SysCache1", it)}
    known = {"open", "pg_snprintf", "ActiveSnapshotSet", "GetActiveSnapshot", "UnregisterSnapshot"}
    same(sorted(takers - able - known - {it for it in takers if it.startswith("uca_")}), [], "functions that are not in memory.c")
    same(sorted(able - called - {"malloc", "realloc", "free"}), [], "functions of memory.c that nothing calls")
    return len(able), 0


# What the server says of an edition for which memory ran out.
REASON = re.compile(r"uca: (out of memory|(next )?(table|data|book|changes|certificate) line \d+: Memory|the file of uca\.(\w+_file|language \(\w+\.txt\)) cannot be read: Cannot allocate memory|"
                    r"a folder of languages cannot be read: Cannot allocate memory: /.*)")
PROMPT = b"backend> "


def asked_at_start(tries):
    """A key of each edition, and an order."""
    keys = [shown(f"uca_key({quoted(WORDS[3])}{more})", by, tries.book) for more, by in (("", tries.old), (f", '{tries.new}'", tries.new))]
    return [f"SELECT {keys[0]};", f"SELECT {keys[1]};", FEW_IN_ORDER]


def started(tries, first, last, *settings):
    """A server for one user, in whose start these allocations fail. Returns what it prints then, its errors and warnings, its status, how many allocations the start had, and how many blocks it
    has."""
    words = [f"{tries.server.programs}/postgres", "--single", "-D", f"{tries.server.folder}/data", "-c", "fsync=off", *settings, "postgres"]
    tries.memory.take_blocks()
    tries.memory.fail(first, last)
    ran = subprocess.Popen(words, user=tries.server.owner, stdin=subprocess.PIPE, stdout=subprocess.PIPE, stderr=subprocess.STDOUT)
    said = b""
    while not said.endswith(PROMPT) and (more := ran.stdout.read(1)):
        said += more
    count, blocks = tries.memory.stop(), tries.memory.take_blocks()
    said += ran.communicate("".join(f"{it}\n" for it in asked_at_start(tries)).encode())[0]
    values, errors = (re.findall(it, said.decode()) for it in (r'= "(.*)"\t\(typeid', r"(?:ERROR|WARNING|FATAL):  (.*)"))
    return values, errors, ran.returncode, count, blocks


def ending(found, first, most):
    """How a start ended: with `both` editions, with the present one `alone`, with `neither`, or with no `server`. `most` are the blocks of both and of the present one."""
    values, errors, status, count, blocks = found
    right = [OLD_KEYS[3], NEW_KEYS[3], FEW_SORTED]
    if (values, errors, status) == (right, [], 0) and blocks <= most[0]:
        return "both"
    if count >= first and (values, errors, status) == ([], ["out of memory"], 1):
        return "server"
    if count >= first and status == 0 and errors and REASON.fullmatch(errors[0]):
        if (values, errors[1:]) == (right[::2], [bindings_postgresql.OTHERS_NAMED.removeprefix("ERROR:  ")]) and blocks <= most[1]:
            return "alone"
        if (values, errors) == ([], errors[:1] * 4) and blocks == 0:
            return "neither"
    raise AssertionError(f"a start, where allocation {first} of {count} fails: {found}, beside {most} blocks")


@contextlib.contextmanager
def stopped(tries):
    """The server does not run meanwhile."""
    tries.server.call("pg_ctl", "-w", "-m", "fast", "stop")
    try:
        yield
    finally:
        tries.memory.stop()
        tries.server.start(tries.settings)


def without_files(*names):
    """The arguments of a server for no such file."""
    return [word for name in names for word in ("-c", f"uca.{name}_file=")]


def starts(tries):
    """Allocations of a start fail."""
    no_next = without_files("next_table", "next_data", "next_book", "changes", "certificate")
    endings = {}
    with stopped(tries):
        most = [started(tries, 0, 0, *settings)[4] for settings in ([], no_next)]

        def once(first, last):
            found = started(tries, first, last)
            ended = ending(found, first, most)
            endings.setdefault(ended, first)
            tries.errors += ended != "both"
            return found[3]

        alone = itertools.count(1, 4) if tries.book else itertools.chain(range(1, 201), itertools.count(201, 4))
        tries.each(once, alone, itertools.count(1, 12))
    same(sorted(endings), ["alone", "both", "neither", "server"], "how starts ended")
    for name, has_next in (("neither", None), ("alone", False), (None, True)):
        try_server(tries, endings.get(name, 0), has_next)


def try_server(tries, first, has_next):
    """A server for all users, in whose start this allocation fails. It has the next edition, or the present one alone, or neither: True, False or None."""
    tries.memory.fail(first, first)
    tries.server.restart(tries.settings)
    tries.memory.stop()
    tries.other.begin_anew()
    wanted = [(asked_at_start(tries)[0], OLD_KEYS[3], has_next is not None), ("SELECT uca_next_fingerprint();", tries.new, has_next), (FEW_IN_ORDER, FEW_SORTED, has_next is not None)]
    for statement, value, is_right in wanted:
        found = tries.other.says(statement)
        if is_right:
            same(found, [value], f"{statement}, after a start where allocation {first} fails")
        elif len(found) != 1 or not REASON.fullmatch(found[0].removeprefix("ERROR:  F0000: ")):
            raise AssertionError(f"{statement}, after a start where allocation {first} fails: {found}")


def keep_language(tries, tag, table):
    """Puts a language where the server finds it."""
    shared, programs = (run([os.environ.get("PG_CONFIG", "pg_config"), it]).decode().strip() for it in ("--sharedir", "--bindir"))
    bindings_shared.keep_language(f"{tries.server.programs.removesuffix(programs)}{shared}/uca", tag, table)


def languages(tries):
    """Allocations of a start by a language fail. The server has the language, or says why not, or it does not start."""
    keep_language(tries, "xx", TABLE)
    settings = [*without_files("table", "data", "next_table", "next_data", "next_book", "changes", "certificate"), "-c", "uca.language=xx"]
    no_next = bindings_postgresql.OTHERS_NAMED.removeprefix("ERROR:  ")
    ended = set()

    def once(first, last):
        values, errors, status, count, blocks = started(tries, first, last, *settings)
        if (values, errors, status) == ([OLD_KEYS[3], FEW_SORTED], [no_next], 0):
            ended.add("language")
        elif count >= first and (values, errors, status) == ([], ["out of memory"], 1):
            ended.add("server")
        elif count >= first and (values, errors, status, blocks) == ([], errors[:1] * 4, 0, 0) and errors and REASON.fullmatch(errors[0]):
            ended.add("folder" if "folder" in errors[0] else "neither")
        else:
            raise AssertionError(f"a start by a language, where allocation {first} of {count} fails: {(values, errors, status, blocks)}")
        tries.errors += values == []
        return count

    with stopped(tries):
        once(0, 0)
        same(ended, {"language"}, "a start in which nothing fails")
        tries.each(once, range(1, 21), itertools.count(1, 16))
    same(sorted(ended), ["folder", "language", "neither", "server"], "how starts by a language ended")


def in_new_sessions(chosen):
    """The statements of a list, each in sessions that have called nothing of the extension."""

    def check(tries):
        tries.other.does(TABLES)
        for before, statement, wanted in chosen(tries):
            if before == BY_INDEX:
                plan_has(tries, before, statement, "using by_")
            tries.try_statement(before, statement, wanted)

    return check


def sessions(tries):
    """The statements of both lists in one session, which goes on after each error."""
    statements = of_keys(tries) + of_texts(tries)
    tries.other.does(TABLES)
    held = []
    for session in (tries.other, tries.tried):
        session.begin_anew()
        tries.memory.take_blocks()
        if session is tries.tried:
            fail_in_session(tries, statements)
        for before, statement, wanted in 2 * statements:
            same(session.says(f"{before}\n{statement}\nRESET ALL;"), wanted, statement)
        held.append(tries.memory.take_blocks())
    same(held[1], held[0], "blocks of the library in the end")


def fail_in_session(tries, statements):
    """Rounds of all these statements in the session. What one of them has made there, no later one makes."""

    def once(first, last):
        counts = []
        for before, statement, wanted in statements:
            tries.tried.does(before)
            found, count = tries.failing(statement, first, last)
            tries.is_error(found, wanted, count, first, statement)
            same(tries.tried.says(f"RESET ALL; {after(tries)}"), AFTER, f"{statement:.200}, and then")
            counts.append(count)
        # a round has a run for each statement in which one failed, and `each` adds one for the round
        tries.runs += max(sum(it >= first for it in counts) - 1, 0)
        return max(counts)

    tries.each(once)


def parallel(tries):
    """Statements of workers, and an index that they build."""
    tries.other.does(f"{TABLES} ALTER TABLE plain SET (parallel_workers = 2);")
    counted = "SELECT count(*) FROM plain WHERE name > 'b' AND uca_any_key(word) > '';"
    ordered = "SELECT left(name::text, 4) FROM plain WHERE name IS NOT NULL ORDER BY name;"
    for statement, wanted, way in ((counted, ["7"], "Parallel Seq Scan on plain"), (ordered, SORTED.split("|")[:-1], "Gather Merge")):
        plan_has(tries, PARALLEL, statement, way)
        tries.try_statement(PARALLEL, statement, wanted)
    settings, built = f"{PARALLEL} SET maintenance_work_mem = '1GB';", "CREATE INDEX built ON plain(name);"
    has(tries.other.says(f"BEGIN; {settings} SET client_min_messages = debug1; {built} ROLLBACK; RESET ALL;"), "with request for 2 parallel workers", built)
    its_order = f"{BY_INDEX} SELECT bt_index_parent_check('built', true, true); {listed('name', '(SELECT name FROM plain ORDER BY name) it')} RESET ALL;"

    def then(is_error):
        if not is_error:
            same(tries.other.says(its_order), ["", SORTED], "the index that was built")
        same(tries.other.says("SELECT count(*) FROM pg_class WHERE relname = 'built'; DROP INDEX IF EXISTS built;"), ["0" if is_error else "1"], "how many indexes there are")

    tries.try_statement(settings, built, [], then)


# ---- Checks of what a server stores


KEPT = """
CREATE EXTENSION amcheck;
CREATE TABLE kept(name uca_text UNIQUE, word text, key bytea GENERATED ALWAYS AS (uca_key(word)) STORED, CHECK (name >= ''));
CREATE INDEX by_word ON kept(word uca_ops);
CREATE INDEX by_key ON kept(uca_key(word));
CREATE MATERIALIZED VIEW seen AS SELECT name, key FROM kept WHERE name > 'a' AND uca_key(word) > uca_key('a');
"""
MORE = """
CREATE TABLE parts(LIKE kept INCLUDING GENERATED) PARTITION BY RANGE (name);
CREATE TABLE part1 PARTITION OF parts FOR VALUES FROM (MINVALUE) TO ('b');
CREATE TABLE part2 PARTITION OF parts FOR VALUES FROM ('b') TO (MAXVALUE);
CREATE TABLE late(LIKE kept INCLUDING GENERATED, UNIQUE (name) DEFERRABLE INITIALLY DEFERRED);
"""
PAIRS = [*zip(WORDS, OLD_KEYS)]
ROWS = f"(name, word) SELECT it, it FROM unnest({array(WORDS)}) it"
FILLED = f"INSERT INTO kept{ROWS};"
# Statements that leave the rows of kept as they are, with how many indexes each adds.
KEEPS = [("REINDEX TABLE kept;", 0), ("CLUSTER kept USING by_word;", 0), ("ANALYZE kept;", 0), ("CREATE UNIQUE INDEX made ON kept(uca_key(word));", 1),
         ("CREATE INDEX made ON kept(word uca_ops) WHERE name > 'a';", 1), ("CREATE INDEX CONCURRENTLY made ON kept(name);", 1)]


def of_rows():
    """For each write: what comes before it, the statement, its table, and the names and keys of the table's rows before and afterwards, each name in its place."""
    one = [("a", OLD_KEYS[4])]
    same_key = [(it, OLD_KEYS[1]) for it in WORDS]
    longer = [(f"{WORDS[at]}b", OLD_KEYS[at]) for at in (1, 2, 0, 3, 4, 5)]
    copied = "".join(f"{it}\t{it}\n" for it in WORDS)
    return [
        ("", FILLED, "kept", [], PAIRS),
        ("INSERT INTO kept VALUES ('a', 'hc');", f"INSERT INTO kept{ROWS} ON CONFLICT (name) DO UPDATE SET word = excluded.word;", "kept", one, PAIRS),
        (FILLED.replace("it, it", "it, 'a'"), "UPDATE kept SET word = name::text WHERE name > '';", "kept", same_key, same_key[:1] + PAIRS[1:]),
        (FILLED, "UPDATE kept SET name = (name::text || 'b')::uca_text;", "kept", PAIRS, longer),
        (FILLED, "DELETE FROM kept WHERE name BETWEEN 'Á' AND 'hc';", "kept", PAIRS, PAIRS[:2] + PAIRS[5:]),
        ("", f"COPY kept(name, word) FROM STDIN;\n{copied}\\.", "kept", [], PAIRS),
        ("", f"INSERT INTO parts{ROWS};", "part1", [], PAIRS[:3]),
        (f"REFRESH MATERIALIZED VIEW seen; {FILLED}", "REFRESH MATERIALIZED VIEW seen;", "seen", [], PAIRS[2:]),
    ]


# How many indexes of kept are right.
RIGHT_INDEXES = "SELECT count(bt_index_parent_check(indexrelid, true, true)::text) FROM pg_index WHERE indrelid = 'kept'::regclass AND indisvalid;"


def state(tries, table):
    """What the other session says of a table: names and keys of its rows. Then names of kept in the order of an index, and how many indexes of it are right."""
    pairs = f"SELECT string_agg(name || ':' || {shown('key', tries.old, tries.book)}, ' ' ORDER BY name::text COLLATE \"C\") FROM {table};"
    ordered = f"{BY_INDEX} SELECT string_agg(name::text, '|') FROM (SELECT name FROM kept ORDER BY name) it; RESET ALL;"
    return tries.other.says(f"{pairs} {ordered} {RIGHT_INDEXES}")


def wanted_state(pairs, names_of_kept, indexes=3):
    """What `state` returns of these."""
    return [" ".join(":".join(it) for it in sorted(pairs)), "|".join(names_of_kept), str(indexes)]


def writes(tries):
    """Statements that write: all is as before or as it has to be."""
    tries.other.does(KEPT + MORE)
    for write in of_rows()[: 1 if tries.book else None]:
        try_write(tries, *write)
    for statement, more in [] if tries.book else KEEPS:
        try_write(tries, FILLED, statement, "kept", PAIRS, PAIRS, more)


def try_write(tries, before, statement, table, old, new, more=0):
    """The arguments are one of `of_rows`, and how many indexes the statement adds."""
    kept = [[name for name, _ in it] for it in (old, new)] if table == "kept" else [WORDS, WORDS] if table == "seen" else [[], []]
    reset = f"TRUNCATE kept, parts; DROP INDEX IF EXISTS made; {before}"

    def then(is_error):
        wanted = wanted_state(old, kept[0]) if is_error else wanted_state(new, kept[1], 3 + more)
        same(state(tries, table), wanted, f"{statement}, which was {'an error' if is_error else 'right'}")
        # CREATE INDEX CONCURRENTLY leaves an index that is not valid
        tries.other.does("DROP INDEX IF EXISTS made;" if is_error else reset)

    tries.other.does(reset)
    tries.try_statement("", statement, [], then)


# Rows of 2,560 bytes. A page of an index has three.
LARGE_ROWS = "INSERT INTO large SELECT (SELECT string_agg(md5(n || ' ' || m), '') FROM generate_series(1, 80) m) FROM generate_series({}, {}) n;"


def pages(tries):
    """An insertion that splits pages of an index, and VACUUM, which deletes pages of it."""
    tries.other.does("CREATE EXTENSION amcheck; CREATE TABLE large(name uca_text); CREATE INDEX by_large ON large(name);")
    emptied = f"{LARGE_ROWS.format(1, 14)} DELETE FROM large WHERE ctid NOT IN (SELECT ctid FROM large ORDER BY name LIMIT 2);"
    for before, statement, old, new in ((LARGE_ROWS.format(1, 8), LARGE_ROWS.format(9, 14), 8, 14), (emptied, "VACUUM large;", 2, 2)):

        def then(is_error):
            same(tries.other.says("SELECT count(*), bt_index_parent_check('by_large', true, true) FROM large;"), [f"{old if is_error else new}|"], "the rows and the index")
            if not is_error:
                tries.other.does(f"TRUNCATE large; {before}")

        tries.other.does(f"TRUNCATE large; {before}")
        tries.try_statement("", statement, [], then)


HANDLER = """
CREATE FUNCTION caught() RETURNS text LANGUAGE plpgsql AS $$
DECLARE key text;
BEGIN
    BEGIN
        key := encode(uca_key('a'), 'hex');
    EXCEPTION WHEN out_of_memory THEN
        key := 'out of memory';
    END;
    RETURN key || ' ' || encode(uca_key('hc'), 'hex');
END $$;
"""


def transactions(tries):
    """An error in a transaction that goes on, in a cursor, at COMMIT, and in a handler."""
    in_order = "FOR SELECT left(name::text, 4) FROM parts ORDER BY name;"
    tries.other.does(f"{KEPT}{MORE}{HANDLER} INSERT INTO parts{ROWS};")
    try_savepoint(tries)
    tries.try_statement(f"BEGIN; DECLARE it CURSOR {in_order}", "FETCH 3 FROM it;", ["", "a", "Á"])
    try_commit(tries, "", f"INSERT INTO late VALUES ('a', 'hc'); DECLARE it CURSOR WITH HOLD {in_order}", [], [("a", OLD_KEYS[4])])
    # each name is there twice until COMMIT
    swapped = "UPDATE late SET name = CASE name::text WHEN 'a' THEN 'hc' ELSE 'a' END::uca_text;"
    try_commit(tries, "INSERT INTO late VALUES ('a', 'a'), ('hc', 'hc');", swapped, [PAIRS[1], PAIRS[4]], [("hc", OLD_KEYS[1]), ("a", OLD_KEYS[4])])
    try_handler(tries)


def try_commit(tries, before, statements, old, new):
    """A transaction of these, in which COMMIT fails. The table late has old or new names and keys."""

    def then(is_error):
        same(state(tries, "late"), wanted_state(old if is_error else new, []), f"{statements} and COMMIT, which was {'an error' if is_error else 'right'}")
        tries.other.does(f"TRUNCATE late; {before}")

    tries.other.does(f"TRUNCATE late; {before}")
    tries.try_statement(f"BEGIN; {statements}", "COMMIT;", [], then)


def try_savepoint(tries):
    """After an error and ROLLBACK TO, the same transaction makes the right keys, and is committed."""

    def once(first, last):
        tries.tried.begin_anew()
        tries.tried.does("BEGIN; SAVEPOINT s;")
        found, count = tries.failing(FILLED, first, last)
        tries.is_error(found, [], count, first, FILLED)
        same(tries.tried.says(f"ROLLBACK TO s; {after(tries)}"), AFTER, "the transaction that goes on")
        tries.tried.does("INSERT INTO kept VALUES ('a', 'hc'); COMMIT;")
        same(state(tries, "kept"), wanted_state([("a", OLD_KEYS[4])], ["a"]), "the rows")
        tries.other.does("TRUNCATE kept;")
        return count

    tries.each(once)


def try_handler(tries):
    """A function that catches the error and goes on."""
    right, caught = ([f"{it} {OLD_KEYS[4]}"] for it in (OLD_KEYS[1], "out of memory"))
    endings = set()

    def once(first, last):
        tries.tried.begin_anew()
        found, count = tries.failing("SELECT caught();", first, last)
        is_caught = count >= first and found == caught
        endings.add("caught" if is_caught else tries.is_error(found, right, count, first, "a handler"))
        return count

    tries.each(once)
    same("caught" in endings, True, "an error that was caught")


# The weights of letters in both editions, and the letters of each word of docs/BINDINGS.md in the first one.
OLD_WEIGHTS = {"a": "1c47", "b": "1c60", "ch": "1c7b", "d": "1c8f"}
NEW_WEIGHTS = {"a": "1c48", "b": "1c61", "c": "1c7b", "d": "1c90", "h": "1d18"}
PAGE_WORDS = {"a": ["a"], "b": ["b"], "bach": ["b", "a", "ch"], "ch": ["ch"], "d": ["d"]}


def editions(tries):
    """The transaction of docs/BINDINGS.md does all or nothing."""
    made = next(it for language, it in bindings_postgresql.blocks_of("A new edition in PostgreSQL") if language == "sql")
    ((_, move),) = bindings_postgresql.blocks_of("A new edition in PostgreSQL, in one transaction")
    old_keys = {word: whole_key([OLD_WEIGHTS[it] for it in letters]) for word, letters in PAGE_WORDS.items()}
    new_keys = {word: whole_key([NEW_WEIGHTS[it] for it in word]) for word in PAGE_WORDS}
    reset = f"DROP TABLE IF EXISTS words; DROP FUNCTION IF EXISTS set_keys; {made}"

    def then(is_error):
        column, keys = ("key_e7f5", old_keys) if is_error else ("key_d8c5", new_keys)
        found = tries.other.says(f"SELECT word, encode({column}, 'hex') FROM words ORDER BY word; INSERT INTO words VALUES ('b') RETURNING encode({column}, 'hex');")
        same(found, [*map("|".join, keys.items()), keys["b"]], "the keys, and the key of one more row")
        tries.other.does(reset)

    tries.other.does(reset)
    tries.try_statement("", move[: move.index("COMMIT;") + len("COMMIT;")], [], then)


def files(tries):
    """An extension is created or not, and a language is used for all or for nothing."""
    tries.other.does("CREATE DATABASE empty;")
    try_to_create(tries)
    tries.other.does(f"{KEPT} INSERT INTO kept VALUES ('bh', 'bh'), ('ch', 'ch'), ('\u1ea1', '\u1ea1'); REFRESH MATERIALIZED VIEW seen;")
    settings = re.sub(r"uca.(next_.*|changes|certificate)_file.*\n", "", tries.settings)
    keep_language(tries, "tailored", bindings_shared.TAILORED)
    tailored = re.sub(r"uca.(table|data)_file.*\n", "", settings) + "uca.language = 'tailored'\n"
    # the tailored table has a weight for bh; the third text is a with an accent, of which the server knows nothing when it starts
    old, new = (f"bh:{whole_key(it)} ch:{whole_key(['1c7b'])} \u1ea1:1c4700000020002c0000000200020000ffffffff" for it in (["1c60", "1d18"], ["1c61"]))
    used = "SELECT uca_use_language('tailored', again => true);"

    def once(first, last):
        tries.tried.begin_anew()
        found, count = tries.failing(used, first, last)
        is_error = tries.is_error(found, ["6"], count, first, used)
        for table in ("kept", "seen"):
            its = f"SELECT fingerprint FROM uca_files; SELECT string_agg(name || ':' || encode(key, 'hex'), ' ' ORDER BY name::text COLLATE \"C\") FROM {table};"
            same(tries.other.says(its), [tries.old, old] if is_error else [OTHER, new], f"the keys of {table}")
        same(tries.tried.says("SELECT encode(uca_key('bh'), 'hex');"), [with_code(bindings_postgresql.OTHER_FILES) if is_error else whole_key(["1c61"])], "a key")
        if not is_error:
            same(tries.other.says(RIGHT_INDEXES), ["3"], "the indexes that were made again")
            begin(tries, settings)
            same(tries.other.says("SELECT uca_use_files(again => true);"), ["6"], "the files that were there before")
            begin(tries, tailored)
        return count

    begin(tries, tailored)
    tries.each(once, itertools.count(1, 3), itertools.count(1, 13))


def begin(tries, settings):
    """Starts the server with settings, and has new sessions."""
    tries.server.restart(settings)
    tries.tried.begin_anew()
    tries.other.begin_anew()


def try_to_create(tries):
    """CREATE EXTENSION in a database of its own."""

    def once(first, last):
        tries.tried.begin_anew("empty")
        found, count = tries.failing("CREATE EXTENSION uca;", first, last)
        is_error = tries.is_error(found, [], count, first, "CREATE EXTENSION")
        same(tries.tried.says("SELECT count(*), count(to_regclass('uca_files')) FROM pg_extension WHERE extname = 'uca';"), ["0|0" if is_error else "1|1"], "whether the extension is there")
        if not is_error:
            same(tries.tried.says(f"{after(tries)} DROP EXTENSION uca;"), AFTER, "the extension")
        return count

    tries.each(once)


CHECKS = {"names": names, "starts": both_books(starts), "languages": no_book(languages), "keys": both_books(in_new_sessions(of_keys)), "texts": both_books(in_new_sessions(of_texts)), "sessions": no_book(sessions),
          "parallel": no_book(parallel), "writes": both_books(writes), "pages": no_book(pages), "transactions": no_book(transactions), "editions": no_book(editions), "files": no_book(files)}


def main():
    parser = argparse.ArgumentParser(description=__doc__, formatter_class=argparse.RawDescriptionHelpFormatter)
    parser.add_argument("--uca", help="not used: run.py gives it to each test")
    parser.add_argument("names", nargs="*", metavar="NAME")
    given = parser.parse_args()
    packages.stop_without(NEEDS)
    missing = [it for it in bindings_shared.ARCHIVES if not os.path.exists(it)]
    if missing:
        sys.exit(f"there is no {missing[0]}: run `tools/build.py uca_c uca_command_in_memory` first")
    if unknown := {*given.names} - {*CHECKS}:
        parser.error(f"no check is named {', '.join(sorted(unknown))}: they are {', '.join(CHECKS)}")
    run(["make", "-s", "-C", bindings_shared.C])
    passed = failed = 0
    with tempfile.TemporaryDirectory() as work:
        for name in given.names or CHECKS:
            try:
                runs, errors = CHECKS[name](work)
                passed += 1
                print(f"{name}: {runs:,} " + (f"runs, and {errors:,} errors" if errors else "functions"), flush=True)
            except (AssertionError, OSError) as it:
                failed += 1
                print(f"{name}: {it}", flush=True)
    print(f"{passed} passed, {failed} failed")
    return 1 if failed else 0


if __name__ == "__main__":
    sys.dont_write_bytecode = True
    sys.exit(main())
