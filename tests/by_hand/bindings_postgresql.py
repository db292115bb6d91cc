"""Checks of the extension of PostgreSQL, in servers of their own. Part of bindings.py."""
import contextlib
import os
import re
import shutil
import subprocess
import sys
import tempfile
import time

from bindings_shared import (
    AFFECTED, BOOK, CERTIFICATE, CHANGES, DATA, EDITIONS, EXAMPLES, IN_VALUES, LINES, LOOKED_THROUGH, LOOKUPS, MADE_BY_BOOK, MENDED, NEW_DATA, NEW_TABLE,
    NEXT, NotHere, OTHER, PHONE_BOOK, TABLE, TAILORED, TOP, UNIQUES, USED, VOLUMES, compacted, content, digit_files, files_for, fingerprint_of,
    found_lines, keep_language, keep_languages, need, quoted, run, same, small_book, with_fingerprint,
)


def link_into(folder, source):
    """Links in a folder to what another folder has and this one has not."""
    for name in os.listdir(source):
        if os.path.isdir(f"{folder}/{name}") and not os.path.islink(f"{folder}/{name}"):
            link_into(f"{folder}/{name}", f"{source}/{name}")
        elif not os.path.lexists(f"{folder}/{name}"):
            os.symlink(f"{source}/{name}", f"{folder}/{name}")


def postgresql_programs(work):
    """The folder of a server's programs to which the extension is installed. They are copies in a tree in this folder, since a server
    looks for its files by where its program is. The other files of the tree are links."""
    need("make", "gcc", "pg_config", "psql")
    config = os.environ.get("PG_CONFIG", "pg_config")
    headers, programs, library, shared = (run([config, f"--{it}"]).decode().strip() for it in ("includedir-server", "bindir", "pkglibdir", "sharedir"))
    if not os.path.exists(f"{headers}/postgres.h"):
        raise NotHere("there is no postgres.h")
    made = ["make", "-s", "-C", f"{TOP}/bindings/postgresql", f"PG_CONFIG={config}"]
    run(made)
    tree = f"{work}/server"
    if not os.path.exists(tree):
        run([*made, "install", f"DESTDIR={tree}"])
        shutil.copytree(programs, tree + programs)
        for it in (library, shared):
            link_into(tree + it, it)
    return tree + programs


@contextlib.contextmanager
def postgresql_server(work, table=TABLE, data=DATA, book=None, more="", editions=None):
    """A server with the extension over these files, what runs statements in it, and its settings. The small book is beside the files. `editions`
    are a new table and data file, a file of changes and a certificate: then the server has this next edition too, with the same book."""
    programs = postgresql_programs(work)
    sys.path.insert(0, f"{EXAMPLES}/databases")
    sys.dont_write_bytecode = True
    from local_servers import PostgreSQL

    room = tempfile.mkdtemp(dir=work)
    for folder in (work, room):
        os.chmod(folder, 0o755)
    for file, name in ((table, "table.txt"), (f"{EXAMPLES}/tailored.txt", "tailored.txt"), (data, "data.txt")):
        shutil.copy(file, f"{room}/{name}")
    shutil.copy(small_book(room) if book is None else book, f"{room}/book.txt")
    files = "".join(f"uca.{it}_file = '{room}/{it}.txt'\n" for it in ("table", "data", "book")[: 2 if book is None else 3])
    its_names = ["next_table", "next_data", "changes", "certificate"] if editions else []
    for file, name in zip(editions or [], its_names):
        shutil.copy(file, f"{room}/{name}.txt")
    files += "".join(f"uca.{it}_file = '{room}/{it}.txt'\n" for it in its_names)
    files += f"uca.next_book_file = '{room}/book.txt'\n" if editions and book else ""
    settings = f"shared_preload_libraries = 'uca'\n{files}uca.weighting = shifted\n{more}"
    with PostgreSQL(room, settings, programs) as server:

        def says(statements, fails=False, database="postgres"):
            """What the statements print, or the first line of their error."""
            words = ["psql", "-XAtq", "-v", "ON_ERROR_STOP=1", "-d", database]
            environment = {**os.environ, **server.environment, "PGOPTIONS": "-c client_min_messages=error"}
            ran = subprocess.run(words, input=statements, capture_output=True, text=True, env=environment)
            if bool(ran.returncode) != fails:
                raise AssertionError(f"{statements:.200}: {ran.stdout}{ran.stderr}")
            return ran.stderr.split("\n")[0] if fails else ran.stdout

        says("CREATE EXTENSION uca;")
        yield server, says, settings


OTHER_FILES = "ERROR:  uca: the server has other files or settings than those by which this database's keys were made"
OTHERS_NAMED = "ERROR:  uca: the server has other files or settings than those that are named"
KEYS_ARE_KEPT = "ERROR:  uca: this database keeps keys of other files or settings than the server's"
MADE = "CREATE TABLE words(word text); INSERT INTO words VALUES ('ch'), ('c-h'), ('a'), ('á'); CREATE INDEX by_key ON words(uca_key(word));"
LONG = "repeat(repeat('a', 10000), 18000)"
RUN_OF_65 = "'a' || repeat(U&'\\0301', 65)"


def postgresql(work):
    with postgresql_server(work) as (server, says, settings):
        same(says("SELECT encode(uca_key('a'), 'hex'), uca_key(NULL) IS NULL, encode(uca_any_key('a'), 'hex');"),
             "1c4700000020000000020000ffff|t|001c4700000020000000020000ffff\n", "keys")
        same(says(f"SELECT uca_key({RUN_OF_65});", fails=True), "ERROR:  uca: the text is rejected: LongRun at 1", "a text that is rejected")
        same(says(f"SELECT substring(uca_any_key({RUN_OF_65}) for 4);"), "\\x0161cc81\n", "any key of a text that is rejected")
        same(says(f"SELECT length(uca_any_key({LONG}));"), "180000001\n", "any key of a text of 180 MB")
        same(says(f"SELECT uca_key({LONG});", fails=True), "ERROR:  uca: the text is rejected: TooLong", "a text of 180 MB")
        same(says(MADE + "SET enable_seqscan = off; EXPLAIN (costs off) SELECT word FROM words ORDER BY uca_key(word); SELECT word FROM words ORDER BY uca_key(word);"),
             "Index Scan using by_key on words\na\ná\nc-h\nch\n", "an index")
        parallel = "SET max_parallel_workers_per_gather = 4; SET parallel_setup_cost = 0; SET parallel_tuple_cost = 0; SET min_parallel_table_scan_size = 0;"
        counted = f"{parallel} SELECT count(*) FROM numbers WHERE uca_key(n) > '\\x00';"
        same(says(f"CREATE TABLE numbers AS SELECT i::text AS n FROM generate_series(1, 100000) i; {counted}"), "100000\n", "parallel workers")
        says("SET uca.weighting = 'non-ignorable';", fails=True)
        meanwhile = "BEGIN; INSERT INTO words VALUES ('b');\n\\! psql -XAtqc \"INSERT INTO uca_files VALUES ('another')\"\nINSERT INTO words VALUES ('b');"
        same(says(meanwhile, fails=True), OTHER_FILES, "another fingerprint of another session")
        says("DELETE FROM uca_files WHERE fingerprint = 'another';")
        server.restart(settings.replace("/table.txt", "/tailored.txt"))
        for statement in ("SELECT uca_key('a');", "INSERT INTO words VALUES ('b');", "SELECT word FROM words WHERE uca_key(word) > '\\x00';"):
            same(says(statement, fails=True), OTHER_FILES, f"{statement} with another table")
        used = "BEGIN; DO 'BEGIN PERFORM uca_use_files(again => true); END';"
        same(says(f"{used} SELECT uca_key('a'); ROLLBACK; SELECT uca_key('a');", fails=True), OTHER_FILES, "files that are not used after all")
        inside = f"{used.replace('BEGIN;', 'BEGIN; SAVEPOINT s;')} SELECT uca_key('a'); ROLLBACK TO s; SELECT uca_key('a');"
        same(says(inside, fails=True), OTHER_FILES, "the same inside a transaction")
        same(says(f"{used} {counted} ROLLBACK;"), "100000\n", "parallel workers of a transaction that uses other files")
        written = "INSERT INTO words SELECT 'a' WHERE uca_key('a') IS NULL; INSERT INTO uca_files VALUES (''); SELECT uca_key('a');"
        same(says(f"{used} {written}", fails=True), OTHER_FILES, "another fingerprint in the same transaction")
        same(says(f"{used} COMMIT; INSERT INTO words VALUES ('b'); SELECT word FROM words ORDER BY uca_key(word);"),
             "a\ná\nb\nc-h\nch\n", "files that are used from now on")
        earlier = ("uca_use_language(text, boolean)", "uca_use_files(boolean)")
        says("".join(f"ALTER EXTENSION uca DROP FUNCTION {it}; DROP FUNCTION {it};" for it in earlier) +
             "ALTER TABLE uca_files ALTER fingerprint TYPE bytea USING decode(fingerprint, 'hex');")
        same(says("SELECT uca_key('a');", fails=True), "ERROR:  uca: this database has the extension of an earlier version", "a table that was made before")


def postgresql_settings(work):
    """The settings and their files, and the fingerprint of each."""
    table, data = files_for(work, ["numeric"])
    with postgresql_server(work) as (server, says, settings):
        server.restart(settings + "uca.numeric = on\n")
        same(says("SELECT uca_key('a');", fails=True), "ERROR:  uca: table: Digits", "a table without digits, by value")
    with postgresql_server(work, table) as (server, says, settings):
        depths = (("shifted", "identical"), ("shifted", "numeric"), ("table", "identical numeric"))
        for weighting, depth in (*depths, ("non-ignorable", "weights"), ("table", "weights")):
            its = "".join(f"uca.{it} = on\n" for it in depth.split() if it != "weights")
            server.restart(settings.replace("weighting = shifted", f"weighting = '{weighting}'") + its)
            wanted = fingerprint_of(table, data, weighting.replace("table", "shifted"), depth)
            key = "1c470000002000000002" + ("0000ffff" if weighting != "non-ignorable" else "")
            key += "0000000061" if "identical" in depth else ""
            same(says(f"SELECT uca_fingerprint(), encode(uca_key('a', '{wanted}'), 'hex');"), f"{wanted}|{key}\n", f"{weighting}, {depth}")
            is_same = wanted == fingerprint_of(table, data, "shifted", "weights")
            same(says("SELECT uca_key('a');", fails=not is_same).strip(), f"\\x{key}" if is_same else OTHER_FILES, f"{weighting}, {depth}, in this database")
        for name in ("uca.table_file", "uca.data_file"):
            same(says(f"ALTER SYSTEM SET {name} = '/none'; SHOW {name};"), f"{server.folder.removesuffix('postgresql')}{name[4:-5]}.txt\n", name)
            if "pg_read_all_settings" not in says(f"CREATE ROLE {name[4:]}; SET ROLE {name[4:]}; SHOW uca.weighting; SHOW {name};", fails=True):
                raise AssertionError(f"a role without rights reads {name}")
        room = os.path.dirname(server.folder)
        os.mkfifo(f"{room}/pipe")
        with open(f"{room}/long", "wb") as it:
            it.truncate(64 * 1024 * 1024 + 1)
        for file, error in (("none", "the file of uca.table_file cannot be read: No such file or directory"), ("pipe", "uca.table_file does not name a regular file"),
                            ("", "uca.table_file does not name a regular file"), ("long", "the file of uca.table_file has more than 67108864 bytes"),
                            ("data.txt", "table line 1: Line")):
            server.restart(settings.replace("/table.txt", f"/{file}"))
            same(says("SELECT uca_key('a');", fails=True), f"ERROR:  uca: {error}", f"the file {file}")
        server.restart(settings.replace("_file", ""))
        same(says("SELECT uca_key('a');", fails=True), "ERROR:  uca: the settings uca.table and uca.data are now uca.table_file and uca.data_file", "the old names")


def postgresql_numbers(work):
    """Numbers by their values, as a setting of the server: `7` is read as `17`, and `10` as `210`."""
    files = digit_files(work)
    old, new = (fingerprint_of(*files[at : at + 2], depth="numeric") for at in (0, 2))
    with postgresql_server(work, files[0], more="uca.numeric = on\n", editions=files[2:]) as (server, says, settings):
        found = says("SELECT uca_fingerprint(), uca_next_fingerprint(); SHOW uca.numeric;")
        same(found, f"{old}|{new}\non\n", "fingerprints")
        key = "1c3e1c440000002000200000000200020000ffffffff"
        same(says("SELECT encode(uca_key('7'), 'hex'), uca_key('007') = uca_key('7');"), f"{key}|t\n", "a key by value")
        says(f"CREATE TABLE volumes(name uca_text); INSERT INTO volumes VALUES {VOLUMES};"
             "CREATE INDEX by_name ON volumes(name); CREATE INDEX by_key ON volumes(uca_key(name));")
        listed = "SELECT string_agg(name::text, ',') FROM (SELECT name FROM volumes ORDER BY {}) it;"
        by_index = "SET enable_seqscan = off; SET enable_sort = off;"
        for it in ("name", 'uca_key(name), name::text COLLATE "C"'):
            for way in ("", by_index):
                same(says(way + listed.format(it)), f"{IN_VALUES}\n", f"order by {it}")
        begins = "SELECT string_agg(name::text, ',' ORDER BY name) FROM volumes WHERE name ^@ 'Band 1';"
        same(says(begins), "Band 1,Band 1a\n", "what begins with a number")
        postgresql_long_numbers(says)
        affected = ", ".join(f"uca_affected('{it}', '{old}', '{new}')" for it in ("10", "7", "2"))
        renewed = f"uca_rekey(uca_key('a7'), '{old}', '{new}') = uca_key('a7', '{new}')"
        same(says(f"SELECT {affected}, {renewed};"), "t|f|t|t\n", "an upgrade by value")
        says("SET uca.numeric = off;", fails=True)
        server.restart(settings.replace("uca.numeric = on", "uca.numeric = off"))
        for it in ("SELECT uca_key('a');", "INSERT INTO volumes VALUES ('a');", "SELECT max(name) FROM volumes;"):
            same(says(it, fails=True), OTHER_FILES, f"{it} with numbers as text")
        same(says(f"SELECT uca_key('a', '{old}');", fails=True), OTHERS_NAMED, "a key by value that is named")
        again = f"SELECT uca_use_files(again => true); {by_index} {listed.format('name')}"
        same(says(again), "2\nBand 02,Band 1,Band 10,Band 100,Band 1a,Band 2\n", "numbers as text from now on")


def postgresql_long_numbers(says):
    """More zeros than a text may have code points are one zero. They have its key and its place."""
    zeros = "repeat('0', 5000000)"
    for it in ("uca_key({})", "uca_any_key({})", "uca_prefix_low({})", "uca_key({}, 1)"):
        same(says(f"SELECT {it.format(zeros)} = {it.format(quoted('0'))};"), "t\n", f"{it} of zeros")
    rows = f"(VALUES ({zeros}::uca_text), ('10'), ('0'), ('1'), ({zeros} || 'a')) it(name)"
    found = says(f"SELECT length(name::text) FROM {rows} ORDER BY name;")
    same(found, "1\n5000000\n5000001\n1\n2\n", "a sort of zeros")
    same(says(f"SELECT {zeros}::uca_text < '1', uca_any_key({LONG}) > uca_any_key('z');"), "t|t\n", "long texts")
    for it in (LONG, f"'7' || {LONG}", f"{zeros} || repeat('7', 1048576)"):
        same(says(f"SELECT uca_key({it});", fails=True), "ERROR:  uca: the text is rejected: TooLong", f"a key of {it}")


# The word bh is before bz by the one table, and after it by the other.
KEPT = """
CREATE TABLE words(word text, key bytea GENERATED ALWAYS AS (uca_key(word)) STORED, CONSTRAINT "is a word" CHECK (uca_key(word) > '\\x00'));
INSERT INTO words VALUES ('b'), ('bh'), ('bz'), ('c');
CREATE INDEX by_key ON words(uca_key(word));
CREATE FUNCTION any_key(text) RETURNS bytea LANGUAGE sql IMMUTABLE AS 'SELECT public.UCA_ANY_KEY($1)';
CREATE FUNCTION key_of(text) RETURNS bytea LANGUAGE sql IMMUTABLE RETURN uca_key($1);
CREATE INDEX by_any_key ON words(any_key(word)) WHERE key_of(word) > '\\x00';
CREATE FUNCTION order_of(text, text) RETURNS integer LANGUAGE sql IMMUTABLE AS 'SELECT byteacmp(public.uca_key($1), public.uca_key($2))';
CREATE OPERATOR CLASS its_order FOR TYPE text USING btree AS FUNCTION 1 order_of(text, text);
CREATE TABLE ordered(word text);
CREATE INDEX by_order ON ordered(word its_order);
CREATE TABLE plain AS SELECT word, key FROM words;
CREATE VIEW keys AS SELECT word, uca_key(word) AS key FROM words;
CREATE MATERIALIZED VIEW "Kept" AS SELECT * FROM keys;
CREATE MATERIALIZED VIEW again AS SELECT * FROM "Kept" ORDER BY key;
CREATE DOMAIN short AS text CONSTRAINT is_short CHECK (length(uca_key(VALUE)) < 100);
CREATE TABLE parts(word text) PARTITION BY RANGE (uca_key(word));
SELECT format('CREATE TABLE part1 PARTITION OF parts FOR VALUES FROM (MINVALUE) TO (%L)', uca_key('bi')) \\gexec
SELECT format('CREATE TABLE part2 PARTITION OF parts FOR VALUES FROM (%L) TO (MAXVALUE)', uca_key('bi')) \\gexec
INSERT INTO parts SELECT word FROM words;
"""
DEPENDENTS = """index|public.by_any_key|REINDEX INDEX public.by_any_key
index|public.by_key|REINDEX INDEX public.by_key
index|public.by_order|REINDEX INDEX public.by_order
generated column|public.words.key|UPDATE ONLY public.words SET word = word
check|"is a word" on public.words|ALTER TABLE public.words DROP CONSTRAINT "is a word", ADD CONSTRAINT "is a word" CHECK ((public.uca_key(word) > '\\x00'::bytea))
check|is_short on public.short|ALTER DOMAIN public.short DROP CONSTRAINT is_short; ALTER DOMAIN public.short ADD CONSTRAINT is_short CHECK ((length(public.uca_key(VALUE)) < 100))
partitioned table|public.parts|
materialized view|public."Kept"|REFRESH MATERIALIZED VIEW public."Kept"
materialized view|public.again|REFRESH MATERIALIZED VIEW public.again
"""
WRONG_KEYS = "".join(f"SELECT count(*) FROM {it} WHERE key <> uca_key(word);" for it in ("words", "plain", '"Kept"', "again"))
BY_INDEX = "SET enable_seqscan = off; SELECT string_agg(word, ' ') FROM (SELECT word FROM words ORDER BY uca_key(word)) it;"
USES = ("SELECT uca_key('a');", "INSERT INTO words VALUES ('d');", "SELECT FROM plain WHERE key = uca_key(word);", "INSERT INTO parts VALUES ('bh');")
BARE = "shared_preload_libraries = 'uca'\n"
NAMES_IN_ORDER = "SELECT string_agg(name::text, ' ') FROM (SELECT name FROM words ORDER BY name) it;"
NAMES_BY_KEY = "SELECT string_agg(name::text, ' ') FROM (SELECT name FROM words ORDER BY uca_key(name)) it;"
THREE_NAMES = "CREATE TABLE words(name uca_text); INSERT INTO words VALUES ('bz'), ('bh'), ('b');"


@contextlib.contextmanager
def language_server(work):
    """A server with the extension over the phone book, by uca.language, what runs statements in it, and its folder of languages."""
    with postgresql_server(work) as (server, says, _):
        folder = f"{work}/server{run([os.environ.get('PG_CONFIG', 'pg_config'), '--sharedir']).decode().strip()}/uca"
        shutil.rmtree(folder, ignore_errors=True)
        keep_languages(folder)
        says("DROP EXTENSION uca;")
        server.restart(by_language(PHONE_BOOK))
        says("CREATE EXTENSION uca;")
        yield server, says, folder


def by_language(tag, edition=None, more=""):
    """The settings of a server by a language."""
    return f"{BARE}uca.language = {quoted(tag)}\n" + (f"uca.edition = {quoted(edition)}\n" if edition else "") + more


def postgresql_languages(work):
    """A server by a language: its order, another language after a start, and what has none."""
    by_index = "SET enable_seqscan = off; SET enable_sort = off;"
    in_order = f"{NAMES_IN_ORDER} {NAMES_BY_KEY} {by_index} {NAMES_IN_ORDER} {NAMES_BY_KEY}"
    with language_server(work) as (server, says, folder):
        says(f"{THREE_NAMES} CREATE INDEX by_name ON words(name); CREATE INDEX by_key ON words(uca_key(name));")
        same(says(f"{in_order} SELECT uca_fingerprint(); SELECT fingerprint FROM uca_files;"), "b bz bh\n" * 4 + f"{OTHER}\n" * 2, "a phone book")
        same(says("SELECT encode(uca_key('a'), 'hex');"), "1c4700000020000000020000ffff\n", "a key by the weighting of the table")
        for it in ("SET uca.language = 'pl';", "SET uca.edition = '16.0.0-cldr46';", "ALTER DATABASE postgres SET uca.language = 'pl';", "ALTER ROLE postgres SET uca.language = 'pl';"):
            same("cannot be changed" in says(it, fails=True), True, it)
        same(says(f"ALTER SYSTEM SET uca.language = 'pl'; SELECT pg_reload_conf(); {NAMES_IN_ORDER} ALTER SYSTEM RESET uca.language;"), "t\nb bz bh\n", "another language before the next start")
        server.restart(by_language("pl", "16.0.0-cldr46"))
        for it in (NAMES_IN_ORDER, NAMES_BY_KEY, by_index + NAMES_IN_ORDER, by_index + NAMES_BY_KEY, "SELECT uca_key('a');", "INSERT INTO words VALUES ('c');"):
            same(says(it, fails=True), OTHER_FILES, f"{it} by another language")
        for it in ("uca_use_files()", "uca_use_files(again => NULL)"):
            same(says(f"SELECT {it};", fails=True), KEYS_ARE_KEPT, f"{it} by another language")
        same(says(f"SELECT uca_use_files(again => true); {in_order}"), "2\n" + "b bh bz\n" * 4, "another language")
        server.restart(by_language(PHONE_BOOK, more=f"uca.book_file = '{folder}/15.0.0-cldr41/{PHONE_BOOK}/book.txt'\n"))
        compact = fingerprint_of(TAILORED, DATA, book=BOOK)
        same(says(f"SELECT uca_use_files(again => true); {in_order} SELECT uca_fingerprint();"), "2\n" + "b bz bh\n" * 4 + f"{compact}\n", "a book beside the language")
        table, data = (f"{folder}/15.0.0-cldr41/{PHONE_BOOK}/{it}.txt" for it in ("table", "data"))
        server.restart(f"{BARE}uca.table_file = '{table}'\nuca.data_file = '{data}'\n")
        same(says(f"SELECT uca_use_files(again => true); {NAMES_IN_ORDER} SELECT uca_fingerprint();"), f"2\nb bz bh\n{OTHER}\n", "the files of the language by their names")
        server.restart(by_language(PHONE_BOOK))
        same(says(NAMES_IN_ORDER), "b bz bh\n", "the language again")
        postgresql_language_errors(server, says, folder)


def postgresql_language_errors(server, says, folder):
    """Settings by which a server has no files: each call is an error that has the reason."""
    no_tag, no_edition = "uca.language is not letters and digits with single hyphens", "uca.edition is not letters and digits with single hyphens or dots"
    several, none = "there are several editions of the language pl, and uca.edition names none of them: 15.0.0-cldr41, 16.0.0-cldr46", "no folder has files of the language"
    table, data = (f"uca.{it}_file = '{folder}/15.0.0-cldr41/{PHONE_BOOK}/{it}.txt'\n" for it in ("table", "data"))
    both = "uca.language is set, so uca.table_file and uca.data_file may not be set"
    broken = keep_language(folder, "broken", TABLE)
    os.remove(f"{broken}/data.txt")
    keep_language(folder, "xx", TABLE, edition=".making")
    errors = [(by_language(it), no_tag) for it in ("../pl", "..", "pl/..", "a.b", "pl-", "a" * 101)]
    errors += [(by_language("pl", it), no_edition) for it in ("..", "15.0.0/pl", "15..0", "a" * 101)]
    errors += [
        (by_language("pl"), several), (by_language("PL"), f"{none} PL; an administrator makes them by: uca-files --into /usr/local/share/uca PL"), (by_language("xx"), none),
        (by_language("pl", "14.0.0-cldr40"), f"{none} pl, edition 14.0.0-cldr40; an administrator"), (by_language(PHONE_BOOK, more=table), both), (by_language("pl", more=data), both),
        (f"{BARE}uca.edition = '15.0.0-cldr41'\n{table}{data}", "uca.edition is set without uca.language"),
        (by_language("broken"), "the file of uca.language (data.txt) cannot be read: No such file or directory"), (by_language(PHONE_BOOK, more="uca.numeric = on\n"), "table: Digits"),
    ]
    for settings, error in errors:
        server.restart(settings)
        for it in ("SELECT uca_key('a');", NAMES_IN_ORDER):
            same(says(it, fails=True)[: len(f"ERROR:  uca: {error}")], f"ERROR:  uca: {error}", f"{it} by {settings}")
    os.chmod(f"{folder}/15.0.0-cldr41", 0)
    server.restart(by_language(PHONE_BOOK))
    same(says(NAMES_IN_ORDER, fails=True), "ERROR:  uca: the file of uca.language (table.txt) cannot be read: Permission denied", "an edition that the server may not read")
    os.chmod(f"{folder}/15.0.0-cldr41", 0o755)
    server.restart(by_language(PHONE_BOOK))
    same(says(NAMES_IN_ORDER), "b bz bh\n", "an edition that it may read again")


# What uca_use_language says of a tag where it is an error: the message, the detail and the hint.
TOLD = """CREATE FUNCTION told(tag text) RETURNS TABLE(message text, detail text, hint text) LANGUAGE plpgsql AS $$ BEGIN
    PERFORM uca_use_language(tag, again => true);
EXCEPTION WHEN object_not_in_prerequisite_state THEN
    GET STACKED DIAGNOSTICS message = MESSAGE_TEXT, detail = PG_EXCEPTION_DETAIL, hint = PG_EXCEPTION_HINT;
    RETURN NEXT;
END $$;"""
NOT_FILES = "ALTER SYSTEM SET uca.table_file = ''; ALTER SYSTEM SET uca.data_file = ''; "
NO_LANGUAGE = "uca: the server has no language in uca.language, and so not {}"


def another_language(says, tag, message, detail="", before=""):
    """The server has another language than this one, and says so. Returns the statements of the hint."""
    statements = f"{before}ALTER SYSTEM SET uca.language = '{tag}';"
    same(says(f"SELECT * FROM told('{tag}');"), f"{message}|{detail}|{statements} then start the server again, and repeat this statement.\n", f"the language {tag}")
    return re.findall("ALTER SYSTEM [^;]*;", statements)


def follow(server, says, statements):
    """Does what a hint says before the statement is repeated."""
    for it in statements:
        says(it)
    server.restart(content(f"{server.folder}/data/postgresql.auto.conf").decode())


def postgresql_use_language(work):
    """uca_use_language does what uca_use_files does for the language of the server. For another one it is an error that changes nothing, and its hint leads there."""
    is_phone_book = f"uca: the server's language is {PHONE_BOOK}, and not {{}}"
    used = lambda tag, again="true": f"SELECT uca_use_language('{tag}', again => {again});"
    with language_server(work) as (server, says, folder):
        says(f"{THREE_NAMES} CREATE INDEX by_name ON words(name); {TOLD}")
        keep_language(folder, "sv", TABLE)
        for it in (f"'{PHONE_BOOK}'", f"'{PHONE_BOOK}', NULL", f"tag => '{PHONE_BOOK}', again => false"):
            same(says(f"SELECT uca_use_language({it});"), "0\n", f"uca_use_language({it})")
        for it in ("NULL", "NULL, NULL", "NULL, true"):
            same(says(f"SELECT uca_use_language({it});", fails=True), "ERROR:  uca: the language is NULL", f"uca_use_language({it})")
        for it in ("", " ", "sv ", "../sv", "sv/..", "s.v", "sv-", "-sv", "sv--x", "sv_SE", "své", "sv'", "a" * 101, "%s"):
            same(says(used(it.replace("'", "''")), fails=True), "ERROR:  uca: the language is not letters and digits with single hyphens between them", it)
        made_by = "an administrator makes them by: uca-files --into /usr/local/share/uca"
        another_language(says, "SV", is_phone_book.format("SV"), f"no folder has files of the language SV; {made_by} SV")
        another_language(says, "pl", is_phone_book.format("pl"), "there are several editions of the language pl, and uca.edition names none of them: 15.0.0-cldr41, 16.0.0-cldr46")
        to_swedish = another_language(says, "sv", is_phone_book.format("sv"))
        same(says(f"{NAMES_IN_ORDER} SELECT fingerprint FROM uca_files;"), f"b bz bh\n{OTHER}\n", "what another language leaves")
        follow(server, says, to_swedish)
        for it in (used("sv", "false"), used("sv", "NULL"), "SELECT uca_use_language('sv');"):
            same(says(it, fails=True), KEYS_ARE_KEPT, it)
        to_phone_book = another_language(says, PHONE_BOOK, f"uca: the server's language is sv, and not {PHONE_BOOK}")
        same(says(NAMES_IN_ORDER, fails=True), OTHER_FILES, "names before the language is used")
        same(says(f"BEGIN READ ONLY; {used('sv')}", fails=True), "ERROR:  cannot execute INSERT in a read-only transaction", "a transaction that only reads")
        same(says(f"{used('sv')} {NAMES_IN_ORDER}"), "1\nb bh bz\n", "another language")
        follow(server, says, to_phone_book)
        one_more = "CREATE TABLE more(name uca_text PRIMARY KEY); INSERT INTO more VALUES ('bh'), ('bz'); SET enable_seqscan = off; SELECT name FROM more ORDER BY name;"
        same(says(f"{used(PHONE_BOOK)} {NAMES_IN_ORDER} {one_more}"), "1\nb bz bh\nbz\nbh\n", "the phone book again, and one more table")
        postgresql_no_language(server, says, folder, used)


def postgresql_no_language(server, says, folder, used):
    """uca_use_language where the server's files are named, where it has no settings, no files of its language, and a next edition."""
    table, data = (f"uca.{it}_file = '{folder}/15.0.0-cldr41/sv/{it}.txt'\n" for it in ("table", "data"))
    server.restart(f"{BARE}{table}{data}")
    to_swedish = another_language(says, "sv", NO_LANGUAGE.format("sv"), before=NOT_FILES)
    follow(server, says, to_swedish)
    same(says(f"{used('sv')} {NAMES_IN_ORDER}"), "2\nb bh bz\n", "a language in place of files")
    server.restart(BARE)
    another_language(says, "sv", NO_LANGUAGE.format("sv"))
    server.restart(by_language("none"))
    same(says(used("none"), fails=True)[:54], "ERROR:  uca: no folder has files of the language none;", "a language without files")
    another_language(says, "sv", "uca: the server's language is none, and not sv")
    both = "".join(f"uca.{name}_file = '{file}'\n" for name, file in zip(("next_table", "next_data", "changes", "certificate"), EDITIONS[2:]))
    server.restart(by_language("pl", "15.0.0-cldr41", f"uca.weighting = shifted\n{both}"))
    same(says(f"{used('pl')} {NAMES_IN_ORDER} SELECT uca_next_fingerprint() IS NULL;"), "2\nb bh bz\nf\n", "a language beside its next edition")
    follow(server, says, another_language(says, PHONE_BOOK, f"uca: the server's language is pl, and not {PHONE_BOOK}"))
    same(says(f"{used(PHONE_BOOK)} {NAMES_IN_ORDER}"), "2\nb bz bh\n", "another language than that of the next edition")
    same(says("SELECT uca_next_fingerprint();", fails=True)[:47], "ERROR:  uca: the audit rejects the next edition", "the next edition of another language")


def named(fingerprint):
    """Tables whose keys name their files."""
    key = f"uca_key(word, '{fingerprint}')"
    return (f"CREATE TABLE named(word text, key bytea CHECK (key = {key})); INSERT INTO named VALUES ('bh', uca_key('bh'));"
            f"CREATE TABLE named2(word text, key bytea GENERATED ALWAYS AS ({key}) STORED); INSERT INTO named2 VALUES ('bh');"
            f"CREATE TABLE named3(word text); INSERT INTO named3 VALUES ('bh'); CREATE INDEX by_name ON named3 ({key});"
            f"CREATE TABLE named4(key bytea, CHECK (uca_key('', '{fingerprint}') IS NOT NULL)); INSERT INTO named4 SELECT key FROM named;")


def restored(server, database, *words, given=None):
    """The errors of a restore into a new database."""
    environment = {**os.environ, **server.environment, "PGDATABASE": database}
    run([f"{server.programs}/createdb", "-T", "template0", database], env=environment)
    ran = subprocess.run([f"{server.programs}/{words[0]}", *words[1:], "-d", database], input=given, capture_output=True, env=environment)
    return ran.stderr.decode()


def postgresql_dumps(work):
    """Dumps that are restored where the server has the same files, and where it has others."""
    with postgresql_server(work) as (server, says, _), postgresql_server(work, f"{EXAMPLES}/tailored.txt") as (other, says_other, _):
        fingerprint = says("SELECT uca_fingerprint();").strip()
        says(KEPT)
        dump = [f"{server.programs}/pg_dump", "-h", server.folder, "-U", "postgres"]
        plain = run([*dump, "postgres"])
        run([*dump, "-Fc", "-f", f"{work}/dump", "postgres"])
        restores = {"plain": (["psql", "-X"], plain), "parallel": (["pg_restore", "-j", "4", f"{work}/dump"], None)}
        for name, (words, given) in restores.items():
            same(restored(server, name, *words, given=given), "", f"a {name} restore under the same files")
            same(says(WRONG_KEYS + BY_INDEX + "SELECT string_agg(word, ' ') FROM part1;", database=name), "0\n" * 4 + "b bh bz c\nb bh\n", f"its keys, {name}")
            restored(other, name, *words, given=given)
            same(says_other("SELECT count(*) FROM plain;", database=name), "4\n", "keys that came from the dump")
            for it in USES:
                same(says_other(it, fails=True, database=name), OTHER_FILES, f"{it} after a {name} restore under other files")
            same(says_other("SELECT uca_use_files();", fails=True, database=name), KEYS_ARE_KEPT, f"uca_use_files() after a {name} restore")
        says("CREATE DATABASE named;")
        says("CREATE EXTENSION uca;" + named(fingerprint) + "CREATE TABLE plain AS SELECT * FROM named;", database="named")
        same(says("SELECT * FROM uca_dependents();", database="named"), "", "what names its files does not depend on uca_files")
        alone = run([*dump, "-t", "named*", "named"])
        for its_server, its_says, count in ((server, says, "1\n" * 4), (other, says_other, "0\n0\n1\n0\n")):
            its_says("CREATE DATABASE alone;")
            its_says("CREATE EXTENSION uca;", database="alone")
            environment = {**os.environ, **its_server.environment, "PGDATABASE": "alone"}
            ran = subprocess.run(["psql", "-XAtq"], input=alone, capture_output=True, env=environment)
            same(ran.stderr.decode().count(OTHERS_NAMED.partition(":")[2]), 0 if its_server is server else 4, "errors of tables that name their files")
            counts = "".join(f"SELECT count(*) FROM {it};" for it in ("named", "named2", "named3", "named4"))
            same(its_says(counts, database="alone"), count, "their rows")
        ordered = f"SET enable_seqscan = off; EXPLAIN (costs off) SELECT word FROM named3 ORDER BY uca_key(word, '{fingerprint}');"
        same(says(ordered, database="named"), "Index Scan using by_name on named3\n", "an index that names its files")
        same(says(f"SELECT uca_any_key(NULL, '{fingerprint}') IS NULL;"), "t\n", "the key of NULL")
        same(says("SELECT uca_key(NULL, NULL);", fails=True), "ERROR:  uca: the fingerprint is NULL", "no fingerprint")
        same(says("DROP EXTENSION uca;", fails=True, database="named"), "ERROR:  cannot drop extension uca because other objects depend on it", "DROP EXTENSION")
        says("DROP EXTENSION uca CASCADE; CREATE EXTENSION uca;", database="named")
        same(says("SELECT key = uca_key(word) FROM plain;", fails=True, database="named"), OTHER_FILES, "bytes that were there before the extension")
        same(says("SELECT uca_use_files(); SELECT key = uca_key(word) FROM plain;", database="named"), "0\nt\n", "an administrator who knows these bytes")


def until(found, wanted, what):
    """Waits until a call returns this, 30 seconds at most."""
    for _ in range(300):
        if found() == wanted:
            return
        time.sleep(0.1)
    same(found(), wanted, what)


def postgresql_replication(work):
    """Keys of another server, which logical replication copies as bytes."""
    more = "wal_level = logical\n"
    with postgresql_server(work, more=more) as (server, says, _), postgresql_server(work, f"{EXAMPLES}/tailored.txt", more=more) as (other, says_other, _):
        fingerprint = says("SELECT uca_fingerprint();").strip()
        tables = ("CREATE TABLE plain(word text, key bytea); CREATE TABLE copies(word text); CREATE INDEX by_key ON copies(uca_key(word));"
                  f"CREATE TABLE named(word text, key bytea CHECK (key = uca_key(word, '{fingerprint}')));")
        says(tables + "INSERT INTO plain VALUES ('bh', uca_key('bh')); INSERT INTO named SELECT * FROM plain; INSERT INTO copies SELECT word FROM plain;")
        says("CREATE PUBLICATION everything FOR ALL TABLES;")
        says("CREATE DATABASE copy;")
        says("CREATE EXTENSION uca;" + tables, database="copy")
        says("SELECT FROM pg_create_logical_replication_slot('here', 'pgoutput');")
        connection = f"CREATE SUBSCRIPTION {{}} CONNECTION 'host={server.folder} user=postgres dbname=postgres' PUBLICATION everything"
        says(f"{connection.format('here')} WITH (create_slot = false);", database="copy")
        counts = "SELECT count(*) FROM uca_files; SELECT count(*) FROM plain; SELECT count(*) FROM copies; SELECT count(*) FROM named;"
        until(lambda: says(counts, database="copy"), "2\n1\n1\n1\n", "rows of a server with the same files")
        same(says("SELECT key = uca_key(word) FROM plain;", database="copy"), "t\n", "keys of a server with the same files")
        says("ALTER SUBSCRIPTION here DISABLE;", database="copy")
        says_other(tables)
        says_other(f"{connection.format('there')};")
        until(lambda: says_other(counts)[:4], "2\n1\n", "rows of a server with other files")
        same(says_other("SELECT key = uca_key(word) FROM plain;", fails=True), OTHER_FILES, "keys of a server with other files")
        same(says_other("INSERT INTO copies VALUES ('b');", fails=True), OTHER_FILES, "an index beside them")
        until(lambda: OTHERS_NAMED in content(f"{other.folder}/log").decode(), True, "an error for a column that names its files")
        same(says_other("SELECT count(*) FROM named;"), "0\n", "rows of a table that names its files")
        says("UPDATE uca_files SET fingerprint = 'another';")
        until(lambda: says_other("SELECT count(*) FROM uca_files WHERE fingerprint = 'another';"), "1\n", "a later fingerprint")


def postgresql_changes(work):
    """What an administrator does where the server has other files."""
    with postgresql_server(work, more="max_prepared_transactions = 1\n") as (server, says, settings):
        fingerprint = says("SELECT uca_fingerprint();").strip()
        same(says("SELECT * FROM uca_dependents();"), "", "no dependents")
        says(KEPT + named(fingerprint))
        same(says("SELECT kind, object, statement FROM uca_dependents();"), DEPENDENTS, "the dependents")
        same(says("SELECT uca_use_files();"), "0\n", "files that are used already")
        says("CREATE DATABASE empty;")
        says("CREATE EXTENSION uca; BEGIN; CREATE TABLE it(); PREPARE TRANSACTION 'one';", database="empty")
        server.restart(settings.replace("/table.txt", "/tailored.txt"))
        same(says("SELECT uca_use_files();", fails=True, database="empty"), KEYS_ARE_KEPT, "a prepared transaction")
        same(says("ROLLBACK PREPARED 'one'; SELECT uca_use_files(); SELECT uca_key('bh') > uca_key('bz');", database="empty"), "0\nt\n", "a database without keys")
        same(says("SELECT uca_use_files();", fails=True), KEYS_ARE_KEPT, "uca_use_files()")
        same(says("SELECT uca_key('a');", fails=True), OTHER_FILES, "a key after it")
        again = "SELECT uca_use_files(again => true);"
        same(says(again, fails=True), KEYS_ARE_KEPT, "a partitioned table, which has no statement")
        skips = "CREATE TRIGGER skips BEFORE UPDATE ON words FOR EACH ROW EXECUTE FUNCTION suppress_redundant_updates_trigger();"
        for it in (skips, "CREATE RULE skips AS ON UPDATE TO words DO INSTEAD NOTHING;"):
            same(says(f"BEGIN; DROP TABLE parts; {it} {again}", fails=True), KEYS_ARE_KEPT, f"a column that {it} could leave as it is")
        same(says(f"BEGIN; DROP TABLE parts; {again} UPDATE plain SET key = uca_key(word); COMMIT;"), f"{DEPENDENTS.count(chr(10)) - 1}\n", "statements that were run")
        same(says(WRONG_KEYS + BY_INDEX), "0\n" * 4 + "b bz bh c\n", "the keys after them")
        same(says("INSERT INTO named3 VALUES ('b');", fails=True), OTHERS_NAMED, "an index that names the old files")
        server.restart(settings)
        dropped = ["BEGIN; DROP INDEX by_key, by_any_key, by_order; ALTER TABLE words DROP key, DROP CONSTRAINT \"is a word\"; DROP VIEW keys CASCADE; DROP DOMAIN short;",
                   "SELECT uca_use_files(); CREATE INDEX by_key ON words(uca_key(word)); COMMIT;", BY_INDEX]
        for without in ("DROP INDEX by_key, by_any_key, by_order;", "DROP VIEW keys CASCADE;", "DROP DOMAIN short;"):
            same(says("\n".join(dropped).replace(without, ""), fails=True), KEYS_ARE_KEPT, f"without {without}")
        same(says("\n".join(dropped).replace(", by_order", ""), fails=True), KEYS_ARE_KEPT, "without an index by an operator class")
        same(says("\n".join(dropped)), "0\nb bh bz c\n", "dropped, and made again")
        same(says("INSERT INTO named3 VALUES ('b'); SELECT count(*) FROM named3;"), "2\n", "an index that names these files")


def postgresql_roles(work):
    """Roles without rights, and schemas that are renamed."""
    with postgresql_server(work) as (_, says, _):
        says("DROP EXTENSION uca; CREATE SCHEMA ext; CREATE EXTENSION uca SCHEMA ext; CREATE ROLE joe;"
             "CREATE TABLE words(word text); CREATE INDEX by_key ON words(ext.uca_key(word)); GRANT ALL ON words TO joe;")
        says("SET ROLE joe; INSERT INTO words VALUES ('a');")
        says("REVOKE SELECT ON ext.uca_files FROM PUBLIC; SET ROLE joe; INSERT INTO words VALUES ('b');")
        says("GRANT USAGE ON SCHEMA ext TO joe;")
        for it in ("SELECT ext.uca_use_files()", "SELECT ext.uca_use_language('pl')", "SELECT ext.uca_need_language('pl')", "SELECT ext.uca_run('SELECT 1', 'joe')", "DELETE FROM ext.uca_files", "INSERT INTO ext.uca_files VALUES ('')"):
            if "permission denied" not in says(f"SET ROLE joe; {it};", fails=True):
                raise AssertionError(f"{it} by a role without rights")
        says("CREATE INDEX CONCURRENTLY again ON words(ext.uca_key(word)); REINDEX INDEX CONCURRENTLY again; VACUUM FULL words; ANALYZE words;")
        for schema in ("ext2", "public"):
            says(f"ALTER SCHEMA ext RENAME TO {schema};" if schema == "ext2" else f"ALTER EXTENSION uca SET SCHEMA {schema};")
            same(says(f"SELECT count(*) FROM {schema}.uca_dependents(); SELECT {schema}.uca_use_files(again => true); SELECT {schema}.uca_key('a') IS NULL;"), "2\n2\nf\n", schema)
        taken_back = "BEGIN; DROP EXTENSION uca CASCADE; CREATE EXTENSION uca; SELECT uca_key('a') IS NULL; ROLLBACK; SELECT uca_key('a') IS NULL;"
        same(says(taken_back), "f\nf\n", "an extension that is made again")
        says("CREATE SCHEMA other; ALTER TABLE uca_files SET SCHEMA other; CREATE TABLE uca_files AS SELECT * FROM other.uca_files;")
        same(says("DELETE FROM uca_files; SELECT uca_key('a') IS NULL;"), "f\n", "another table uca_files")
        same(says("UPDATE other.uca_files SET fingerprint = ''; SELECT uca_key('a');", fails=True), OTHER_FILES, "the extension's table")
        says("ALTER EXTENSION uca DROP TABLE other.uca_files;")
        same(says("SELECT uca_key('a');", fails=True), "ERROR:  uca: the extension has no table uca_files", "no table of the extension")


# Each kind of what keeps keys, and no statement may run the function of its owner as another role.
OF_EVE = """
CREATE ROLE eve; CREATE SCHEMA eve AUTHORIZATION eve; SET ROLE eve; SET search_path = eve, public;
CREATE FUNCTION key_of(text) RETURNS bytea LANGUAGE plpgsql IMMUTABLE AS $$ BEGIN
    IF current_user <> 'eve' THEN RAISE EXCEPTION 'run as %', current_user; END IF;
    PERFORM set_config('search_path', 'eve', false);
    RETURN public.uca_key($1);
END $$;
CREATE TABLE words(word text CHECK (key_of(word) > '\\x00'), key bytea GENERATED ALWAYS AS (key_of(word)) STORED);
CREATE INDEX by_key ON words(key_of(word));
CREATE DOMAIN short AS text CHECK (length(key_of(VALUE)) < 100);
CREATE TABLE shorts(word short);
INSERT INTO words VALUES ('bh'); INSERT INTO shorts VALUES ('bh');
CREATE MATERIALIZED VIEW keys AS SELECT key_of(word) AS key FROM words;
"""


def postgresql_owners(work):
    """uca_use_files(again => true) runs functions of other roles as these roles. Afterwards, the role and the settings are the caller's."""
    with postgresql_server(work) as (server, says, settings):
        says(OF_EVE)
        server.restart(settings.replace("/table.txt", "/tailored.txt"))
        same(says("SELECT uca_use_files(again => true); SHOW search_path; SELECT current_user;"), '5\n"$user", public\npostgres\n', "statements of another role")
        same(says("SELECT count(*) FROM eve.words JOIN eve.keys USING (key) WHERE key = uca_key(word);"), "1\n", "the keys after them")
        says("GRANT EXECUTE ON FUNCTION uca_run(text, regrole) TO eve;")
        same(says("SET ROLE eve; SELECT uca_run('SELECT 1', 'eve'), current_user;"), "SELECT 1|eve\n", "a statement of one's own")
        same(says("SET ROLE eve; SELECT uca_run('SELECT 1', 'postgres');", fails=True), 'ERROR:  must be member of role "postgres"', "a statement of a role that one is no member of")
        fails = "DO $$ BEGIN PERFORM uca_run('SELECT 1 / 0', 'eve'); EXCEPTION WHEN division_by_zero THEN END $$; SELECT current_user;"
        same(says(fails), "postgres\n", "after an error of a statement")
        same(says("SELECT uca_run('SET ROLE postgres', 'eve');", fails=True), 'ERROR:  cannot set parameter "role" within security-restricted operation', "a statement that takes a role")


# What a superuser makes beside the extension. Its objects keep keys, so uca_use_files(again => true) has a statement for each.
OF_SUPERUSER = """
CREATE TABLE {0}.words(word text CONSTRAINT has_key CHECK (pg_catalog.num_nulls({0}.uca_key(word)) OPERATOR(pg_catalog.=) 0),
    key bytea GENERATED ALWAYS AS ({0}.uca_key(word)) STORED, name {0}.uca_text);
INSERT INTO {0}.words VALUES ('bh', DEFAULT, 'bh');
CREATE INDEX by_key ON {0}.words({0}.uca_key(word));
CREATE INDEX by_name ON {0}.words(name);
CREATE DOMAIN {0}.short AS text CHECK (pg_catalog.length({0}.uca_key(VALUE)) OPERATOR(pg_catalog.<) 100);
CREATE MATERIALIZED VIEW {0}.keys AS SELECT {0}.uca_key(word) AS key FROM {0}.words WHERE {0}.uca_begins(name, 'b');
"""
# The types of what the script of the extension compares and passes, and of what it makes of these by casts.
TYPES = ["anyelement", "bigint", "boolean", "bytea", '"char"', "int2vector", "integer", "name", "oid", "oid[]", "oidvector", "regclass",
         "regrole", "regtype", "smallint", "smallint[]", "text", "text[]"]
TRAP = """CREATE FUNCTION {schema}."{name}"({types}) RETURNS {result} LANGUAGE plpgsql AS $$ BEGIN
    IF pg_catalog.current_setting('is_superuser') OPERATOR(pg_catalog.=) 'on' THEN
        ALTER ROLE {role} SUPERUSER;
        INSERT INTO {schema}.sprung VALUES ('{name}({types})');
    END IF;
    RETURN NULL;
END $$;
"""


def names_in_sql():
    """The operators and the functions that the script of the extension, the strings of its code in C, and the objects above name."""
    folder = f"{TOP}/bindings/postgresql"
    code = "".join(content(f"{folder}/{it}").decode() for it in ("uca_postgresql.c", "uca_language.c", "uca_text.c"))
    strings = " ".join(re.findall(r'"((?:[^"\\]|\\.)*)"', re.sub(r"/\*.*?\*/", "", code, flags=re.S)))
    script = re.sub(r"--.*", "", content(f"{folder}/uca--0.1.sql").decode()) + OF_SUPERUSER
    # IN, CASE, BETWEEN and LIKE call the first four
    operators = {"=", "<=", ">=", "~~", *re.findall(r"[-+*/<>=~!@#%^&|`?]+", re.sub("'[^']*'", "", script))}
    return sorted(operators), sorted({*re.findall(r"\b([a-z]\w*) ?\(", script + strings)})


def results_of(says, table, column):
    """The type that most operators or functions of pg_catalog return, by their names. It is one that a function in PL/pgSQL can return."""
    found = says(f"SELECT {column}name, mode() WITHIN GROUP (ORDER BY format_type(t.oid, NULL)) FROM {table} JOIN pg_type t ON t.oid = {table}.{column}{{}}"
                 f" WHERE {column}namespace = 'pg_catalog'::regnamespace AND typtype <> 'p' GROUP BY 1;".format("result" if column == "opr" else "rettype"))
    return dict(it.rsplit("|", 1) for it in found.splitlines())


def traps_for(says, role, schema):
    """Statements that make a function and an operator for each name and for all types of TYPES, apart from those that the extension makes itself."""
    own = {*says("SELECT proname || '(' || oidvectortypes(proargtypes) || ')' FROM pg_proc JOIN pg_depend ON objid = pg_proc.oid AND classid = 'pg_proc'::regclass AND deptype = 'e';").splitlines()}
    own |= {*says("SELECT oprname || '(' || format_type(oprleft, NULL) || ', ' || format_type(oprright, NULL) || ')' FROM pg_operator JOIN pg_depend ON objid = pg_operator.oid"
                  " AND classid = 'pg_operator'::regclass AND deptype = 'e';").splitlines()}
    operators, functions = names_in_sql()
    kinds = ((operators, results_of(says, "pg_operator", "opr"), "boolean"), (functions, results_of(says, "pg_proc", "pro"), "text"))
    pairs = [f"{left}, {right}" for left in TYPES for right in TYPES]
    for names, results, result in kinds:
        for name in names:
            for types in pairs if names is operators else ["", *TYPES, *pairs, "VARIADIC name[]", "text, VARIADIC name[]"]:
                if f"{name}({types})" in own:
                    continue
                yield TRAP.format(schema=schema, role=role, name=name, types=types, result=results.get(name, result))
                if names is operators:
                    left, right = types.split(", ")
                    yield f'CREATE OPERATOR {schema}.{name} (LEFTARG = {left}, RIGHTARG = {right}, FUNCTION = {schema}."{name}");\n'


def none_sprung(says, database, role, schema, what):
    """No trap has run, the role is no superuser, and no function of the extension calls what is the role's."""
    bound = (f"SELECT pg_describe_object(d.refclassid, d.refobjid, 0) FROM pg_depend d JOIN pg_depend e ON e.classid = d.classid AND e.objid = d.objid AND e.deptype = 'e'"
             f" WHERE d.refclassid = 'pg_proc'::regclass AND d.refobjid IN (SELECT oid FROM pg_proc WHERE proowner = '{role}'::regrole)"
             f" OR d.refclassid = 'pg_operator'::regclass AND d.refobjid IN (SELECT oid FROM pg_operator WHERE oprowner = '{role}'::regrole);")
    before = "SET search_path = pg_catalog;"
    same(says(f"{before} SELECT DISTINCT what FROM {schema}.sprung;", database=database), "", f"traps of {role} that ran in {what}")
    same(says(f"SELECT rolsuper FROM pg_roles WHERE rolname = '{role}';"), "f\n", f"whether {role} is a superuser after {what}")
    same(says(before + bound, database=database), "", f"what the extension calls of {role} after {what}")


def postgresql_traps(work):
    """The owner of a database, and a role that may create in a schema, make functions and operators there before a superuser installs the extension. Each fits
    the types of some call better than what pg_catalog has. None may run as the superuser."""
    attacks = (("carol", "carols", "public", "CREATE EXTENSION uca;"), ("mallory", "hers", "app", "CREATE EXTENSION uca SCHEMA app;"))
    with language_server(work) as (server, says, _):
        says("CREATE ROLE carol; CREATE DATABASE carols OWNER carol; CREATE ROLE mallory; CREATE DATABASE hers;")
        says("CREATE SCHEMA app; GRANT CREATE, USAGE ON SCHEMA app TO mallory;", database="hers")
        for role, database, schema, created in attacks:
            laid = f"SET SESSION AUTHORIZATION {role}; BEGIN; CREATE TABLE {schema}.sprung(what text); CREATE TABLE {schema}.kept(key bytea);\n"
            says(laid + "".join(traps_for(says, role, schema)) + "COMMIT;", database=database)
            says(created, database=database)
            none_sprung(says, database, role, schema, created)
            says(f"SET search_path = {schema}; SELECT uca_use_files(again => false); {OF_SUPERUSER.format(schema)}", database=database)
            none_sprung(says, database, role, schema, "uca_use_files(again => false)")
            same(says(f"SET search_path = {schema}; SELECT uca_use_language(tag => 'xx', again => false);", fails=True, database=database), f"ERROR:  uca: the server's language is {PHONE_BOOK}, and not xx", "another language")
            none_sprung(says, database, role, schema, "uca_use_language(tag => 'xx', again => false)")
        server.restart(by_language("pl", "15.0.0-cldr41"))
        for role, database, schema, _ in attacks:
            used = f"SET search_path = {schema}; SELECT uca_fingerprint() IS NULL; SELECT object FROM uca_dependents(); SELECT uca_use_language(tag => 'pl', again => true);"
            wanted = [f"{schema}.by_key", f"{schema}.by_name", f"{schema}.words.key", f"has_key on {schema}.words", f"short_check on {schema}.short", f"{schema}.keys"]
            same(says(used, database=database).splitlines(), ["f", *wanted, "6"], "what is made again")
            says(f"SET search_path = {schema}; INSERT INTO words VALUES ('c'::{schema}.short, DEFAULT, 'c'); SELECT uca_use_files(again => false);", database=database)
            none_sprung(says, database, role, schema, "uca_use_language(tag => 'pl', again => true)")


# Thirty layers, where each view reads both of the layer before it. Then a materialized view that calls a function, and one that reads it.
VIEWS = f"""
CREATE TABLE words(word text);
CREATE VIEW left0 AS SELECT uca_key(word) AS key, {", ".join(f"word AS word{it}" for it in range(9))} FROM words; CREATE VIEW right0 AS SELECT * FROM left0;
{"".join(f"CREATE VIEW {side}{it + 1} AS SELECT {side}{it}.* FROM left{it}, right{it};" for it in range(30) for side in ("left", "right"))}
CREATE FUNCTION rows() RETURNS bigint LANGUAGE sql RETURN 0;
CREATE MATERIALIZED VIEW z AS SELECT key, rows() AS rows FROM right0;
CREATE MATERIALIZED VIEW "A" AS SELECT key FROM z;
"""


def postgresql_dependents(work):
    """Objects that no one statement makes again, and views over views."""
    key = "key bytea GENERATED ALWAYS AS (uca_key({})) STORED"
    with postgresql_server(work) as (server, says, settings):
        says(f"CREATE TABLE numbered(id integer GENERATED ALWAYS AS IDENTITY, {key.format('id::text')});"
             f"CREATE TABLE both_kinds(id integer GENERATED ALWAYS AS IDENTITY, word text, {key.format('id::text || word')});"
             "CREATE FOREIGN DATA WRAPPER none; CREATE SERVER none FOREIGN DATA WRAPPER none;"
             f"CREATE FOREIGN TABLE far(word text CONSTRAINT its CHECK (uca_key(word) > ''), {key.format('word')}) SERVER none;")
        same(says("SELECT object, statement FROM uca_dependents();"),
             "public.both_kinds.key|UPDATE ONLY public.both_kinds SET word = word\npublic.far.key|\npublic.numbered.key|\nits on public.far|\n",
             "columns that no UPDATE makes again, and a CHECK that tests no rows")
        says("DROP TABLE numbered, both_kinds; DROP FOREIGN TABLE far;"
             f"CREATE TABLE referred(word text, {key.format('word, 1')} UNIQUE); CREATE TABLE refers(key bytea REFERENCES referred(key));")
        its_statement = "SELECT object, statement IS NULL FROM uca_dependents();"
        same(says(f"{its_statement} DROP TABLE refers; {its_statement}"), "public.referred.key|t\npublic.referred.key|f\n", "a column that a foreign key refers to")
        says("DROP TABLE referred;"
             "CREATE TABLE late(word text, key bytea); ALTER TABLE late ADD CONSTRAINT its CHECK (key = uca_key(word)) NOT VALID;"
             "CREATE DOMAIN later AS text; ALTER DOMAIN later ADD CONSTRAINT its CHECK (uca_key(VALUE) > '') NOT VALID;")
        validated = "ALTER TABLE late VALIDATE CONSTRAINT its; ALTER DOMAIN later VALIDATE CONSTRAINT its;"
        same(says(f"{its_statement} {validated} {its_statement}"), "its on public.late|t\nits on public.later|t\nits on public.late|f\nits on public.later|f\n", "a CHECK that is NOT VALID")
        says("DROP TABLE late; DROP DOMAIN later;")
        says(VIEWS)
        listed = "SET statement_timeout = '20s'; SELECT object, statement IS NULL FROM uca_dependents() WHERE kind = 'materialized view';"
        same(says(listed), 'public.z|f\npublic."A"|f\n', "views over views")
        says("CREATE OR REPLACE FUNCTION rows() RETURNS bigint LANGUAGE sql RETURN (SELECT count(*) FROM z);")
        same(says(listed), 'public."A"|t\npublic.z|t\n', "a view that reads itself")
        says("DROP TABLE words CASCADE; CREATE TABLE one(word text, key bytea, CONSTRAINT it CHECK (key = uca_key(word))); CREATE TABLE two(LIKE one INCLUDING ALL);"
             "CREATE TABLE own(LIKE one INCLUDING ALL); INSERT INTO own VALUES ('bh', uca_key('bh')); ALTER TABLE own INHERIT one;"
             "CREATE TABLE of_two() INHERITS (one, two); CREATE TABLE of_one() INHERITS (one);")
        same(says("SELECT object, statement IS NULL FROM uca_dependents();"),
             "it on public.of_two|t\nit on public.one|f\nit on public.own|t\nit on public.two|f\n", "a CHECK that several tables have")
        server.restart(settings.replace("/table.txt", "/tailored.txt"))
        again = "SELECT uca_use_files(again => true);"
        same(says(again, fails=True), KEYS_ARE_KEPT, "a CHECK that is not tested again")
        dropped = "BEGIN; ALTER TABLE one DROP CONSTRAINT it; ALTER TABLE two DROP CONSTRAINT it;"
        same(says(dropped + again, fails=True), 'ERROR:  check constraint "it" of relation "own" is violated by some row', "a CHECK that is tested again")
        same(says(f"{dropped} DELETE FROM own; {again} COMMIT;"), "1\n", "a CHECK after it")


HOLDERS = """
CREATE DOMAIN a_key AS bytea; CREATE DOMAIN "that key" AS a_key; CREATE TYPE a_row AS (word text, key "that key"); CREATE TYPE a_range AS RANGE (subtype = bytea);
"""


def postgresql_columns(work):
    """Columns whose keys nothing knows about."""
    with postgresql_server(work) as (server, says, settings):
        fingerprint = says(f"DROP EXTENSION uca; {HOLDERS} CREATE EXTENSION uca; SELECT fingerprint FROM uca_files;").strip()
        same(fingerprint, USED, "types without columns")
        for it in ("bytea", "a_key", '"that key"', "a_row", "a_range", "a_multirange", "bytea[]", '"that key"[]', "a_row[]"):
            counted = f"DROP EXTENSION uca; CREATE TABLE its(it {it}); CREATE EXTENSION uca; SELECT count(*) FROM uca_files; DROP TABLE its;"
            same(says(counted), "2\n", f"a column of type {it} before the extension")
        page = re.search(r"CREATE TABLE stored .*?;", content(f"{TOP}/docs/BINDINGS.md").decode(), re.S).group()
        says("DELETE FROM uca_files WHERE fingerprint LIKE 'unknown%';" + page)
        says("INSERT INTO stored VALUES ('a', uca_key('a')), (NULL, NULL);")
        for it in ("(NULL, '\\x1c')", "('a', NULL)", "('a', '\\x1c')"):
            same(says(f"INSERT INTO stored VALUES {it};", fails=True), 'ERROR:  new row for relation "stored" violates check constraint "stored_check"', it)
        says("CREATE TABLE words(word text); INSERT INTO words VALUES ('bh'); CREATE INDEX by_key ON words(uca_key(word), word); VACUUM words;")
        key = says("SELECT uca_key('bh');")
        server.restart(settings.replace("/table.txt", "/tailored.txt"))
        from_index = "SET enable_seqscan = off; SELECT uca_key(word) FROM words WHERE uca_key(word) > '\\x00';"
        same(says(from_index, fails=True), OTHER_FILES, "an index of other files, whose scan would make no key")
        says("SELECT uca_use_files(again => true);")
        other_key = says(from_index)
        same(other_key, says("SELECT uca_key('bh');"), "an index-only scan of an index that is made again")
        same(other_key != key, True, "another key")


# What keeps keys of functions that name no files: each kind of function once.
KEPT_BY_BOOK = """
CREATE TABLE words(word text, key bytea GENERATED ALWAYS AS (uca_key(word)) STORED);
INSERT INTO words VALUES ('b'), ('bh'), ('bz'), ('c');
CREATE UNIQUE INDEX by_letters ON words(uca_key(word, 1));
CREATE INDEX by_range ON words(uca_range_low(word, 1)) WHERE uca_range_high(word, 1) > '\\x00';
CREATE INDEX by_prefix ON words(uca_prefix_low(word), uca_prefix_high(word));
CREATE INDEX by_whole ON words(uca_expand(uca_key(word)));
CREATE TABLE copies AS SELECT word, uca_key(word) AS key FROM words;
CREATE TABLE wholes AS SELECT uca_expand(key) AS key FROM words;
CREATE INDEX by_compact ON wholes(uca_compact(key));
CREATE FUNCTION letters(text) RETURNS bytea LANGUAGE sql IMMUTABLE AS 'SELECT public.uca_range_low($1, 1)';
CREATE INDEX by_function ON copies(letters(word));
"""
DEPENDENTS_BY_BOOK = """index|public.by_compact
index|public.by_function
index|public.by_letters
index|public.by_prefix
index|public.by_range
index|public.by_whole
generated column|public.words.key
"""
NO_SERVER_BOOK = "ERROR:  uca: the server has no book, so its keys are whole"


def postgresql_compact(work):
    """Keys by a book, keys through some levels, and ranges; and the same by whole keys."""
    for book in (small_book(work), None):
        with postgresql_server(work, book=book) as (_, says, _):
            fingerprint = fingerprint_of(TABLE, DATA, book=book)
            same(says("SELECT uca_fingerprint(); SELECT fingerprint FROM uca_files;"), f"{fingerprint}\n" * 2, "the fingerprint")
            made = [(call, compact if book else whole) for call, compact, whole in MADE_BY_BOOK]
            statements = [f"SELECT upper(encode({call}, 'hex')), {call} = {with_fingerprint(call, fingerprint)};" for call, _ in made]
            same(says("".join(statements)), "".join(f"{wanted}|t\n" for _, wanted in made), f"keys by {book}")
            same(says("SELECT uca_any_key('Áb') = '\\x00' || uca_key('Áb');"), "t\n", f"any key by {book}")
            postgresql_expand(says, fingerprint, book)
            postgresql_arguments(says, fingerprint)
            postgresql_lookups(says)


def postgresql_expand(says, fingerprint, book):
    """From compact keys to whole ones and back, or an error where the server has no book."""
    calls = [(f"uca_expand('\\x{compact}')", whole) for _, compact, whole in MADE_BY_BOOK[:4]] + [(f"uca_compact('\\x{whole}')", compact) for _, compact, whole in MADE_BY_BOOK[:4]]
    for call, wanted in calls:
        for it in (call, with_fingerprint(call, fingerprint)):
            if book:
                same(says(f"SELECT upper(encode({it}, 'hex'));"), f"{wanted}\n", it)
            else:
                same(says(f"SELECT {it};", fails=True), NO_SERVER_BOOK, f"{it} without a book")
    for call, kind in (("uca_expand('\\x0A')", "NoCompactKey"), ("uca_expand('')", "NoCompactKey"), ("uca_compact('\\x1C')", "OtherKey")):
        same(says(f"SELECT {call};", fails=True), f"ERROR:  uca: the bytes are rejected: {kind}" if book else NO_SERVER_BOOK, call)


# Texts that are rejected, and why. The position counts code points in Normalization Form D: `á` is two.
REJECTED = [(RUN_OF_65, "LongRun at 1"), ("'bá' || repeat(U&'\\0301', 64)", "LongRun at 2"), ("repeat('a', 1048577)", "TooLong")]


def postgresql_checks(work):
    """uca_check says why uca_key does not take a text, and finds the rows for which an index on keys is an error."""
    with postgresql_server(work, editions=EDITIONS[2:]) as (server, says, settings):
        for given in ("''", "'a'", "NULL", "'a' || repeat(U&'\\0301', 64)", "repeat('a', 1048576)"):
            calls = [f"uca_check({given})", f"uca_check(({given})::uca_text)", f"uca_check({given}, '{USED}')", f"uca_check({given}, '{NEXT}')"]
            same(says("".join(f"SELECT {it} IS NULL;" for it in calls)), "t\n" * 4, f"a check of {given}")
        for given, why in (*REJECTED, (LONG, "TooLong")):
            calls = [f"uca_check({given})", f"uca_check(({given})::uca_text)", f"uca_check({given}, '{USED}')", f"uca_check({given}, '{NEXT}')"]
            same(says("".join(f"SELECT {it};" for it in calls)), f"{why}\n" * 4, f"a check of {given}")
        # U+0324 is a non-starter by the next edition alone
        run = "'b' || repeat(U&'\\0324', 65)"
        same(says(f"SELECT uca_check({run}) IS NULL, uca_check({run}, '{NEXT}');"), "t|LongRun at 1\n", "a text that the next edition rejects")
        for wrong, error in ((f"'{OTHER}'", OTHERS_NAMED), ("NULL", "ERROR:  uca: the fingerprint is NULL")):
            for given in ("'a'", "NULL"):
                same(says(f"SELECT uca_check({given}, {wrong});", fails=True), error, f"a check of {given} by {wrong}")
        says(f"CREATE TABLE words(id serial, word text); INSERT INTO words(word) VALUES ('bh'), ({RUN_OF_65}), (NULL), ('bz');")
        same(says("SELECT id, uca_check(word) FROM words WHERE uca_check(word) IS NOT NULL;"), "2|LongRun at 1\n", "rows that are rejected")
        same(says("CREATE INDEX by_key ON words(uca_key(word));", fails=True), "ERROR:  uca: the text is rejected: LongRun at 1", "an index on keys")
        says("CREATE INDEX by_key ON words(uca_key(word)) WHERE uca_check(word) IS NULL;"
             "CREATE INDEX by_id ON words(id) WHERE uca_check(word) IS NOT NULL;"
             f"CREATE INDEX named ON words(id) WHERE uca_check(word, '{USED}') IS NOT NULL;"
             "CREATE TABLE guarded(word text CONSTRAINT it CHECK (uca_check(word) IS NULL)); INSERT INTO guarded VALUES ('a'), (NULL);"
             "CREATE FUNCTION is_bad(text) RETURNS boolean LANGUAGE sql IMMUTABLE AS 'SELECT public.uca_check($1) IS NOT NULL';"
             "CREATE INDEX by_function ON guarded(is_bad(word));")
        same(says(f"INSERT INTO guarded VALUES ({RUN_OF_65});", fails=True), 'ERROR:  new row for relation "guarded" violates check constraint "it"', "a CHECK")
        same(says("SELECT kind, object FROM uca_dependents();"),
             "index|public.by_function\nindex|public.by_id\nindex|public.by_key\ncheck|it on public.guarded\n", "what depends on checks")
        by_index = "SET enable_seqscan = off; EXPLAIN (costs off) SELECT id FROM words WHERE uca_check(word) IS NOT NULL ORDER BY id;"
        # such a scan makes no call
        same(says(by_index), "Index Only Scan using by_id on words\n", "an index of rejected rows")
        server.restart(re.sub("uca.(next_.*|changes|certificate)_file.*\n", "", settings).replace("/table.txt", "/tailored.txt"))
        for it in ("SELECT uca_check('a');", "SELECT uca_check('a'::uca_text);", "INSERT INTO guarded VALUES ('a');", by_index.replace("EXPLAIN (costs off) ", "")):
            same(says(it, fails=True), OTHER_FILES, f"{it} with other files")
        same(says(f"SELECT uca_check('a', '{USED}');", fails=True), OTHERS_NAMED, "a check by files that the server has not")


def postgresql_arguments(says, fingerprint):
    """What the functions make of NULL, of other fingerprints and numbers, and of texts that are rejected."""
    calls = ["uca_key({})", "uca_key({}, 1)", "uca_key('a', NULL::integer)", "uca_range_low({}, 1)", "uca_range_high({}, 1)", "uca_range_low('a', NULL)", "uca_range_high('a', NULL)"]
    calls = [it.format("NULL") for it in (*calls, "uca_prefix_low({})", "uca_prefix_high({})", "uca_expand({})", "uca_compact({})")]
    named = [with_fingerprint(it, fingerprint) for it in calls]
    same(says("".join(f"SELECT {it} IS NULL;" for it in calls + named)), "t\n" * 22, "what is made of NULL")
    for it in named:
        for wrong, error in ((f"'{OTHER}'", OTHERS_NAMED), ("NULL", "ERROR:  uca: the fingerprint is NULL")):
            same(says(f"SELECT {it.replace(repr(fingerprint), wrong)};", fails=True), error, f"{it} by {wrong}")
    for call in ("uca_key('a', {})", "uca_range_low('a', {})", "uca_range_high('a', {})"):
        for levels in (0, 3, -1):
            for it in (call.format(levels), with_fingerprint(call.format(levels), fingerprint)):
                same(says(f"SELECT {it};", fails=True), f"ERROR:  uca: the number of levels is {levels}, and not 1 or 2", it)
    # each function that takes a text, and where the text has its error
    for given, why in REJECTED:
        for call in ("uca_key({})", "uca_key({}, 2)", "uca_range_low({}, 1)", "uca_range_high({}, 2)", "uca_prefix_low({})", "uca_prefix_high({})"):
            name, _, more = call.partition("({}")
            for it in (f"{name}({given}{more}", f"{name}({given}, '{fingerprint}'{more}"):
                same(says(f"SELECT {it};", fails=True), f"ERROR:  uca: the text is rejected: {why}", it)
    # a cast that a superuser may make, and by which any bytes are a text
    not_utf8 = "CREATE CAST (bytea AS text) WITHOUT FUNCTION; SELECT {}('\\x6162ff'::bytea::text);"
    for it in ("uca_key", "uca_prefix_low"):
        same(says(f"BEGIN; {not_utf8.format(it)}", fails=True), "ERROR:  uca: the text is rejected: Utf8 at 2", f"{it} of bytes that are not UTF-8")
    same(says(f"SELECT uca_prefix_low({LONG});", fails=True), "ERROR:  uca: the text is rejected: TooLong", "the beginning of a text of 180 MB")


def postgresql_lookups(says):
    """Ranges find texts by an index, and a unique index takes no second text of the same levels."""
    says(f"CREATE TABLE words(word text); CREATE INDEX by_key ON words(uca_key(word)); INSERT INTO words VALUES {LOOKED_THROUGH};")
    for ends, found in LOOKUPS:
        where = f"uca_key(word) >= {ends.format('low')} AND uca_key(word) < {ends.format('high')}"
        same(says(f"SELECT string_agg(word, ' ' ORDER BY uca_key(word)) FROM words WHERE {where};"), f"{found}\n", where)
        plan = says(f"SET enable_seqscan = off; SET enable_bitmapscan = off; EXPLAIN (costs off) SELECT word FROM words WHERE {where};")
        if not plan.startswith("Index Scan using by_key on words\n  Index Cond: "):
            raise AssertionError(f"a query without its index: {where}: {plan}")
    for number, (levels, goes_in, error) in enumerate(UNIQUES):
        says(f"CREATE TABLE one{number}(word text); CREATE UNIQUE INDEX ON one{number}(uca_key(word, {levels})); INSERT INTO one{number} VALUES {goes_in};")
        if "duplicate key value violates unique constraint" not in says(f"INSERT INTO one{number} VALUES {error};", fails=True):
            raise AssertionError(f"a second text of the same {levels} levels")
    low, high = re.findall(r"`('\\x00' \|\| uca_range_\w+\(.*?\))`", content(f"{TOP}/docs/BINDINGS.md").decode())
    made = f"CREATE TABLE all_words AS SELECT * FROM words; INSERT INTO all_words VALUES ({RUN_OF_65}); CREATE INDEX ON all_words(uca_any_key(word));"
    any_range = f"SELECT string_agg(word, ' ') FROM all_words WHERE uca_any_key(word) >= {low} AND uca_any_key(word) < {high};"
    same(says(made + any_range), "ab\n", "the page's range of any keys")


def postgresql_books(work):
    """A database whose keys were made by a book, where the server has another book or none."""
    with postgresql_server(work, book=BOOK) as (server, says, settings):
        room = os.path.dirname(server.folder)
        small_book(room)
        fingerprint = says("SELECT uca_fingerprint();").strip()
        same(fingerprint, fingerprint_of(TABLE, DATA, book=BOOK), "the fingerprint by general.book")
        statements = re.search(r"```sql\n(CREATE TABLE names .*?)```", content(f"{TOP}/docs/BINDINGS.md").decode(), re.S).group(1)
        same(says(statements).splitlines(), re.findall(r"^-- (.*)", statements, re.M), "the page's statements")
        same(says("SELECT count(*) FROM names; DROP TABLE names;"), "3\n", "the page's table")
        says(KEPT_BY_BOOK + f"CREATE TABLE named(word text, key bytea CHECK (key = uca_key(word, '{fingerprint}'))); INSERT INTO named VALUES ('b', uca_key('b'));")
        same(says("SELECT kind, object FROM uca_dependents();"), DEPENDENTS_BY_BOOK, "the dependents")
        dump = run([f"{server.programs}/pg_dump", "-h", server.folder, "-U", "postgres", "postgres"])
        same(restored(server, "again", "psql", "-X", given=dump), "", "a restore under the same book")
        same(says("SELECT count(*) FROM words WHERE key = uca_key(word);", database="again"), "4\n", "its keys")
        uses = ["uca_key('a')", "uca_key('a', 1)", "uca_any_key('a')", "uca_range_low('a', 1)", "uca_range_high('a', 1)", "uca_prefix_low('a')", "uca_prefix_high('a')"]
        uses += ["uca_expand('\\x03')", "uca_compact('\\x000000000000')"]
        for number, other in enumerate((settings.replace("/book.txt", "/small.book"), re.sub("uca.book_file.*\n", "", settings))):
            server.restart(other)
            for it in uses:
                same(says(f"SELECT {it};", fails=True), OTHER_FILES, f"{it} with another book")
            same(says("INSERT INTO words VALUES ('d');", fails=True), OTHER_FILES, "a row with another book")
            same(says("INSERT INTO named VALUES ('d', NULL);", fails=True), OTHERS_NAMED, "a row that names its book")
            restored(server, f"restored{number}", "psql", "-X", given=dump)
            for it in uses:
                same(says(f"SELECT {it};", fails=True, database=f"restored{number}"), OTHER_FILES, f"{it} after a restore with another book")
        server.restart(settings.replace("/book.txt", "/small.book"))
        same(says("SELECT uca_use_files();", fails=True), KEYS_ARE_KEPT, "uca_use_files() with another book")
        same(says("SELECT uca_use_files(again => true);"), "7\n", "statements that were run")
        same(says("SELECT count(*) FROM words WHERE key = uca_key(word); SELECT count(*) FROM copies WHERE key = uca_key(word);"), "4\n0\n", "the keys after them")
        same(says("SET enable_seqscan = off; SELECT word FROM words WHERE uca_key(word, 1) = uca_key('b-', 1);"), "b\n", "a lookup by letters after them")
        for file, error in (("none", "the file of uca.book_file cannot be read: No such file or directory"), ("", "uca.book_file does not name a regular file"), ("data.txt", "book line 1: Order")):
            server.restart(settings.replace("/book.txt", f"/{file}"))
            same(says("SELECT uca_key('a');", fails=True), f"ERROR:  uca: {error}", f"the book {file}")
        server.restart(settings.replace("uca.table_file", "uca.no_file").replace("uca.data_file", "uca.none_file"))
        same(says("SELECT uca_key('a');", fails=True)[:46], "ERROR:  uca: the file of uca.table_file cannot", "a book alone")
        if "pg_read_all_settings" not in says("CREATE ROLE joe; SET ROLE joe; SHOW uca.book_file;", fails=True):
            raise AssertionError("a role without rights reads uca.book_file")


def blocks_of(heading):
    """The blocks of a section of docs/BINDINGS.md, each with its language."""
    section = re.search(rf"^### {heading}\n(.*?)^##", content(f"{TOP}/docs/BINDINGS.md").decode(), re.S | re.M).group(1)
    return re.findall(r"^```([\w ]*)\n(.*?)^```$", section, re.S | re.M)


def page_settings(server, blocks):
    """The folder of the files, the page's settings, and its statements. The page's commands have run, and have put the files into this folder in
    place of /srv/uca."""
    room = f"{os.path.dirname(server.folder)}/srv"
    its = [(language, it.replace("/srv/uca", room)) for language, it in blocks]
    for language, commands in its:
        if language == "sh":
            run(["sh", "-ec", commands.replace("sudo ", "")], cwd=TOP)
    return room, [it for language, it in its if not language], [it for language, it in its if language == "sql"]


def postgresql_page(work):
    """What docs/BINDINGS.md says from nothing: its commands, settings and statements, with another folder in place of /srv/uca."""
    with postgresql_server(work) as (server, says, _):
        room, (settings, book), (first, again, names, named, changed) = page_settings(server, blocks_of("In PostgreSQL"))

        def prints(statements, database):
            same(says(statements, database=database).splitlines(), re.findall(r"^-- (.*)", statements, re.M), f"the page's statements {statements}")

        server.restart(settings)
        says("CREATE DATABASE words; CREATE DATABASE changed; CREATE DATABASE named;")
        for it in ("words", "changed", "named"):
            prints(first, it)
        prints(named, "named")
        says("INSERT INTO words VALUES ('d'); INSERT INTO stored VALUES ('d', uca_key('d'));", database="named")
        if "violates check constraint" not in says("INSERT INTO stored VALUES ('d', uca_key('a'));", fails=True, database="named"):
            raise AssertionError("another key in the page's table")
        server.restart(settings + book)
        for statement in ("SELECT uca_key('a');", "INSERT INTO words VALUES ('d');"):
            same(says(statement, fails=True, database="words"), OTHER_FILES, f"{statement} with a book")
        prints(again, "words")
        prints(names, "words")
        same(says("SELECT word FROM words ORDER BY uca_key(word);", database="words"), "á\nb\nbh\nbz\nch\n", "the words with a book")
        shutil.copy(TAILORED, f"{room}/table.txt")
        server.restart(settings)
        same(says("SELECT uca_key('a');", fails=True, database="changed"), OTHER_FILES, "a key with another table")
        prints(changed, "changed")
        same(says("SELECT word FROM words ORDER BY uca_key(word);", database="changed"), "á\nb\nbz\nbh\nch\n", "the words by another table")


NO_NEXT = "ERROR:  uca: the server has no next edition: name it in uca.next_table_file and the other settings"


def postgresql_upgrades(work):
    """The next edition beside the present one: which texts are affected, the new keys of the others, and what is an error."""
    for book in (None, BOOK):
        old, new = (fingerprint_of(*it, book=book) for it in ((TABLE, DATA), (NEW_TABLE, NEW_DATA)))
        with postgresql_server(work, book=book, editions=EDITIONS[2:]) as (server, says, settings):
            same(says("SELECT uca_fingerprint(), uca_next_fingerprint(); SELECT fingerprint FROM uca_files;"), f"{old}|{new}\n{old}\n", "the fingerprints")
            postgresql_mended(says, old, new, book)
            postgresql_upgrade_errors(says, old, new)
            expanded = f"SELECT uca_expand(uca_key('a', '{new}'), '{new}') = '\\x{MENDED[1][2]}';"
            same(says(expanded, fails=not book).strip(), "t" if book else NO_SERVER_BOOK, "a whole key of the next edition")
            for it in ("uca_affected('a'::text)", "uca_rekey('\\x03'::bytea)"):
                if "does not exist" not in says(f"SELECT {it};", fails=True):
                    raise AssertionError(f"{it} is called, and does not say by which files the key was made")
            same(says(f"INSERT INTO uca_files VALUES ('{new}'); SELECT uca_key('a');", fails=True), OTHER_FILES, "keys of the next edition in the database")
            same(says(f"SELECT uca_affected('ch', '{old}', '{new}'), uca_key('a', '{new}') IS NULL;"), "t|f\n", "calls that name both editions")
            says(f"DELETE FROM uca_files WHERE fingerprint = '{new}';")
    with postgresql_server(work) as (_, says, _):
        for it in ("uca_next_fingerprint()", f"uca_affected('a', '{USED}', '{NEXT}')", f"uca_rekey('', '{USED}', '{NEXT}')"):
            same(says(f"SELECT {it};", fails=True), NO_NEXT, f"{it} without a next edition")
        same(says(f"SELECT uca_key('a', '{NEXT}');", fails=True), OTHERS_NAMED, "a key of the next edition without one")


def postgresql_mended(says, old, new, book):
    """Texts that are affected, and the keys of others."""
    named = f"'{old}', '{new}'"
    for text, old_key, new_key in MENDED:
        key = f"uca_key({quoted(text)}, '{old}')"
        whole = f"encode(uca_expand({key}, '{old}'), 'hex'), encode(uca_expand(uca_rekey({key}, {named}), '{new}'), 'hex')" if book else f"encode({key}, 'hex'), encode(uca_rekey({key}, {named}), 'hex')"
        statement = (f"SELECT uca_affected({quoted(text)}, {named}), {whole},"
                     f" uca_rekey({key}, {named}) = uca_key({quoted(text)}, '{new}'), {key} = uca_key({quoted(text)});")
        same(says(statement), f"f|{old_key.lower()}|{new_key.lower()}|t|t\n", f"the keys of {text!r}")
    same(says("".join(f"SELECT uca_affected({quoted(it)}, {named});" for it in AFFECTED)), "t\n" * len(AFFECTED), "affected texts")
    same(says(f"SELECT uca_affected({RUN_OF_65}, {named}), uca_affected({LONG}, {named});"), "t|t\n", "texts that are rejected")
    same(says(f"SELECT uca_affected(NULL, {named}) IS NULL, uca_rekey(NULL, {named}) IS NULL;"), "t|t\n", "NULL")


def postgresql_upgrade_errors(says, old, new):
    for name, given in (("uca_affected", "'a'"), ("uca_rekey", "'\\x00'")):
        for it in (f"'{new}', '{old}'", f"'{old}', '{old}'", f"'{new}', '{new}'", f"'{OTHER}', '{new}'", f"'{old}', '{OTHER}'", f"'', '{new}'"):
            for value in (given, "NULL"):
                same(says(f"SELECT {name}({value}, {it});", fails=True), OTHERS_NAMED, f"{name} by {it}")
        for it in (f"NULL, '{new}'", f"'{old}', NULL"):
            same(says(f"SELECT {name}({given}, {it});", fails=True), "ERROR:  uca: the fingerprint is NULL", f"{name} by {it}")
        its_type = "text" if name == "uca_affected" else "bytea"
        call = f"{name}(x, '{old}', '{new}')"
        same(says(f"CREATE TABLE t(x {its_type}); CREATE INDEX ON t({call});", fails=True), "ERROR:  functions in index expression must be marked IMMUTABLE", call)
        says("DROP TABLE t;")
    same(says(f"SELECT uca_rekey(uca_key('ch'), '{old}', '{new}');", fails=True), "ERROR:  uca: the bytes are rejected: NoImage", "the key of an affected text")
    for key in ("''", "'\\x1c'"):
        found = says(f"SELECT uca_rekey({key}, '{old}', '{new}');", fails=True)
        if found not in ("ERROR:  uca: the bytes are rejected: NoImage", "ERROR:  uca: the bytes are rejected: NoCompactKey"):
            raise AssertionError(f"the new key of {key}: {found}")
    same(says(f"SELECT uca_key('a', '{OTHER}');", fails=True), OTHERS_NAMED, "a key of neither edition")


def postgresql_upgrade_files(work):
    """A next edition that is rejected does not touch the present one. After the next edition has become the present one, its keys are used."""
    with postgresql_server(work, editions=EDITIONS[2:]) as (server, says, settings):
        room = os.path.dirname(server.folder)
        altered = f"{room}/altered.txt"
        for name, file, old, new, error in (
            ("next_table", NEW_TABLE, b"0061 ; [.1C48", b"0061 ; [.1C4", "next table line 9: Weight"),
            ("next_data", NEW_DATA, b"ccc 0300..0314 230", b"ccc 0300..0314 300", "next data line 2: Weight"),
            ("changes", CHANGES, b"text 0065", b"text 0062", "changes line 3: Order"),
            ("certificate", CERTIFICATE, b"1 1C60 1C61", b"1 1C60 1C47", "certificate line 4: Map NotRising"),
            ("changes", CHANGES, b"text 0065\n", b"", "the audit rejects the next edition: RowExtra new row 9"),
            ("changes", CHANGES, b"range 0324..0324\n", b"", "the audit rejects the next edition: PointChanged code point 0324"),
            ("next_table", NEW_TABLE, b"@version 2\n", b"@version 2\n@variable non-ignorable\n", "the audit rejects the next edition: SettingChanged"),
        ):
            changed = content(file).replace(old, new, 1)
            with open(altered, "wb") as it:
                it.write(changed)
            os.chmod(altered, 0o644)
            server.restart(settings.replace(f"/{name}.txt", "/altered.txt"))
            same(says("SELECT uca_next_fingerprint();", fails=True), f"ERROR:  uca: {error}", f"{name} with {new}")
            same(says(f"SELECT uca_affected('a', '{USED}', '{NEXT}');", fails=True), f"ERROR:  uca: {error}", f"{name} with {new}")
            same(says(f"SELECT uca_key('a', '{NEXT}');", fails=True), OTHERS_NAMED, "a key of the rejected edition")
            same(says("SELECT encode(uca_key('a'), 'hex');"), f"{MENDED[1][1].lower()}\n", "a key of the present edition")
            until(lambda: f"WARNING:  uca: {error}" in content(f"{server.folder}/log").decode(), True, "the log")
        for name in ("next_table", "next_data", "changes", "certificate"):
            error = f"ERROR:  uca: the file of uca.{name}_file cannot be read: No such file or directory"
            for it in (settings.replace(f"/{name}.txt", "/none.txt"), re.sub(f"uca.{name}_file.*\n", "", settings)):
                server.restart(it)
                same(says("SELECT uca_next_fingerprint();", fails=True), error, f"without {name}")
                same(says("SELECT uca_key('a') IS NULL;"), "f\n", f"a key without {name}")
            role = f"no_rights_{name}"
            if "pg_read_all_settings" not in says(f"CREATE ROLE {role}; SET ROLE {role}; SHOW uca.{name}_file;", fails=True):
                raise AssertionError(f"a role without rights reads uca.{name}_file")
        server.restart(settings.replace("/table.txt", "/none.txt"))
        same(says(f"SELECT uca_rekey('', '{USED}', '{NEXT}');", fails=True), "ERROR:  uca: the file of uca.table_file cannot be read: No such file or directory", "without a present edition")
        server.restart(settings)
        says(f"CREATE TABLE words(word text); INSERT INTO words VALUES ('ch'), ('cb'), ('d'); CREATE INDEX by_key ON words(uca_key(word)); CREATE INDEX by_next ON words(uca_key(word, '{NEXT}'));")
        ordered = "SET enable_seqscan = off; SELECT string_agg(word, ' ') FROM (SELECT word FROM words ORDER BY uca_key(word{})) it;"
        same(says(ordered.format("") + ordered.format(f", '{NEXT}'")), "cb ch d\ncb ch d\n", "indexes of both editions")
        without = re.sub("uca.(next_.*|changes|certificate)_file.*\n", "", settings)
        server.restart(without.replace("/table.txt", "/next_table.txt").replace("/data.txt", "/next_data.txt"))
        same(says("SELECT uca_key('a');", fails=True), OTHER_FILES, "the next edition as the present one")
        same(says(f"INSERT INTO words VALUES ('c-h');", fails=True), OTHER_FILES, "a row of an index by the present edition")
        same(says("SELECT uca_use_files(again => true); INSERT INTO words VALUES ('c-h');" + ordered.format("") + ordered.format(f", '{NEXT}'")), "1\ncb c-h ch d\ncb c-h ch d\n", "files that are used from now on")


def postgresql_upgrade_page(work):
    """The statements of docs/BINDINGS.md for a new edition."""
    with postgresql_server(work) as (server, says, _):
        _, (settings, _), _ = page_settings(server, blocks_of("In PostgreSQL"))
        _, (next_edition,), blocks = page_settings(server, blocks_of("A new edition in PostgreSQL"))
        server.restart(settings + next_edition)
        same(says("SELECT uca_next_fingerprint();"), f"{NEXT}\n", "the page's next edition")
        said = "".join(says(it) for it in blocks[:2])
        # a key without a text, which cannot be told to be affected; a trigger makes keys where the text changes
        says(f"INSERT INTO words VALUES (NULL); UPDATE words SET key_e7f5 = uca_key('ch', '{USED}') WHERE word IS NULL; UPDATE words SET key_d8c5 = NULL;")
        said += says(blocks[2])
        mended = f"SELECT count(*), count(key_d8c5), count(*) FILTER (WHERE key_d8c5 = uca_key(word, '{NEXT}')) FROM words;"
        same(says(mended), "6|5|5\n", "the keys after step 2, one without a text")
        says("DELETE FROM words WHERE word IS NULL;")
        said += says(blocks[3])
        wrong = says(f"UPDATE words SET key_d8c5 = uca_key(word, '{USED}');", fails=True)
        if "violates check constraint" not in wrong:
            raise AssertionError(f"an old key in the new column: {wrong}")
        query = f"SELECT word FROM words WHERE key_e7f5 = uca_key('ch', '{USED}');"
        same(says(query), "ch\n", "a query of the old keys before step 4")
        said += says(blocks[4])
        same(says(query, fails=True), 'ERROR:  column "key_e7f5" does not exist', "a query of the old keys after step 4")
        same(said.splitlines(), re.findall(r"^-- (.*)", "".join(blocks), re.M), "the page's statements")
        same(says(f"SELECT count(*) FROM words WHERE key_d8c5 = uca_key(word, '{NEXT}'); INSERT INTO words VALUES ('e') RETURNING key_d8c5 = uca_key('e', '{NEXT}');"), "5\nt\n", "the page's table")
        server.restart(settings.replace("/table.txt", "/new_table.txt").replace("/data.txt", "/new_data.txt"))
        same(says("SELECT uca_use_files(); INSERT INTO words VALUES ('f') RETURNING key_d8c5 = uca_key('f');"), "0\nt\n", "the page's table afterwards")


def psql(server, database):
    """A session that takes its statements while it runs."""
    words = ["psql", "-XAtq", "-v", "ON_ERROR_STOP=1", "-d", database]
    return subprocess.Popen(words, stdin=subprocess.PIPE, stdout=subprocess.PIPE, stderr=subprocess.PIPE, text=True, env={**os.environ, **server.environment})


def tell(session, statements):
    session.stdin.write(statements)
    session.stdin.flush()


def postgresql_one_transaction(work):
    """The statements of docs/BINDINGS.md that take a table to a new edition in one transaction."""
    made = next(it for language, it in blocks_of("A new edition in PostgreSQL") if language == "sql")
    ((_, move),) = blocks_of("A new edition in PostgreSQL, in one transaction")
    old_state = f"SELECT count(*) FROM words WHERE key_e7f5 = uca_key(word, '{USED}');"
    new_state = f"SELECT count(*) FROM words WHERE key_d8c5 = uca_key(word, '{NEXT}');"
    pair = "DELETE FROM words; INSERT INTO words VALUES ('c'), ('ch');"
    with postgresql_server(work, editions=EDITIONS[2:]) as (server, says, settings):

        def has(database, *statements):
            """A new database with the table."""
            says(f"CREATE DATABASE {database};")
            says(made + "".join(statements), database=database)

        has("page", "CREATE INDEX by_key ON words (key_e7f5);")
        same(says(move, database="page").splitlines(), re.findall(r"^-- (.*)", move, re.M), "the page's statements")
        same(says(new_state + "INSERT INTO words VALUES ('e');" + new_state, database="page"), "5\n6\n", "the keys")
        same(says("SELECT key_e7f5 FROM words;", fails=True, database="page"), 'ERROR:  column "key_e7f5" does not exist', "an old query")
        has("plain", "DROP TRIGGER sets_keys ON words;")
        without = re.sub(r"CREATE OR REPLACE FUNCTION.*?END \$\$;\n", "", move, flags=re.S)
        same(says(without + new_state, database="plain"), "a\nb\nbach\nch\nd\n5\n", "a table without a trigger")
        if 'check constraint "of_next_edition"' not in says(f"INSERT INTO words VALUES ('b', uca_key('b', '{USED}'));", fails=True, database="plain"):
            raise AssertionError("an old key comes in")
        same(says(f"INSERT INTO words VALUES ('b', uca_key('b', '{NEXT}'));" + new_state, database="plain"), "6\n", "a new key comes in")
        # a key that is not of the first fingerprint
        has("wrong", f"UPDATE words SET key_e7f5 = uca_key('b', '{USED}') WHERE word = 'a';")
        if 'check constraint "of_next_edition"' not in says(move, fails=True, database="wrong"):
            raise AssertionError("a wrong key is taken to the new edition")
        same(says(old_state, database="wrong"), "4\n", "the keys after the error")
        has("checked", f"ALTER TABLE words ADD CONSTRAINT its CHECK (key_e7f5 IS NOT DISTINCT FROM uca_key(word, '{USED}'));")
        if 'violates check constraint "its"' not in says(move, fails=True, database="checked"):
            raise AssertionError("a CHECK that names the first fingerprint")
        dropped = move.replace("UPDATE words", "ALTER TABLE words DROP CONSTRAINT its; UPDATE words")
        same(says(dropped + new_state, database="checked"), "a\nb\nbach\nch\nd\n5\n", "a CHECK that is dropped")
        # the new key of `c` has the bytes of the old key of `ch`
        has("one", pair, "CREATE UNIQUE INDEX by_key ON words (key_e7f5);")
        if "duplicate key value" not in says(move, fails=True, database="one"):
            raise AssertionError("a unique index that takes a key twice")
        same(says(old_state, database="one"), "2\n", "the keys after the error")
        dropped = move.replace("UPDATE words", "DROP INDEX by_key; UPDATE words").replace("COMMIT;", "CREATE UNIQUE INDEX by_key ON words (key_d8c5); COMMIT;")
        same(says(dropped + new_state, database="one"), "c\nch\n2\n", "a unique index that is made again")
        has("at_the_end", pair, "ALTER TABLE words ADD UNIQUE (key_e7f5) DEFERRABLE;")
        same(says(move + new_state, database="at_the_end"), "c\nch\n2\n", "a constraint that is deferrable")
        # others that wait: one whose transaction begins after the move has begun, one that began before, and a reader
        has("waits")
        early, mover = psql(server, "waits"), psql(server, "waits")
        tell(early, "BEGIN ISOLATION LEVEL REPEATABLE READ; SELECT 'began' FROM pg_class LIMIT 1;\n")
        same(early.stdout.readline(), "began\n", "a transaction that began before")
        before_commit, after = move.split("COMMIT;")
        tell(mover, before_commit + "SELECT 'moved';\n")
        same(mover.stdout.readline(), "moved\n", "the move before COMMIT")
        tell(early, "INSERT INTO words VALUES ('cb'); COMMIT;\n")
        late, reader = psql(server, "waits"), psql(server, "waits")
        tell(late, "INSERT INTO words VALUES ('c');\n")
        tell(reader, "SELECT word FROM words ORDER BY key_e7f5;\n")
        waiting = "SELECT count(*) FROM pg_stat_activity WHERE datname = 'waits' AND wait_event_type = 'Lock';"
        until(lambda: says(waiting), "3\n", "three sessions wait")
        tell(mover, "COMMIT;\n")
        said = [it.communicate(timeout=60) for it in (mover, early, late, reader)]
        same([it for _, it in said[:3]], ["", "", ""], "errors of those that wrote")
        if 'column "key_e7f5" does not exist' not in said[3][1]:
            raise AssertionError(f"a reader that waited: {said[3]}")
        same(says(new_state + "SELECT count(*) FROM words;", database="waits"), "7\n7\n", "the keys of rows that waited")
        without = re.sub("uca.(next_.*|changes|certificate)_file.*\n", "", settings)
        server.restart(without.replace("/table.txt", "/next_table.txt").replace("/data.txt", "/next_data.txt"))
        afterwards = "SELECT uca_use_files(); INSERT INTO words VALUES ('f') RETURNING key_d8c5 = uca_key('f');"
        same(says(afterwards, database="page"), "0\nt\n", "the page's table afterwards")


def postgresql_like(program):
    """Lines ordered by the key and by an index on it are in the order of `uca sort`, and the keys are those of `uca keys`."""

    def check(work):
        if not os.path.exists(program):
            raise NotHere(f"there is no {program}")
        for book in (None, BOOK):
            with postgresql_server(work, book=book) as (_, says, _):
                for number, lines in enumerate(LINES):
                    files = ["--weighting", "shifted", TABLE, DATA]
                    text = content(f"{EXAMPLES}/{lines}")
                    values = ", ".join("('" + it.replace("'", "''") + "')" for it in text.decode().removesuffix("\n").split("\n"))
                    says(f"CREATE TABLE lines{number}(id serial, line text); INSERT INTO lines{number}(line) VALUES {values};")
                    wanted = run([program, "sort", *files], input=text).decode()
                    same(says(f"SELECT line FROM lines{number} ORDER BY uca_key(line), id;"), wanted, f"order of {lines} by {book}")
                    wanted = run([program, "keys", *files], input=text)
                    wanted = (compacted(program, wanted, book) if book else wanted).decode().replace(" ", "")
                    same(says(f"SELECT upper(encode(uca_key(line), 'hex')) FROM lines{number} ORDER BY id;"), wanted, f"keys of {lines} by {book}")

    return check


def postgresql_words(work, table, data, book, keys, order, lookups):
    with postgresql_server(work, table, data, book) as (_, says, _):
        says(f"CREATE TABLE words(id serial, word text); COPY words(word) FROM STDIN;\n{content(f'{work}/words.txt').decode()}\\.\n"
             "CREATE INDEX by_key_and_id ON words(uca_key(word), id); CREATE INDEX by_key ON words(uca_key(word));")
        same(says("SELECT word FROM words ORDER BY uca_key(word), id;"), order, f"order over {table}")
        same(says("SELECT upper(encode(uca_key(word), 'hex')) FROM words ORDER BY id;"), keys, f"keys over {table}")
        queries = []
        for text, _ in lookups:
            for ends in ("uca_prefix_{}({})", "uca_range_{}({}, 1)", "uca_range_{}({}, 2)"):
                low, high = (ends.format(it, quoted(text)) for it in ("low", "high"))
                queries.append(f"SELECT coalesce(string_agg(id::text, ' ' ORDER BY id), '') FROM words WHERE uca_key(word) >= {low} AND uca_key(word) < {high};")
        same(says("SET enable_seqscan = off;" + "".join(queries)), found_lines(lookups), f"lookups over {table} by {book}")
        unique = "CREATE TABLE one(word text); CREATE UNIQUE INDEX by_letters ON one(uca_key(word, 1)); INSERT INTO one VALUES ('Café'); INSERT INTO one VALUES ('CAFÉ');"
        if "duplicate key value violates unique constraint" not in says(unique, fails=True):
            raise AssertionError(f"CAFÉ beside Café over {table} by {book}")
        size = says("SELECT pg_relation_size('by_key');").strip()
        print(f"PostgreSQL, {os.path.basename(table)}: an index on {'compact' if book else 'whole'} keys of 100,000 words has {size} bytes")
