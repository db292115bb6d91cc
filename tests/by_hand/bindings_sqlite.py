"""Checks of the extension of SQLite. Part of bindings.py."""
import contextlib
import os
import re
import shutil
import sqlite3
import subprocess
import tempfile

from bindings_shared import (
    AFFECTED, BOOK, C, CERTIFICATE, CHANGES, COMPACT, DATA, EDITIONS, EXAMPLES, IN_VALUES, LINES, LOOKED_THROUGH, LOOKUPS, MADE_BY_BOOK, MENDED, NEW_DATA,
    NEW_TABLE, NEXT, NEXT_COMPACT, NotHere, OTHER, PHONE_BOOK, SETTINGS, TABLE, TAILORED, TOP, UNIQUES, USED, VOLUMES, content, digit_files, files_for,
    fingerprint_of, found_lines, keep_language, keep_languages, need, quoted, run, same, small_book, with_fingerprint,
)

MADE_BY_OTHERS = f"uca_key: the files of fingerprint {USED} are not loaded; loaded: {OTHER}"
NO_COLLATION = f"no such collation sequence: uca_{USED}"
NO_FINGERPRINT = "is no fingerprint of 64 lower-case hexadecimal digits"
NO_DEPTH = "not 'weights', 'identical', 'numeric' or 'identical numeric'"


def sqlite_load(table=TABLE, data=DATA, weighting="shifted", book=None, depth=""):
    """A statement that loads files, and prints nothing."""
    more = f", '{depth}', 'unchecked', '{book or ''}'" if book or depth else ""
    return f"SELECT 0 WHERE uca_load('{table}', '{data}', '{weighting}'{more}) IS NULL;"


def sqlite_says(work, *statements, load=sqlite_load(), database=":memory:", fails=False):
    """What the statements print, or their first error, after the extension has loaded files."""
    need("sqlite3", "make", "gcc")
    if not os.path.exists("/usr/include/sqlite3ext.h"):
        raise NotHere("there is no sqlite3ext.h")
    run(["make", "-s", "-C", f"{TOP}/bindings/sqlite"])
    words = ["sqlite3", database, f".load {TOP}/bindings/sqlite/out/uca", load, *statements]
    try:
        ran = subprocess.run(words, capture_output=True, text=True, cwd=TOP, timeout=300)
    except subprocess.TimeoutExpired as it:
        raise AssertionError(f"{load} {statements!r:.200}: it waits") from it
    if bool(ran.returncode) != fails:
        raise AssertionError(f"{load} {statements!r:.200}: status {ran.returncode}: {ran.stdout:.200}{ran.stderr:.200}")
    return ran.stderr.split("\n")[0] if fails else ran.stdout


def sqlite_fails(work, error, *statements, load=sqlite_load(), database=":memory:"):
    """The statements end with this error."""
    found = sqlite_says(work, *statements, load=load, database=database, fails=True)
    if error not in found:
        raise AssertionError(f"{load} {statements!r:.200}: {found}\n  in place of {error}")


SQLITE = [
    (f"SELECT hex(uca_key('a', '{USED}')), uca_key(NULL, '{USED}') IS NULL;", "1C4700000020000000020000FFFF|1\n"),
    (f"SELECT 'á' = 'a' || char(0x301) COLLATE uca_{USED}, 'a' < 'A' COLLATE uca_{USED}, 'c-h' < 'ch' COLLATE uca_{USED};", "1|1|1\n"),
    ("SELECT hex(x) FROM (SELECT x'FF' AS x UNION SELECT 'ch' UNION SELECT x'61FE' UNION SELECT 'c-h' UNION SELECT 'a')"
     f" ORDER BY CAST(x AS TEXT) COLLATE uca_{USED};", "61\n632D68\n6368\n61FE\nFF\n"),
]
# What goes by no fingerprint, or by one that is none.
SQLITE_ERRORS = [
    (f"SELECT uca_key(CAST(x'FF' AS TEXT), '{USED}');", "uca_key: Utf8 at 0"),
    (f"SELECT uca_key(x'61', '{USED}');", "uca_key: the first argument is a blob, not a text"),
    ("SELECT uca_key('a');", "wrong number of arguments to function uca_key()"),
    ("CREATE INDEX i ON words(uca_key(word));", "wrong number of arguments to function uca_key()"),
    ("SELECT word FROM words ORDER BY word COLLATE uca;", "no such collation sequence: uca"),
    ("CREATE TABLE u(word TEXT COLLATE uca);", "no such collation sequence: uca"),
    ("SELECT uca_key('a', '');", NO_FINGERPRINT),
    ("SELECT uca_key('a', NULL);", NO_FINGERPRINT),
    (f"SELECT uca_key('a', '{USED.upper()}');", NO_FINGERPRINT),
    (f"SELECT uca_key('a', '{USED}' || char(0) || 'x');", NO_FINGERPRINT),
    (f"SELECT uca_key('a', CAST('{USED}' AS BLOB));", NO_FINGERPRINT),
    (f"SELECT uca_key('a', '{USED[:32]}');", NO_FINGERPRINT),
    (f"SELECT uca_key(NULL, '{OTHER}');", f"uca_key: the files of fingerprint {OTHER} are not loaded; loaded: {USED}"),
    (f"CREATE INDEX i ON words(uca_key(word, uca_load('{TABLE}', '{DATA}')));", "unsafe use of uca_load()"),
    (f"CREATE TABLE g(word TEXT, key AS (uca_key(word, uca_load('{TABLE}', '{DATA}'))) STORED); INSERT INTO g VALUES ('a');", "unsafe use of uca_load()"),
    (f"CREATE TABLE c(word TEXT CHECK (uca_key(word, uca_load('{TABLE}', '{DATA}')) > x'')); INSERT INTO c VALUES ('a');", "unsafe use of uca_load()"),
    (f"CREATE VIEW v AS SELECT uca_load('{TABLE}', '{DATA}'); SELECT * FROM v;", "unsafe use of uca_load()"),
]


def sqlite(work):
    for statement, wanted in SQLITE:
        same(sqlite_says(work, statement), wanted, statement)
    for statement, error in SQLITE_ERRORS:
        sqlite_fails(work, error, "CREATE TABLE words(word TEXT); INSERT INTO words VALUES ('a');", statement)
    sqlite_fails(work, "are not loaded; loaded: none", f"SELECT uca_key('a', '{USED}');", load="")


def sqlite_loads(work):
    """uca_load returns the fingerprint, adds to what is loaded, and says what is wrong with its arguments."""
    for setting in SETTINGS[1:]:
        files = files_for(work, setting)
        arguments = ", ".join(f"'{it}'" for it in (*files, *setting))
        same(sqlite_says(work, f"SELECT uca_load({arguments});"), fingerprint_of(*files, *setting) + "\n", f"fingerprint of {setting}")
    same(sqlite_says(work, f"SELECT uca_load('{TABLE}', '{DATA}', NULL, '', '{USED}');", load=""), USED + "\n", "no weighting")
    with open(f"{work}/variable.txt", "wb") as it:
        it.write(content(TABLE).replace(b"\n", b"\n@variable non-ignorable\n", 1))
    wanted = fingerprint_of(it.name, DATA, "non-ignorable") + "\n"
    same(sqlite_says(work, f"SELECT uca_load('{it.name}', '{DATA}');", load=""), wanted, "the weighting of the table")
    again = "".join(f"SELECT uca_load('{it}', '{DATA}', substr(word, 1, 0)) FROM words ORDER BY word COLLATE uca_{USED};" for it in (TABLE, TAILORED, TAILORED))
    orders = "".join(f"SELECT group_concat(word, ' ') FROM (SELECT * FROM words ORDER BY word COLLATE uca_{it});" for it in (USED, OTHER))
    orders += "".join(f"SELECT group_concat(word, ' ') FROM (SELECT * FROM words ORDER BY uca_key(word, '{it}'));" for it in (USED, OTHER))
    twice = [f".load {TOP}/bindings/sqlite/out/uca", "CREATE TABLE words(word TEXT); INSERT INTO words VALUES ('bz'), ('bh'), ('b');"]
    wanted = f"{USED}\n" * 3 + f"{OTHER}\n" * 6 + "b bh bz\nb bz bh\n" * 2
    same(sqlite_says(work, *twice, again, orders), wanted, "files that are loaded one more time, while a statement runs")
    for arguments, error in (
        ("'none'", "uca_load: the table 'none': it is not found"),
        (f"'{TABLE}', 'none'", "uca_load: the data file 'none': it is not found"),
        ("NULL", "uca_load: the table '': it is not found"),
        (f"'{DATA}'", "uca_load: the table: line 1: Line"),
        (f"'{TABLE}', '{TABLE}'", "uca_load: the data file: line 1: Order"),
        (f"'{TABLE}', '{DATA}', 'SHIFTED'", "uca_load: the weighting is 'SHIFTED', not 'shifted' or 'non-ignorable'"),
        (f"'{TABLE}', '{DATA}', '', 'deep'", f"uca_load: the depth is 'deep', {NO_DEPTH}"),
        (f"'{TABLE}', '{DATA}', '', 'numeric identical'", f"uca_load: the depth is 'numeric identical', {NO_DEPTH}"),
        (f"'{TABLE}', '{DATA}', '', 'numeric'", "uca_load: the table: Digits"),
        (f"'{TABLE}', '{DATA}', 'shifted', '', ''", f"uca_load: the fifth argument {NO_FINGERPRINT}"),
        (f"'{TABLE}', '{DATA}', 'shifted', '', NULL", f"uca_load: the fifth argument {NO_FINGERPRINT}"),
        (f"'{TABLE}', '{DATA}', 'shifted', '', '{USED[:32]}'", f"uca_load: the fifth argument {NO_FINGERPRINT}"),
        (f"'{TAILORED}', '{DATA}', 'shifted', '', '{USED}'", f"uca_load: the files and settings have the fingerprint {OTHER}, and {USED} is wanted"),
        (f"'{TABLE}', '{DATA}', 'shifted' || char(0)", "uca_load: argument 3 has a zero byte"),
        (f"'{TABLE}', '{DATA}', '', '', 'Unchecked'", f"uca_load: the fifth argument {NO_FINGERPRINT}, and not 'unchecked'"),
        (f"'{TABLE}', '{DATA}', '', '', NULL, '{BOOK}'", f"uca_load: the fifth argument {NO_FINGERPRINT}"),
        (f"'{TABLE}', '{DATA}', '', '', 'unchecked', 'none'", "uca_load: the book 'none': it is not found"),
        (f"'{TABLE}', '{DATA}', '', '', 'unchecked', '{DATA}'", "uca_load: the book: line 1: Order"),
        (f"'{TABLE}', '{DATA}', '', '', '{COMPACT}'", f"uca_load: the files and settings have the fingerprint {USED}, and {COMPACT} is wanted"),
        (f"'{TABLE}', '{DATA}', '', '', '{COMPACT}', NULL", f"uca_load: the files and settings have the fingerprint {USED}, and {COMPACT} is wanted"),
        (f"'{TABLE}', '{DATA}', '', '', '{USED}', '{BOOK}'", f"uca_load: the files and settings have the fingerprint {COMPACT}, and {USED} is wanted"),
        (f"'{TABLE}', '{DATA}', '', '', 'unchecked', '{BOOK}', ''", "uca_load: it takes 2 to 6 arguments"),
    ):
        arguments += f", '{DATA}'" if "," not in arguments else ""
        sqlite_fails(work, error, f"SELECT uca_load({arguments});", load="")
    for arguments, wanted in ((f"'unchecked', '{BOOK}'", COMPACT), (f"'{COMPACT}', '{BOOK}'", COMPACT), ("'unchecked'", USED), ("'unchecked', ''", USED), (f"'{USED}', NULL", USED)):
        same(sqlite_says(work, f"SELECT uca_load('{TABLE}', '{DATA}', '', '', {arguments});", load=""), wanted + "\n", f"a load of {arguments}")
    shared = f"file:{work}/shared.db?cache=shared"
    sqlite_fails(work, "uca_load: the database has a shared cache", f"SELECT uca_load('{TABLE}', '{DATA}');", load="", database=shared)
    private = shared.replace("shared", "private")
    same(sqlite_says(work, f"SELECT uca_load('{TABLE}', '{DATA}', '', '', '{USED}');", load="", database=private), USED + "\n", "a private cache")


def sqlite_authorizers(work):
    """The extension is loaded a second time, while an authorizer denies what it asks, and from another file."""
    sqlite_says(work, "SELECT 1;")
    extension = f"{TOP}/bindings/sqlite/out/uca"
    os.makedirs(f"{work}/copies", exist_ok=True)
    shutil.copy(f"{extension}.so", f"{work}/copies/uca.so")
    run(["gcc", "-O2", "-std=c11", "-Wall", "-Wextra", "-Werror", "-o", f"{work}/authorizers", f"{TOP}/bindings/sqlite/authorizers.c", "-lsqlite3"])
    run([f"{work}/authorizers", extension, f"{work}/copies/uca", TABLE, DATA])


def sqlite_files(work):
    """What is not a file that can be read to its end is rejected without being read."""
    os.mkfifo(f"{work}/pipe")
    limit = 64 << 20
    for name, size in (("large", limit + 1), ("limit", limit)):
        with open(f"{work}/{name}", "wb") as it:
            it.truncate(size)
    for path, why in ((f"{work}/pipe", "it is not a regular file"), ("/dev/zero", "it is not a regular file"), (work, "it is not a regular file"),
                      (f"{work}/large", "it is too large: more than 64 MiB")):
        sqlite_fails(work, f"uca_load: the table '{path}': {why}", f"SELECT uca_load('{path}', '{DATA}');", load="")
        sqlite_fails(work, f"uca_load: the data file '{path}': {why}", f"SELECT uca_load('{TABLE}', '{path}');", load="")
        sqlite_fails(work, f"uca_load: the book '{path}': {why}", f"SELECT uca_load('{TABLE}', '{DATA}', '', '', 'unchecked', '{path}');", load="")
    sqlite_fails(work, "uca_load: the table: line 1: ", f"SELECT uca_load('{work}/limit', '{DATA}');", load="")


# What is no tag of a language: it could be a path, a setting of a program, or a statement of a shell.
NO_TAGS = ["", "../pl", "..", ".", "pl/..", "a/b", "a.b", "a b", "-pl", "pl-", "a--b", "de_DE", "pl\n", "é", "$(id)", "pl;", "%s", "a" * 101]
NO_EDITIONS = ["..", "../15.0.0-cldr41", "15.0.0/pl", ".making", "15..0", "15.0.0-", "15 0", "a" * 101]


def language_says(work, *statements, fails=False, **environment):
    """What the statements print, or their first error, in a connection with a copy of the extension. Languages are in the folder uca beside the copy."""
    sqlite_says(work, "SELECT 1;")
    folder = f"{work}/languages"
    if not os.path.exists(folder):
        keep_languages(f"{folder}/uca")
        shutil.copy(f"{TOP}/bindings/sqlite/out/uca.so", folder)
    # It is loaded by a relative path, and looks for its own folder after the program has gone to another one too.
    words = ["sqlite3", ":memory:", ".load ./uca", f".cd {work}", *statements]
    ran = subprocess.run(words, capture_output=True, text=True, cwd=folder, env={**os.environ, **environment}, timeout=60)
    if bool(ran.returncode) != fails:
        raise AssertionError(f"{statements!r:.200}: status {ran.returncode}: {ran.stdout:.200}{ran.stderr:.200}")
    return ran.stderr.split("\n")[0] if fails else ran.stdout


def sqlite_languages(work):
    """uca_use_language loads the files of a language, and no others."""
    compact, non_ignorable = fingerprint_of(TAILORED, DATA, book=BOOK), fingerprint_of(TAILORED, DATA, "non-ignorable", "identical")
    for arguments, wanted in (
        (f"'{PHONE_BOOK}'", OTHER), (f"'{PHONE_BOOK}', '15.0.0-cldr41', 'shifted'", OTHER), (f"'{PHONE_BOOK}', NULL, '', '', '{OTHER}', ''", OTHER),
        ("'pl', '16.0.0-cldr46'", USED), (f"'{PHONE_BOOK}', '', '', '', 'unchecked', 'book'", compact), (f"'{PHONE_BOOK}', '', 'non-ignorable', 'identical'", non_ignorable),
    ):
        same(language_says(work, f"SELECT uca_use_language({arguments});"), f"{wanted}\n", f"uca_use_language({arguments})")
    words = "CREATE TABLE words(word TEXT); INSERT INTO words VALUES ('bh'), ('bz'), ('b');"
    for order in (f"word COLLATE uca_{OTHER}", f"uca_key(word, '{OTHER}')"):
        found = language_says(work, f"SELECT 0 WHERE uca_use_language('{PHONE_BOOK}') IS NULL; {words} SELECT group_concat(word, ' ') FROM (SELECT word FROM words ORDER BY {order});")
        same(found, "b bz bh\n", f"the order by {order}")
    folder = os.path.realpath(f"{work}/languages/uca")
    no_files = "uca_use_language: no folder has files of the language"
    made_by = "an administrator makes them by: uca-files --into /usr/local/share/uca"
    errors = [(quoted(it), "uca_use_language: the tag of a language has letters, digits") for it in NO_TAGS]
    errors += [(f"{quoted('pl')}, {quoted(it)}", "uca_use_language: the tag of a language has letters, digits") for it in NO_EDITIONS]
    errors += [
        ("'pl'", f"uca_use_language: {folder} has several editions of the language pl: 15.0.0-cldr41, 16.0.0-cldr46; name one as the second argument"),
        ("'qaa-x-none'", f"{no_files} qaa-x-none; {made_by} qaa-x-none"), ("'PL'", f"{no_files} PL; {made_by} PL"),
        ("'pl', '14.0.0-cldr40'", f"{no_files} pl, edition 14.0.0-cldr40; {made_by} pl"),
        ("'pl', '15.0.0-cldr41', '', '', 'unchecked', 'book'", "uca_use_language: the book "), (f"'{PHONE_BOOK}', '', '', '', 'unchecked', '1'", "uca_use_language: the sixth argument is '1', not 'book'"),
        (f"'{PHONE_BOOK}', '', 'blanked'", "uca_use_language: the weighting is 'blanked'"), (f"'{PHONE_BOOK}', '', '', 'numeric'", "uca_use_language: the table: Digits"),
        (f"'{PHONE_BOOK}', '', '', '', '{USED}'", f"uca_use_language: the files and settings have the fingerprint {OTHER}, and {USED} is wanted"),
        ("'pl' || char(0)", "uca_use_language: argument 1 has a zero byte"), ("", "uca_use_language: it takes 1 to 6 arguments"), ("NULL", "uca_use_language: the tag of a language"),
    ]
    for arguments, error in errors:
        found = language_says(work, f"SELECT uca_use_language({arguments});", fails=True)
        if error not in found:
            raise AssertionError(f"uca_use_language({arguments}): {found}\n  in place of {error}")
    for schema in ("CREATE VIEW v AS SELECT uca_use_language('pl', '16.0.0-cldr46'); SELECT * FROM v;", "CREATE TABLE c(word TEXT CHECK (uca_use_language(word) > '')); INSERT INTO c VALUES ('pl');"):
        same("unsafe use of uca_use_language()" in language_says(work, schema, fails=True), True, schema)
    keep_language(f"{work}/homes/uca", "xx", TABLE)
    homes = {it: f"{work}/homes" for it in ("HOME", "XDG_DATA_HOME", "XDG_DATA_DIRS")}
    same(no_files in language_says(work, "SELECT uca_use_language('xx');", fails=True, **homes), True, "folders that the environment names")
    broken = keep_language(f"{work}/languages/uca", "broken", TABLE)
    os.remove(f"{broken}/data.txt")
    same(": it is not found" in language_says(work, "SELECT uca_use_language('broken');", fails=True), True, "a language without a data file")
    os.mkfifo(f"{broken}/data.txt")
    same(": it is not a regular file" in language_says(work, "SELECT uca_use_language('broken');", fails=True), True, "a language whose data file is a pipe")


# Each makes a table `words` whose schema names the files, and the error of a new row where other files are loaded.
SQLITE_SCHEMAS = [
    (f"CREATE TABLE words(word TEXT); CREATE INDEX i ON words(uca_key(word, '{USED}'));", MADE_BY_OTHERS),
    (f"CREATE TABLE words(word TEXT); CREATE INDEX i ON words(word) WHERE uca_key(word, '{USED}') > x'1C';", MADE_BY_OTHERS),
    (f"CREATE TABLE words(word TEXT, key BLOB AS (uca_key(word, '{USED}')) STORED); CREATE INDEX i ON words(key);", MADE_BY_OTHERS),
    (f"CREATE TABLE words(word TEXT, key BLOB AS (uca_key(word, '{USED}')) VIRTUAL); CREATE INDEX i ON words(key);", MADE_BY_OTHERS),
    (f"CREATE TABLE words(word TEXT CHECK (uca_key(word, '{USED}') > x'1C'));", MADE_BY_OTHERS),
    (f"CREATE TABLE words(word TEXT, key BLOB); CREATE TRIGGER t AFTER INSERT ON words BEGIN UPDATE words SET key = uca_key(word, '{USED}'); END;", MADE_BY_OTHERS),
    (f"CREATE TABLE words(word TEXT); CREATE INDEX i ON words(word COLLATE uca_{USED});", NO_COLLATION),
    (f"CREATE TABLE words(word TEXT COLLATE uca_{USED} UNIQUE);", NO_COLLATION),
    (f"CREATE TABLE words(word TEXT CHECK (word > 'A' COLLATE uca_{USED}));", NO_COLLATION),
]
ROW = "INSERT INTO words(word) VALUES ('ch');"
THREE = "INSERT INTO words(word) VALUES ('bz'), ('bh'), ('b');"
IN_ORDER = f"SELECT group_concat(word, ' ') FROM (SELECT word FROM words ORDER BY uca_key(word, '{USED}'));"
WITH_BOOK = "CREATE TABLE words(word TEXT, key BLOB AS (uca_key(word, '{0}')) STORED, letters BLOB AS (uca_key(word, '{0}', 1)) VIRTUAL);"
UNIQUE = "CREATE TABLE words(word TEXT); CREATE UNIQUE INDEX i ON words(uca_key(word, '{0}', {1}));"


def sqlite_compact(work):
    """Keys by a book, keys through some levels, and ranges."""
    small = small_book(work)
    fingerprint, load = fingerprint_of(TABLE, DATA, book=small), sqlite_load(book=small)
    for call, compact, whole in MADE_BY_BOOK:
        named, of_whole = (with_fingerprint(call, it) for it in (fingerprint, USED))
        same(sqlite_says(work, f"SELECT hex({named}), hex({of_whole});", load=load + sqlite_load()), f"{compact}|{whole}\n", call)
    for _, compact, whole in MADE_BY_BOOK[:4]:
        statement = f"SELECT hex(uca_expand(x'{compact}', '{fingerprint}')), hex(uca_compact(x'{whole}', '{fingerprint}'));"
        same(sqlite_says(work, statement, load=load), f"{whole}|{compact}\n", statement)
    for name in ("uca_expand", "uca_compact"):
        sqlite_fails(work, f"{name}: the files of fingerprint {USED} have no book", f"SELECT {name}(x'0A03', '{USED}');")


# Texts that are rejected, and why. The position counts bytes for Utf8, and code points in Normalization Form D for LongRun: `á` is two.
SQLITE_MARKS = "replace(hex(zeroblob({})), '00', char(0x301))"
SQLITE_REJECTED = [
    ("CAST(x'FF' AS TEXT)", "Utf8 at 0"),
    ("CAST(x'6162C3' AS TEXT)", "Utf8 at 2"),
    ("CAST(x'C3A1EDA080' AS TEXT)", "Utf8 at 2"),
    (f"'a' || {SQLITE_MARKS.format(65)}", "LongRun at 1"),
    (f"'bá' || {SQLITE_MARKS.format(64)}", "LongRun at 2"),
    ("replace(hex(zeroblob(1048577)), '00', 'a')", "TooLong"),
]


def sqlite_arguments(work):
    """What the functions make of NULL, of other types, fingerprints and numbers, and of bytes that are rejected."""
    small = small_book(work)
    fingerprint, load = fingerprint_of(TABLE, DATA, book=small), sqlite_load(book=small)
    for it in ("uca_key", "uca_key {}, 1", "uca_range_low {}, 1", "uca_range_high {}, 1", "uca_prefix_low", "uca_prefix_high", "uca_expand", "uca_compact"):
        name, _, more = it.partition(" {}")
        takes_key = name in ("uca_expand", "uca_compact")
        same(sqlite_says(work, f"SELECT {name}(NULL, '{fingerprint}'{more}) IS NULL;", load=load), "1\n", f"{name} of NULL")
        given, other, error = ("x'0A03'", "'0A03'", "no blob, so it is no key") if takes_key else ("'a'", "x'61'", "a blob, not a text")
        of_real = error if takes_key else "a real number, not a text"
        for value, what in ((other, error), ("0.1 + 0.2", of_real), ("1e0", of_real)):
            sqlite_fails(work, f"{name}: the first argument is {what}", f"SELECT {name}({value}, '{fingerprint}'{more});", load=load)
        not_loaded = f"{name}: the files of fingerprint {OTHER} are not loaded; loaded: {fingerprint}"
        for wrong, error in ((OTHER, not_loaded), ("", f"{name}: the second argument {NO_FINGERPRINT}")):
            for value in (given, "NULL"):
                sqlite_fails(work, error, f"SELECT {name}({value}, '{wrong}'{more});", load=load)
    for name in ("uca_key", "uca_range_low", "uca_range_high"):
        for levels in ("0", "3", "-1", "NULL", "'1'", "1.0", "4294967297"):
            sqlite_fails(work, f"{name}: the third argument is not 1 or 2", f"SELECT {name}('a', '{fingerprint}', {levels});", load=load)
    for call, error in (("uca_expand(x'0A')", "NoCompactKey"), ("uca_expand(x'')", "NoCompactKey"), ("uca_compact(x'1C')", "OtherKey"), ("uca_compact(x'')", "OtherKey"),
                        ("uca_prefix_low(CAST(x'FF' AS TEXT))", "Utf8 at 0"), ("uca_range_high(CAST(x'FF' AS TEXT), 1)", "Utf8 at 0"), ("uca_key(CAST(x'FF' AS TEXT), 1)", "Utf8 at 0")):
        sqlite_fails(work, f"{call.partition('(')[0]}: {error}", f"SELECT {with_fingerprint(call, fingerprint)};", load=load)
    # each function that takes a text, and where the text has its error
    calls = ["uca_key({})", "uca_key({}, 2)", "uca_range_low({}, 1)", "uca_range_high({}, 2)", "uca_prefix_low({})", "uca_prefix_high({})"]
    for given, why in SQLITE_REJECTED:
        for call in calls:
            name, _, more = call.partition("({}")
            for book, used in ((load, fingerprint), (sqlite_load(), USED)):
                found = sqlite_says(work, f"SELECT {name}({given}, '{used}'{more};", load=book, fails=True)
                same("uca_" + found.partition("uca_")[2], f"{name}: {why}", f"{call} of {given}")


def sqlite_checks(work):
    """uca_check says why uca_key does not take a value, and finds the rows for which an index on keys is an error."""
    small = small_book(work)
    for load, used in ((sqlite_load(book=small), fingerprint_of(TABLE, DATA, book=small)), (sqlite_load(), USED)):
        for given in ("''", "'a'", "char(0)", "5", "NULL", f"'a' || {SQLITE_MARKS.format(64)}", "replace(hex(zeroblob(1048576)), '00', 'a')"):
            same(sqlite_says(work, f"SELECT uca_check({given}, '{used}') IS NULL;", load=load), "1\n", f"a check of {given}")
        for given, why in (*SQLITE_REJECTED, ("x'61'", "a blob, not a text"), ("1.5", "a real number, not a text")):
            same(sqlite_says(work, f"SELECT typeof(uca_check({given}, '{used}')), uca_check({given}, '{used}');", load=load), f"text|{why}\n", f"a check of {given}")
        for wrong, error in ((OTHER, f"uca_check: the files of fingerprint {OTHER} are not loaded; loaded: {used}"), ("", f"uca_check: the second argument {NO_FINGERPRINT}")):
            for given in ("'a'", "NULL", "x'61'"):
                sqlite_fails(work, error, f"SELECT uca_check({given}, '{wrong}');", load=load)
        rows = "CREATE TABLE words(word); INSERT INTO words VALUES ('a'), (CAST(x'61FF' AS TEXT)), (NULL), (x'61'), ('b');"
        found = f"SELECT rowid, uca_check(word, '{used}') FROM words WHERE uca_check(word, '{used}') IS NOT NULL ORDER BY rowid;"
        index = f"CREATE INDEX i ON words(uca_key(word, '{used}'));"
        same(sqlite_says(work, rows, found, load=load), "2|Utf8 at 1\n4|a blob, not a text\n", "rows that are rejected")
        sqlite_fails(work, "uca_key: Utf8 at 1", rows, index, load=load)
        mended = f"DELETE FROM words WHERE uca_check(word, '{used}') IS NOT NULL; {index} SELECT count(*) FROM words; PRAGMA integrity_check;"
        same(sqlite_says(work, rows, mended, load=load), "3\nok\n", "an index without these rows")
        guarded = f"CREATE TABLE words(word CHECK (uca_check(word, '{used}') IS NULL)); INSERT INTO words VALUES ('a'), (NULL);"
        sqlite_fails(work, "CHECK constraint failed", guarded, "INSERT INTO words VALUES (CAST(x'FF' AS TEXT));", load=load)
        partial = f"CREATE INDEX i ON words(uca_key(word, '{used}')) WHERE uca_check(word, '{used}') IS NULL;"
        same(sqlite_says(work, rows, partial, "SELECT count(*) FROM words; PRAGMA integrity_check;", load=load), "5\nok\n", "an index of the other rows")


def sqlite_books(work):
    """Where another book or none is loaded, no row goes in, and a dump with rows is not restored."""
    small, load_it = small_book(work), sqlite_load(book=BOOK)
    in_order = IN_ORDER.replace(USED, COMPACT)
    database, restored = f"{work}/book.db", f"{work}/book-restored.db"
    sqlite_says(work, WITH_BOOK.format(COMPACT), "CREATE INDEX i ON words(key); CREATE INDEX l ON words(letters);", THREE, load=load_it, database=database)
    dump = sqlite_says(work, ".dump", load=load_it, database=database)
    for load, loaded in ((sqlite_load(book=small), fingerprint_of(TABLE, DATA, book=small)), (sqlite_load(), USED)):
        error = f"uca_key: the files of fingerprint {COMPACT} are not loaded; loaded: {loaded}"
        sqlite_fails(work, error, ROW, load=load, database=database)
        sqlite_fails(work, error, in_order, load=load, database=database)
        sqlite_fails(work, error, dump, load=load, database=restored)
        os.remove(restored)
    same(sqlite_says(work, dump, in_order, "PRAGMA integrity_check;", load=load_it, database=restored), "b bh bz\nok\n", "a dump of compact keys")


def sqlite_lookups(work):
    """Ranges find texts by an index, and a unique index takes no second text of the same levels, by whole keys and by compact ones."""
    for book, used in ((None, USED), (BOOK, COMPACT)):
        load, key = sqlite_load(book=book), f"uca_key(word, '{used}')"
        for levels, goes_in, error in UNIQUES:
            made = [UNIQUE.format(used, levels), f"INSERT INTO words VALUES {goes_in};"]
            sqlite_says(work, *made, load=load)
            sqlite_fails(work, "UNIQUE constraint failed", *made, f"INSERT INTO words VALUES {error};", load=load)
        made = [f"CREATE TABLE words(word TEXT); CREATE INDEX i ON words({key});", f"INSERT INTO words VALUES {LOOKED_THROUGH};"]
        for ends, found in LOOKUPS:
            low, high = (with_fingerprint(ends.format(it), used) for it in ("low", "high"))
            query = f"SELECT group_concat(word, ' ') FROM (SELECT word FROM words WHERE {key} >= {low} AND {key} < {high} ORDER BY {key});"
            same(sqlite_says(work, *made, query, load=load), f"{found}\n", query)
            if "SEARCH words USING INDEX i (<expr>>? AND <expr><?)" not in sqlite_says(work, *made, f"EXPLAIN QUERY PLAN {query}", load=load):
                raise AssertionError(f"a query without its index: {query}")


NEW_WORDS = f"""
DROP INDEX IF EXISTS i;
CREATE TABLE new_words(word TEXT COLLATE uca_{OTHER}, key BLOB AS (uca_key(word, '{OTHER}')) STORED UNIQUE);
INSERT INTO new_words(word) SELECT word FROM words;
DROP TABLE words;
ALTER TABLE new_words RENAME TO words;
SELECT group_concat(word, ' ') FROM (SELECT word FROM words ORDER BY key);
PRAGMA integrity_check;
"""


def sqlite_schemas(work):
    """Where other files are loaded, no row goes in, and a dump with rows is not restored. A new table needs the other files alone."""
    for number, (made, error) in enumerate(SQLITE_SCHEMAS):
        database, restored = f"{work}/schema{number}.db", f"{work}/restored{number}.db"
        sqlite_says(work, made, THREE, database=database)
        sqlite_fails(work, error, ROW, load=sqlite_load(TAILORED), database=database)
        sqlite_fails(work, NO_COLLATION, f"SELECT word FROM words ORDER BY word COLLATE uca_{USED};", load=sqlite_load(TAILORED), database=database)
        sqlite_fails(work, "uca_", ROW, load="", database=database)
        same(sqlite_says(work, IN_ORDER, "PRAGMA integrity_check;", database=database), "b bh bz\nok\n", made)
        dump = sqlite_says(work, ".dump", database=database)
        if "TRIGGER" not in made:  # a dump makes triggers after the rows
            sqlite_fails(work, error, dump, load=sqlite_load(TAILORED), database=restored)
            os.remove(restored)
        same(sqlite_says(work, dump, IN_ORDER, "PRAGMA integrity_check;", database=restored), "b bh bz\nok\n", f"a dump of {made}")
        same(sqlite_says(work, NEW_WORDS, load=sqlite_load(TAILORED), database=database), "b bz bh\nok\n", f"{made}: a new table")


def sqlite_restore(work):
    """A dump is restored under other files, and nobody looks at the errors. Then the index is not there, and the order is right."""
    database, restored, dump = (f"{work}/restore.{it}" for it in ("db", "new.db", "sql"))
    sqlite_says(work, f"CREATE TABLE words(word TEXT); CREATE INDEX by_key ON words(uca_key(word, '{USED}'));", THREE, database=database)
    same(sqlite_says(work, IN_ORDER, load=sqlite_load(TAILORED), database=database), "b bh bz\n", "an index of keys that are there")
    with open(dump, "w", encoding="utf-8") as it:
        it.write(sqlite_says(work, ".dump", database=database))
    commands = f".load {TOP}/bindings/sqlite/out/uca\n{sqlite_load(TAILORED)}\n.read {dump}\n"
    ran = subprocess.run(["sqlite3", restored], input=commands, capture_output=True, text=True)
    if MADE_BY_OTHERS not in ran.stderr:
        raise AssertionError(f"a dump restored under other files: {ran.stderr}")
    indexes = "SELECT count(*) FROM sqlite_schema WHERE type = 'index';"
    same(sqlite_says(work, IN_ORDER, indexes, "PRAGMA integrity_check;", database=restored), "b bh bz\n0\nok\n", "the old files")
    sqlite_fails(work, MADE_BY_OTHERS, IN_ORDER, load=sqlite_load(TAILORED), database=restored)


def sqlite_attached(work):
    """Two databases of two editions on one connection, each in its own order, by its index and without it."""
    for table, name, fingerprint in ((TABLE, "first", USED), (TAILORED, "second", OTHER)):
        made = f"CREATE TABLE words(word TEXT COLLATE uca_{fingerprint}, key BLOB AS (uca_key(word, '{fingerprint}')) STORED);"
        indexes = "CREATE INDEX by_key ON words(key); CREATE INDEX by_word ON words(word);"
        sqlite_says(work, made, indexes, THREE, load=sqlite_load(table), database=f"{work}/{name}.db")
    attach, second = f"ATTACH '{work}/second.db' AS second;", ROW.replace("words", "second.words")
    for statement in (second, "SELECT word FROM second.words ORDER BY word;"):
        sqlite_fails(work, f"no such collation sequence: uca_{OTHER}", attach, statement, database=f"{work}/first.db")
    orders = [f"SELECT group_concat(word, ' ') FROM (SELECT word FROM {name}.words ORDER BY {by});" for name in ("main", "second") for by in ("key", "word", "+key")]
    found = sqlite_says(work, attach, sqlite_load(TAILORED), ROW, second, *orders, "PRAGMA integrity_check;", database=f"{work}/first.db")
    same(found, "b bh bz ch\n" * 3 + "b bz bh ch\n" * 3 + "ok\n", "two editions")


def sqlite_threads(work):
    """SQLite sorts in several threads, while keys are made."""
    made = ["PRAGMA threads = 4; PRAGMA cache_size = -200; CREATE TABLE words(word TEXT);",
            "WITH RECURSIVE n(i) AS (SELECT 1 UNION ALL SELECT i + 1 FROM n WHERE i < 100000)"
            "INSERT INTO words SELECT char(97 + i * 7919 % 26, 97 + i * 104729 % 26, 256 + i * 31 % 20000) || i FROM n;"]
    keys = f"CREATE TABLE keys AS SELECT uca_key(word, '{USED}') AS key FROM words ORDER BY word COLLATE uca_{USED};"
    wrong = "SELECT count(*), sum(is_wrong) FROM (SELECT key < lag(key) OVER (ORDER BY rowid) AS is_wrong FROM keys);"
    index = f"CREATE INDEX i ON words(word COLLATE uca_{USED}); PRAGMA integrity_check;"
    same(sqlite_says(work, *made, keys, wrong, index, database=f"{work}/threads.db"), "4\n100000|0\nok\n", "threads of SQLite")


def sqlite_moved(work):
    """A connection in two threads, each while SQLite sorts in others. Without the lock of the extension this fails."""
    sqlite_says(work, "SELECT 1;")
    parts = [f"{TOP}/bindings/sqlite/{it}.c" for it in ("threads", "uca_sqlite", "uca_language")]
    flags = ["-std=c11", "-O2", "-Wall", "-Wextra", "-Wpedantic", "-Werror", "-pthread", "-DSQLITE_CORE", f"-I{C}/include"]
    run(["gcc", *flags, "-o", f"{work}/moved", *parts, f"{C}/out/libuca.a", "-lsqlite3"])
    found = run([f"{work}/moved", TABLE, DATA, USED, f"{work}/moved.db"]).decode()
    same(found, "100000 0\n" * 2, "keys in the order of the collation, in two threads")


def sqlite_memory(work):
    """Each allocation fails in turn."""
    language_says(work, "SELECT 1;")
    run(["gcc", "-O2", "-std=c11", "-Wall", "-Wextra", "-Werror", "-o", f"{work}/memory", f"{TOP}/bindings/sqlite/memory.c", "-lsqlite3", "-ldl"])
    run([f"{work}/memory", f"{work}/languages/uca", TABLE, DATA, USED, BOOK, COMPACT, f"{EXAMPLES}/editions", NEXT])


def sqlite_numbers(work):
    """Numbers by their values: `7` is read as `17`, and `10` as `210`."""
    files = digit_files(work)
    used, as_text = (fingerprint_of(*files[:2], depth=it) for it in ("numeric", "weights"))
    load, key = sqlite_load(files[0], depth="numeric"), f"uca_key(name, '{used}')"
    keys = f"SELECT hex(uca_key('7', '{used}')), uca_key('007', '{used}') = uca_key(7, '{used}');"
    same(sqlite_says(work, keys, load=load), "1C3E1C440000002000200000000200020000FFFFFFFF|1\n", keys)
    made = f"CREATE TABLE volumes(name TEXT); INSERT INTO volumes VALUES {VOLUMES}; CREATE INDEX i ON volumes({key});"
    for it in (key, f"name COLLATE uca_{used}"):
        ordered = f"SELECT group_concat(name) FROM (SELECT name FROM volumes ORDER BY {it}, name);"
        same(sqlite_says(work, made, ordered, load=load), f"{IN_VALUES}\n", ordered)
    low, high = (f"uca_prefix_{it}('Band 1', '{used}')" for it in ("low", "high"))
    begins = f"SELECT count(*), min(name), max(name) FROM volumes WHERE {key} >= {low} AND {key} < {high};"
    same(sqlite_says(work, made, begins, load=load), "2|Band 1|Band 1a\n", "what begins with a number")
    not_loaded = f"uca_key: the files of fingerprint {used} are not loaded; loaded: {as_text}"
    sqlite_fails(work, not_loaded, f"SELECT uca_key('7', '{used}');", load=sqlite_load(files[0]))
    for depth, affected in (("numeric", "1|0|1"), ("weights", "0|0|1"), ("identical numeric", "1|0|1")):
        old, new = (fingerprint_of(*files[at : at + 2], depth=depth) for at in (0, 2))
        arguments = quoted_list(files, [quoted("shifted"), quoted(depth), quoted(old)])
        loads = sqlite_load(files[0], depth=depth) + sqlite_load(files[2], depth=depth)
        loads += f"SELECT 0 WHERE uca_load_upgrade({arguments}) IS NULL;"
        asked = ", ".join(f"uca_affected('{it}', '{old}', '{new}')" for it in ("10", "7", "2"))
        renewed = f"uca_rekey(uca_key('a7', '{old}'), '{old}', '{new}') = uca_key('a7', '{new}')"
        same(sqlite_says(work, f"SELECT {asked}, {renewed};", load=loads), f"{affected}|1\n", f"an upgrade by {depth}")


def quoted_list(texts, more=()):
    """Texts, as arguments of a function of SQL."""
    return ", ".join([*map(quoted, texts), *more])


def sqlite_upgrade(files=EDITIONS, more=()):
    """Statements that load both editions and the upgrade, and print nothing."""
    loads = sqlite_load() + sqlite_load(NEW_TABLE, NEW_DATA) + sqlite_load(book=BOOK) + sqlite_load(NEW_TABLE, NEW_DATA, book=BOOK)
    return f"{loads} SELECT 0 WHERE uca_load_upgrade({quoted_list(files, more)}) IS NULL;"


def sqlite_upgrade_loads(work):
    """uca_load_upgrade returns the new fingerprint, and says what is wrong with its arguments and files."""
    extension = f".load {TOP}/bindings/sqlite/out/uca"
    of_settings = [(), ("'shifted'",), ("NULL", "NULL", f"'{USED}'"), ("''", "'weights'", "'unchecked'")]
    for more in of_settings:
        same(sqlite_says(work, f"SELECT uca_load_upgrade({quoted_list(EDITIONS, more)});", load=""), f"{NEXT}\n", f"an upgrade by {more}")
    for setting in SETTINGS[1:]:
        weighting, depth = (*setting, "weights")[:2]
        files = digit_files(work) if "numeric" in depth else EDITIONS
        old, new = (fingerprint_of(*files[at : at + 2], weighting, depth) for at in (0, 2))
        more = [quoted(it) for it in (weighting, depth, old)]
        same(sqlite_says(work, f"SELECT uca_load_upgrade({quoted_list(files, more)});", load=""), f"{new}\n", f"an upgrade by {setting}")
    by_value = f"SELECT uca_load_upgrade({quoted_list(EDITIONS, [quoted('shifted'), quoted('numeric')])});"
    sqlite_fails(work, "uca_load_upgrade: the old table: Digits", by_value, load="")
    altered = f"{work}/altered.txt"
    for at, old, new, error in (
        (0, b"0061 ; [.1C47", b"0061 ; [.1C4", "the old table: line 7: Weight"),
        (1, b"@data 1", b"@data 2", "the old data file: line 1: Order"),
        (2, b"0061 ; [.1C48", b"0061 ; [.1C4", "the new table: line 9: Weight"),
        (3, b"ccc 0300..0314 230", b"ccc 0300..0314 300", "the new data file: line 2: Weight"),
        (4, b"text 0065", b"text 0062", "the file of changes: line 3: Order"),
        (5, b"1 1C60 1C61", b"1 1C60 1C47", "the certificate: line 4: Map NotRising"),
        (4, b"text 0065\n", b"", "the audit rejects the files: RowExtra new row 9"),
        (4, b"range 0324..0324\n", b"", "the audit rejects the files: PointChanged code point 0324"),
        (5, b"1 1C60 1C61", b"1 1C60 1C60", "the audit rejects the files: RowChanged old row 5"),
        (5, b"3 0008 0008 0001\n", b"", "the audit rejects the files: Uncovered old row 4"),
        (2, b"@version 2\n", b"@version 2\n@variable non-ignorable\n", "the audit rejects the files: SettingChanged"),
    ):
        changed = content(EDITIONS[at]).replace(old, new, 1)
        with open(altered, "wb") as it:
            it.write(changed)
        files = [*EDITIONS[:at], altered, *EDITIONS[at + 1 :]]
        sqlite_fails(work, f"uca_load_upgrade: {error}", f"SELECT uca_load_upgrade({quoted_list(files)});", load="")
    roles = ["old table", "old data file", "new table", "new data file", "file of changes", "certificate"]
    for at, role in enumerate(roles):
        for path, why in (("none", "it is not found"), ("/dev/zero", "it is not a regular file")):
            files = [*EDITIONS[:at], path, *EDITIONS[at + 1 :]]
            sqlite_fails(work, f"uca_load_upgrade: the {role} '{path}': {why}", f"SELECT uca_load_upgrade({quoted_list(files)});", load="")
    for more, error in (
        (["'SHIFTED'"], "the weighting is 'SHIFTED', not 'shifted' or 'non-ignorable'"),
        (["''", "'deep'"], f"the depth is 'deep', {NO_DEPTH}"),
        (["''", "''", "''"], f"the ninth argument {NO_FINGERPRINT}, and not 'unchecked'"),
        (["''", "''", "NULL"], f"the ninth argument {NO_FINGERPRINT}, and not 'unchecked'"),
        (["''", "''", f"'{NEXT}'"], f"the old files and settings have the fingerprint {USED}, and {NEXT} is wanted"),
        (["'non-ignorable'", "''", f"'{USED}'"], f"and {USED} is wanted"),
        (["''", "''", "'unchecked'", "''"], "it takes 6 to 9 arguments"),
        (["'shifted' || char(0)"], "argument 7 has a zero byte"),
    ):
        sqlite_fails(work, f"uca_load_upgrade: {error}" if not error.startswith("and ") else error, f"SELECT uca_load_upgrade({quoted_list(EDITIONS, more)});", load="")
    for used, error in (("CREATE TABLE t(x CHECK (uca_load_upgrade({}) > '')); INSERT INTO t VALUES (1);", "unsafe use of uca_load_upgrade()"),
                        ("CREATE TABLE t(x); CREATE INDEX i ON t(uca_load_upgrade({}));", "unsafe use of uca_load_upgrade()"),
                        ("CREATE VIEW v AS SELECT uca_load_upgrade({}); SELECT * FROM v;", "unsafe use of uca_load_upgrade()")):
        sqlite_fails(work, error, used.format(quoted_list(EDITIONS)), load="")
    same(sqlite_says(work, extension, f"SELECT uca_load_upgrade({quoted_list(EDITIONS)});", extension, load=""), f"{NEXT}\n", "the extension twice")


def sqlite_upgrades(work):
    """Which texts are affected, the new keys of the others, and what is an error."""
    load, named = sqlite_upgrade(), f"'{USED}', '{NEXT}'"
    statements = [f"SELECT hex(uca_key({quoted(it)}, '{USED}')), uca_affected({quoted(it)}, {named}), hex(uca_rekey(x'{old}', {named})), hex(uca_key({quoted(it)}, '{NEXT}'));" for it, old, _ in MENDED]
    same(sqlite_says(work, "".join(statements), load=load), "".join(f"{old}|0|{new}|{new}\n" for _, old, new in MENDED), "texts that are not affected")
    same(sqlite_says(work, "".join(f"SELECT uca_affected({quoted(it)}, {named});" for it in AFFECTED), load=load), "1\n" * len(AFFECTED), "affected texts")
    rejected = f"SELECT uca_affected(CAST(x'FF' AS TEXT), {named}), uca_affected('a' || replace(hex(zeroblob(33)), '0', char(0x301)), {named}), uca_affected(5, {named});"
    same(sqlite_says(work, rejected, load=load), "1|1|0\n", "texts that are rejected, and a number")
    same(sqlite_says(work, f"SELECT uca_affected(NULL, {named}) IS NULL, uca_rekey(NULL, {named}) IS NULL;", load=load), "1|1\n", "NULL")
    for name, given, other, what in (("uca_affected", "'a'", "x'61'", "a blob, not a text"), ("uca_affected", "'a'", "0.5", "a real number, not a text"),
                                     ("uca_rekey", "x'00'", "'a'", "no blob, so it is no key"), ("uca_rekey", "x'00'", "1", "no blob, so it is no key")):
        sqlite_fails(work, f"{name}: the first argument is {what}", f"SELECT {name}({other}, {named});", load=load)
        for wrong in ("''", "NULL", f"'{USED[:32]}'", f"CAST('{USED}' AS BLOB)"):
            sqlite_fails(work, f"{name}: the second argument {NO_FINGERPRINT}", f"SELECT {name}({given}, {wrong}, '{NEXT}');", load=load)
            sqlite_fails(work, f"{name}: the third argument {NO_FINGERPRINT}", f"SELECT {name}({given}, '{USED}', {wrong});", load=load)
        for old, new in ((NEXT, USED), (USED, USED), (NEXT, NEXT), (OTHER, NEXT), (USED, OTHER)):
            error = f"{name}: no upgrade from the fingerprint {old} to {new} is loaded; loaded: {USED} to {NEXT}"
            for it in (given, "NULL"):
                sqlite_fails(work, error, f"SELECT {name}({it}, '{old}', '{new}');", load=load)
        sqlite_fails(work, "is loaded; loaded: none", f"SELECT {name}({given}, {named});")
    for key in (f"uca_key('ch', '{USED}')", "x''", "x'1C'", "x'1C470000'", f"uca_key('b', '{COMPACT}')"):
        sqlite_fails(work, "uca_rekey: NoImage", f"SELECT uca_rekey({key}, {named});", load=load)
    for used in (f"CREATE INDEX i ON t(uca_rekey(x, {named}));", f"CREATE INDEX i ON t(uca_affected(x, {named}));"):
        sqlite_fails(work, "non-deterministic functions prohibited in index expressions", "CREATE TABLE t(x);", used, load=load)
    with open(f"{work}/more.changes", "wb") as it:
        it.write(content(CHANGES).replace(b"text 0063 0068\n", b"text 0061\ntext 0063 0068\n"))
    more = [*EDITIONS[:4], it.name, CERTIFICATE]
    for first, second, wanted in ((EDITIONS, more, "0"), (more, EDITIONS, "1")):
        twice = f"SELECT uca_load_upgrade({quoted_list(second)}); SELECT uca_affected('a', {named});"
        same(sqlite_says(work, twice, load=sqlite_upgrade(first)), f"{NEXT}\n{wanted}\n", "an upgrade of the same fingerprints, which stays")


def sqlite_compact_upgrades(work):
    """Compact keys by the books of both editions, or of one."""
    load, texts = sqlite_upgrade(), [it for it, _, _ in MENDED]
    for old, new in ((COMPACT, NEXT_COMPACT), (COMPACT, NEXT), (USED, NEXT_COMPACT), (USED, NEXT)):
        named = f"'{old}', '{new}'"
        found = [f"SELECT uca_affected({quoted(it)}, {named}), uca_rekey(uca_key({quoted(it)}, '{old}'), {named}) = uca_key({quoted(it)}, '{new}');" for it in texts]
        same(sqlite_says(work, "".join(found), load=load), "0|1\n" * len(texts), f"keys from {old} to {new}")
        sqlite_fails(work, "uca_rekey: NoImage", f"SELECT uca_rekey(uca_key('ch', '{old}'), {named});", load=load)
    sqlite_fails(work, "uca_rekey: NoCompactKey", f"SELECT uca_rekey(x'', '{COMPACT}', '{NEXT_COMPACT}');", load=load)
    for old, new in ((NEXT_COMPACT, COMPACT), (COMPACT, COMPACT)):
        sqlite_fails(work, f"no upgrade from the fingerprint {old} to {new} is loaded", f"SELECT uca_rekey(x'03', '{old}', '{new}');", load=load)
    without = sqlite_load() + f"SELECT 0 WHERE uca_load_upgrade({quoted_list(EDITIONS)}) IS NULL;"
    sqlite_fails(work, f"no upgrade from the fingerprint {COMPACT} to {NEXT} is loaded", f"SELECT uca_rekey(x'03', '{COMPACT}', '{NEXT}');", load=without)


KEPT_WORDS = "('d'), ('ch'), ('cb'), ('Á'), ('A'), ('a'), ('bach'), ('bz'), ('bh'), ('b'), (NULL)"
# A table of keys, and the statements that take it to the next edition.
KEYED = f"""
CREATE TABLE words(word TEXT, key BLOB); CREATE INDEX by_key ON words(key);
CREATE TABLE made_by(number INTEGER PRIMARY KEY CHECK (number = 1), fingerprint TEXT NOT NULL); INSERT INTO made_by VALUES (1, '{{0}}');
INSERT INTO words(word) VALUES {KEPT_WORDS}; UPDATE words SET key = uca_key(word, '{{0}}');
CREATE TRIGGER moves_keys AFTER UPDATE ON made_by BEGIN
    UPDATE words SET key = CASE uca_affected(word, OLD.fingerprint, NEW.fingerprint)
        WHEN 1 THEN uca_key(word, NEW.fingerprint)
        WHEN 0 THEN uca_rekey(key, OLD.fingerprint, NEW.fingerprint) END;
END;
"""
MOVE = "UPDATE made_by SET fingerprint = '{0}';"
STATE = "SELECT count(*), total(key IS NOT uca_key(word, '{0}')), (SELECT group_concat(fingerprint) FROM made_by) FROM words;"
BY_KEY = "SELECT group_concat(word, ' ') FROM (SELECT word FROM words ORDER BY key);"


def sqlite_moves(work):
    """A table of keys is taken to the next edition by one statement, or stays as it is."""
    load, rejected = sqlite_upgrade(), "INSERT INTO words VALUES (CAST(x'61FF' AS TEXT), NULL);"
    for old, new in ((USED, NEXT), (COMPACT, NEXT_COMPACT)):
        database = f"{work}/moves-{old}.db"
        sqlite_says(work, KEYED.format(old), load=load, database=database)
        same(sqlite_says(work, STATE.format(old), load=load, database=database), f"11|0.0|{old}\n", "before")
        sqlite_fails(work, "uca_key: Utf8 at 1", "BEGIN;", rejected, MOVE.format(new), load=load, database=database)
        same(sqlite_says(work, STATE.format(old), load=load, database=database), f"11|0.0|{old}\n", "after an error")
        # a key without a text, which cannot be told to be affected
        sqlite_says(work, f"UPDATE words SET key = uca_key('ch', '{old}') WHERE word IS NULL;", load=load, database=database)
        sqlite_fails(work, "is loaded; loaded: none", MOVE.format(new), load=load.split("SELECT 0 WHERE uca_load_upgrade")[0], database=database)
        sqlite_says(work, MOVE.format(new), load=load, database=database)
        same(sqlite_says(work, STATE.format(new), BY_KEY, "PRAGMA integrity_check;", load=load, database=database), f"11|0.0|{new}\na A Á b bach bh bz cb ch d\nok\n", "after")
        sqlite_fails(work, f"no upgrade from the fingerprint {new} to {new} is loaded", MOVE.format(new), load=load, database=database)
        same(sqlite_says(work, STATE.format(new), load=load, database=database), f"11|0.0|{new}\n", "a second time")


# Tables with indexes that hold texts in the order of the collation.
TEXT_TABLES = [
    "CREATE TABLE names(name TEXT COLLATE uca_{0}, note TEXT); CREATE INDEX by_name ON names(name, note);",
    "CREATE TABLE names(name TEXT, note TEXT); CREATE INDEX by_name ON names(name COLLATE uca_{0} DESC); CREATE INDEX by_note ON names(note, name COLLATE uca_{0});",
    "CREATE TABLE names(name TEXT COLLATE uca_{0} UNIQUE, note TEXT);",
]
# They take the affected rows out, change the name of the collation, put the rows back, and test the index.
TEXTS_MOVE = """
BEGIN IMMEDIATE;
CREATE TABLE moved AS SELECT rowid AS number, * FROM names WHERE CASE typeof(name) WHEN 'text' THEN uca_affected(name, '{0}', '{1}') END;
DELETE FROM names WHERE rowid IN (SELECT number FROM moved);
PRAGMA writable_schema = on;
UPDATE sqlite_schema SET sql = replace(sql, 'COLLATE uca_{0}', 'COLLATE uca_{1}') WHERE tbl_name = 'names';
PRAGMA writable_schema = reset;
INSERT INTO names(rowid, name, note) SELECT number, name, note FROM moved;
DROP TABLE moved;
CREATE TABLE tested(result TEXT CHECK (result = 'ok'));
INSERT INTO tested SELECT integrity_check FROM pragma_integrity_check('names');
DROP TABLE tested;
"""
# 300 names, of which 'ch' and others are affected; and what is no text or is rejected
MANY_NAMES = ("WITH RECURSIVE n(i) AS (SELECT 0 UNION ALL SELECT i + 1 FROM n WHERE i < 299) INSERT INTO names SELECT char(97 + i * 7 % 5, 97 + i * 11 % 8, 97 + i / 40) || i, i % 7 FROM n;"
         "INSERT INTO names VALUES (NULL, 1), (NULL, 2), (5, 3), (x'6368', 4), (CAST(x'6368FF' AS TEXT), 5), (CAST(x'61FF' AS TEXT), 6), ('ch', 7), ('c', 8), ('e', 9), ('', 10);")
ROWS_AND_SCHEMA = "SELECT rowid, hex(name), note FROM names ORDER BY rowid; SELECT sql FROM sqlite_schema;"
BY_NAME = "SELECT group_concat(coalesce(hex(name), 'none'), ' ') FROM (SELECT name FROM names ORDER BY {1}name COLLATE uca_{0}, rowid);"


def sqlite_texts(work):
    """Only affected rows leave an index that holds texts, under the old order, and come back under the new one."""
    load = sqlite_upgrade()
    for number, made in enumerate(TEXT_TABLES):
        database = f"{work}/texts{number}.db"
        sqlite_says(work, made.format(USED), MANY_NAMES, load=load, database=database)
        wanted = sqlite_says(work, BY_NAME.format(NEXT, "+"), load=load, database=database)
        before = sqlite_says(work, ROWS_AND_SCHEMA, load=load, database=database)
        sqlite_says(work, TEXTS_MOVE.format(USED, NEXT), "ROLLBACK;", load=load, database=database)
        same(sqlite_says(work, ROWS_AND_SCHEMA, load=load, database=database), before, f"{made}: taken back")
        sqlite_fails(work, NO_FINGERPRINT, TEXTS_MOVE.format(USED, NEXT), "SELECT uca_key('a', '');", load=load, database=database)
        same(sqlite_says(work, ROWS_AND_SCHEMA, load=load, database=database), before, f"{made}: after an error")
        other = subprocess.Popen(["sqlite3", database], stdin=subprocess.PIPE, stdout=subprocess.PIPE, stderr=subprocess.STDOUT, text=True, cwd=TOP, bufsize=1)
        other.stdin.write(f".load {TOP}/bindings/sqlite/out/uca\n{sqlite_load()}\nSELECT count(*) FROM names;\n")
        same(other.stdout.readline(), "310\n", f"{made}: a connection with the old files alone")
        sqlite_says(work, TEXTS_MOVE.format(USED, NEXT), "COMMIT;", load=load, database=database)
        said, _ = other.communicate("INSERT INTO names VALUES ('ch', 1);\n")
        if f"no such collation sequence: uca_{NEXT}" not in said:
            raise AssertionError(f"{made}: a row by a connection that has the old files: {said}")
        found = sqlite_says(work, "PRAGMA integrity_check;", BY_NAME.format(NEXT, ""), BY_NAME.format(NEXT, "+"), "SELECT count(*) FROM names;", load=load, database=database)
        same(found, f"ok\n{wanted}{wanted}310\n", made)
        if USED in sqlite_says(work, "SELECT group_concat(sql) FROM sqlite_schema;", load=load, database=database):
            raise AssertionError(f"{made}: the old fingerprint is in the schema")
    database, wrong = f"{work}/wrong.db", TEXTS_MOVE.replace("uca_affected(name, '{0}', '{1}')", "name = 'bach'")
    sqlite_says(work, TEXT_TABLES[0].format(USED), MANY_NAMES, load=load, database=database)
    sqlite_fails(work, "may not be modified", ".dbconfig defensive on", TEXTS_MOVE.format(USED, NEXT), load=load, database=database)
    before = sqlite_says(work, ROWS_AND_SCHEMA, load=load, database=database)
    sqlite_fails(work, "CHECK constraint failed: result = 'ok'", wrong.format(USED, NEXT), "COMMIT;", load=load, database=database)
    same(sqlite_says(work, ROWS_AND_SCHEMA, "PRAGMA integrity_check;", load=load, database=database), f"{before}ok\n", "an index in which affected rows would stay")
    sqlite_two_columns(work, load)


def sqlite_two_columns(work, load):
    """Two columns have the collation. Where the rows of one of them stay, the integrity check is an error."""
    made = TEXT_TABLES[0].format(USED).replace("note TEXT", f"note TEXT COLLATE uca_{USED}") + f"CREATE INDEX by_note ON names(note);"
    rows = MANY_NAMES + "UPDATE names SET name = 'a', note = name;"
    of_both = TEXTS_MOVE.replace("'{1}') END;", "'{1}') END OR CASE typeof(note) WHEN 'text' THEN uca_affected(note, '{0}', '{1}') END;")
    database = f"{work}/two.db"
    sqlite_says(work, made, rows, load=load, database=database)
    sqlite_fails(work, "CHECK constraint failed: result = 'ok'", TEXTS_MOVE.format(USED, NEXT), "COMMIT;", load=load, database=database)
    by_note = BY_NAME.replace("names", "{2}").replace("name", "note").replace("{2}", "names")
    wanted = sqlite_says(work, by_note.format(NEXT, "+"), load=load, database=database)
    found = sqlite_says(work, of_both.format(USED, NEXT), "COMMIT;", "PRAGMA integrity_check;", by_note.format(NEXT, ""), load=load, database=database)
    same(found, f"ok\n{wanted}", "two columns of the collation")


SQLITE_PAGE = re.compile(r"^### In SQLite\n(.*?)^### ", re.S | re.M)
SQLITE_UPGRADE_PAGE = re.compile(r"^### A new edition in SQLite\n(.*?)^### ", re.S | re.M)
# What the extension was before: a function of one argument and a collation, which name no files.
MADE_BEFORE = """
CREATE TABLE words(word TEXT);
CREATE INDEX by_key ON words(uca_key(word));
CREATE TABLE names(name TEXT COLLATE uca, key BLOB AS (uca_key(name)) STORED);
CREATE TABLE uca_files AS SELECT 'd92b' AS fingerprint;
INSERT INTO words VALUES ('bz'), ('bh'), ('b');
INSERT INTO names(name) VALUES ('bz'), ('bh'), ('b');
"""


def database_made_before(path):
    with contextlib.closing(sqlite3.connect(path)) as made:
        made.create_function("uca_key", 1, lambda text: text.encode(), deterministic=True)
        made.create_collation("uca", lambda left, right: (left > right) - (left < right))
        made.executescript(MADE_BEFORE)


def page_statements(work, database, block, load=sqlite_load(TAILORED)):
    """Statements of docs/BINDINGS.md print what their comments show."""
    ran = subprocess.run(["sqlite3", "-bail", f"{work}/{database}"], input=block, capture_output=True, text=True, cwd=TOP)
    same(ran.stderr, "", f"errors of {block}")
    same(ran.stdout.splitlines(), re.findall(r"^-- (.*)", block, re.M), f"the page's statements {block}")
    same(sqlite_says(work, load, "PRAGMA integrity_check;", database=f"{work}/{database}"), "ok\n", database)


def page_error(work, database, block, *tables):
    """Where the files are not found, the page's statements end, also without -bail. Three rows are in each of these tables then."""
    ran = subprocess.run(["sqlite3", f"{work}/{database}"], input=block.replace("tailored.txt", "none.txt"), capture_output=True, text=True, cwd=TOP)
    if "uca_load: the table 'examples/none.txt': it is not found" not in ran.stderr:
        raise AssertionError(f"the page's statements without their files: {ran.stderr}")
    same(sqlite_says(work, *(f"SELECT count(*) FROM {it};" for it in tables), database=f"{work}/{database}"), "3\n" * len(tables), f"the rows of {tables}")


def sqlite_page(work):
    """The statements of docs/BINDINGS.md: the first ones, those with a book, those after a change of files, and those for a database that was made
    before."""
    text = SQLITE_PAGE.search(content(f"{TOP}/docs/BINDINGS.md").decode()).group(1)
    first, with_book, changed, before = re.findall(r"```sql\n(.*?)```", text, re.S)
    sqlite_says(work, "SELECT 1;")
    page_statements(work, "page.db", first)
    page_statements(work, "book.db", with_book, load=sqlite_load(book=BOOK))
    page_error(work, "page.db", changed, "words")
    page_statements(work, "page.db", changed)
    for it in ("before.db", "before-error.db"):
        database_made_before(f"{work}/{it}")
    sqlite_fails(work, "wrong number of arguments to function uca_key()", "SELECT word FROM words;", database=f"{work}/before.db")
    page_error(work, "before-error.db", before, "words", "old_names")
    page_statements(work, "before.db", before)
    sqlite_upgrade_page(work)
    constraint = re.search(r"`(CHECK \(.*?\))`", text).group(1).replace("e7f5..", USED)
    made = f"CREATE TABLE plain(word TEXT, key BLOB {constraint}); INSERT INTO plain VALUES ('a', uca_key('a', '{USED}')), (NULL, NULL);"
    sqlite_says(work, made)
    for key in ("NULL", "''", "x'1C47'"):
        sqlite_fails(work, "CHECK constraint failed", made, f"INSERT INTO plain VALUES ('a', {key});")


OTHER_KEY = "the key is not by the files of made_by"


def sqlite_upgrade_page(work):
    """The statements of docs/BINDINGS.md for a new edition. Pasted without .bail they leave the old edition, if a row is rejected. Their triggers reject
    keys of another edition."""
    made, move, of_texts = re.findall(r"```sql\n(.*?)```", SQLITE_UPGRADE_PAGE.search(content(f"{TOP}/docs/BINDINGS.md").decode()).group(1), re.S)
    load, state = sqlite_upgrade(), "SELECT fingerprint, (SELECT count(*) FROM words WHERE key IS uca_key(word, fingerprint)) FROM made_by;"
    old_only, new_only = sqlite_load(), sqlite_load(NEW_TABLE, NEW_DATA)
    page_statements(work, "upgrade.db", made, load="")
    bad = f"{work}/bad.db"
    with open(bad, "wb") as it:
        it.write(content(f"{work}/upgrade.db"))
    # a row from the time before the triggers
    trigger = re.search(r"CREATE TRIGGER tests_new_rows.*?END;", made, re.S).group()
    sqlite_says(work, "DROP TRIGGER tests_new_rows; INSERT INTO words VALUES (CAST(x'61FF' AS TEXT), x'00');", trigger, database=bad)
    ran = subprocess.run(["sqlite3", bad], input=move.replace(".bail on\n", ""), capture_output=True, text=True, errors="replace", cwd=TOP)
    if "uca_key: Utf8 at 1" not in ran.stderr or "bach" not in ran.stdout:
        raise AssertionError(f"pasted statements with a rejected row: {ran.stdout}{ran.stderr}")
    counted = state.replace("FROM words WHERE", "FROM words WHERE hex(word) <> '61FF' AND")
    same(sqlite_says(work, counted, load=load, database=bad), f"{USED}|5\n", "the fingerprint and the keys after a rejected row")
    database = f"{work}/upgrade.db"
    for key in (f"uca_key('e', '{NEXT}')", "NULL", "x'1C47'"):
        sqlite_fails(work, OTHER_KEY, f"INSERT INTO words VALUES ('e', {key});", load=load, database=database)
        sqlite_fails(work, OTHER_KEY, f"UPDATE words SET key = {key} WHERE word = 'd';", load=load, database=database)
    for it in ("INSERT OR REPLACE INTO made_by VALUES (1, '{}');", "DELETE FROM made_by; INSERT INTO made_by VALUES (1, '{}');"):
        sqlite_fails(work, "there are keys already: use UPDATE", "BEGIN;", it.format(NEXT), load=load, database=database)
    restored = f"{work}/restored.db"
    dumped = sqlite_says(work, ".dump", load="", database=database)
    ran = subprocess.run(["sqlite3", "-bail", restored], input=dumped, capture_output=True, text=True, cwd=TOP)
    same(ran.stderr + sqlite_says(work, state, load=load, database=restored), f"{USED}|5\n", "the page's tables after a dump")
    page_statements(work, "upgrade.db", move, load=new_only)
    same(sqlite_says(work, state, load=load, database=database), f"{NEXT}|5\n", "the page's keys")
    for statement in ("INSERT INTO words VALUES ('e', uca_key('e', '{0}'));", "UPDATE words SET key = uca_key(word, '{0}') WHERE word = 'd';", "UPDATE words SET word = 'e' WHERE word = 'd';"):
        sqlite_fails(work, OTHER_KEY, statement.format(USED), load=load, database=database)
        sqlite_fails(work, NEXT, statement.format(USED), load=old_only, database=database)
    bounds = "SELECT group_concat(word, ' ') FROM words, made_by WHERE key >= uca_range_low('bach', fingerprint, 1) AND key < uca_range_high('bach', fingerprint, 1);"
    same(sqlite_says(work, "INSERT INTO words VALUES ('e', uca_key('e', '{0}')), (NULL, NULL);".format(NEXT), state, bounds, load=load, database=database), f"{NEXT}|7\nbach\n", "rows of the new edition")
    page_statements(work, "texts.db", of_texts, load=new_only)
    # the new key of `c` has the bytes of the old key of `ch`
    unique, index = f"{work}/unique.db", "CREATE UNIQUE INDEX by_key ON words(key);"
    page_statements(work, "unique.db", made, load="")
    rows = f"DELETE FROM words; INSERT INTO words SELECT column1, uca_key(column1, '{USED}') FROM (VALUES ('c'), ('ch'));"
    update = re.search(r"UPDATE made_by .*", move).group()
    sqlite_fails(work, "UNIQUE constraint failed", rows, index, update, load=load, database=unique)
    same(sqlite_says(work, state, "BEGIN; DROP INDEX by_key;", update, index, "COMMIT;", state, load=load, database=unique), f"{USED}|2\n{NEXT}|2\n", "a unique index that is made again")


def sqlite_like(program):
    """Lines ordered by the collation, by the key, by the compact key and by an index are in the order of `uca sort`."""

    def check(work):
        if not os.path.exists(program):
            raise NotHere(f"there is no {program}")
        for lines in LINES:
            text = content(f"{EXAMPLES}/{lines}")
            wanted = run([program, "sort", "--weighting", "shifted", f"{EXAMPLES}/table.txt", f"{EXAMPLES}/data.txt"], input=text).decode()
            values = ", ".join("('" + it.replace("'", "''") + "')" for it in text.decode().removesuffix("\n").split("\n"))
            made = f"CREATE TABLE lines(line TEXT); INSERT INTO lines VALUES {values};"
            load = sqlite_load() + sqlite_load(book=BOOK)
            for fingerprint in (USED, COMPACT):
                for after in (f"ORDER BY line COLLATE uca_{fingerprint}, rowid", f"ORDER BY uca_key(line, '{fingerprint}'), rowid"):
                    same(sqlite_says(work, made, f"SELECT line FROM lines {after};", load=load), wanted, f"order of {lines}, {after}")
            index = f"CREATE INDEX by_order ON lines(line COLLATE uca_{USED});"
            same(sqlite_says(work, made, index, f"SELECT line FROM lines ORDER BY line COLLATE uca_{USED};"), wanted, f"order of {lines} by an index")

    return check


def sqlite_words(work, table, data, book, keys, order, lookups):
    load, fingerprint = sqlite_load(table, data, book=book), fingerprint_of(table, data, book=book)
    key, database = f"uca_key(word, '{fingerprint}')", f"{tempfile.mkdtemp(dir=work)}/words.db"
    made = ["CREATE TABLE words(word TEXT);", ".mode tabs", f".import {work}/words.txt words", ".mode list", f"CREATE INDEX by_key ON words({key});"]
    sqlite_says(work, *made, load=load, database=database)
    for after in (f"{key}, rowid", f"word COLLATE uca_{fingerprint}, rowid"):
        same(sqlite_says(work, f"SELECT word FROM words ORDER BY {after};", load=load, database=database), order, f"order by {after} over {table}")
    same(sqlite_says(work, f"SELECT hex({key}) FROM words ORDER BY rowid;", load=load, database=database), keys, f"keys over {table}")
    queries = []
    for text, _ in lookups:
        for ends in ("uca_prefix_{}({}, '{}')", "uca_range_{}({}, '{}', 1)", "uca_range_{}({}, '{}', 2)"):
            low, high = (ends.format(it, quoted(text), fingerprint) for it in ("low", "high"))
            queries.append(f"SELECT coalesce(group_concat(n, ' '), '') FROM (SELECT rowid AS n FROM words WHERE {key} >= {low} AND {key} < {high} ORDER BY rowid);")
    same(sqlite_says(work, "".join(queries), load=load, database=database), found_lines(lookups), f"lookups over {table} by {book}")
    unique = f"CREATE TABLE one(word TEXT); CREATE UNIQUE INDEX by_letters ON one(uca_key(word, '{fingerprint}', 1)); INSERT INTO one VALUES ('Café');"
    sqlite_fails(work, "UNIQUE constraint failed: index 'by_letters'", unique, "INSERT INTO one VALUES ('CAFÉ');", load=load)
    size = sqlite_says(work, "SELECT sum(pgsize) FROM dbstat WHERE name = 'by_key';", load=load, database=database).strip()
    print(f"SQLite, {os.path.basename(table)}: an index on {'compact' if book else 'whole'} keys of 100,000 words has {size} bytes")
