#!/usr/bin/env python3
"""Tries the type uca_text and the operator class uca_ops of PostgreSQL's extension. It installs nothing.

    tests/by_hand/postgresql_texts.py [--uca PATH] [NAME ..]        crates/uca/out/uca, unless another program is named; all checks, unless some are named

First prove and build the program and the static library: `tools/build.py uca uca_c uca_command_in_memory`. Then this script makes bindings/c/out and the extension. It installs that to a
copy of the server's programs in a temporary folder. Each server has a folder of its own, listens on a Unix socket there, and is stopped afterwards. The checks are

- statements: order, NULL, the empty text, rejected texts, UNIQUE, joins, casts, aggregates, prefix search, and which plans PostgreSQL takes for them;
- other files than those of an index: after a start with other settings, in parallel workers, after dumps and restores, on a standby, in two databases of one server.
  Each statement has to be an error, or to print what it printed before;
- `uca_use_files(again => true)` afterwards, and amcheck of all indexes;
- orders that have to be those of `uca sort`: of the lines of examples/, and of 100,000 words over Unicode's table and that table tailored for Danish. They are
  sorted in memory, on disk and by parallel workers, and read from indexes that were built at once and row by row. 20,000 random texts are in the order of keys;
- the bytes of an index, and the time of a sort and of an index, beside those of a column with COLLATE "und-x-icu". The times are processor time, the least of some
  rounds in turn. Sorting may take as long as ICU's, and an index 1.2 times as long.

It needs Debian's packages of NEEDS, and some checks those of WANTS. The last line is `N passed, M failed`, and how many were not run if there are any.
"""
import argparse
import os
import random
import re
import subprocess
import shutil
import sys
import tempfile

import bindings_postgresql
import bindings_shared
import packages
from bindings_postgresql import OTHER_FILES, RUN_OF_65
from bindings_shared import BOOK, DATA, EXAMPLES, LINES, TABLE, TOP, NotHere, content, quoted, run, same

NEEDS = ["gcc", "make", "postgresql", "postgresql-server-dev-15"]
WANTS = ["unicode-data", *packages.LISTS]
TAILORED = f"{EXAMPLES}/tailored.txt"
PARALLEL = ("SET max_parallel_workers_per_gather = 4; SET parallel_setup_cost = 0; SET parallel_tuple_cost = 0; SET min_parallel_table_scan_size = 0;"
            "SET min_parallel_index_scan_size = 0; SET parallel_leader_participation = off;")
BY_INDEX = "SET enable_seqscan = off; SET enable_sort = off; SET enable_bitmapscan = off;"
# Each index of the database, by amcheck: the order, the links from parents, and that each row is there.
CHECKED = ("SELECT c.relname FROM pg_index i JOIN pg_class c ON c.oid = i.indexrelid JOIN pg_am m ON m.oid = c.relam,"
           " LATERAL bt_index_parent_check(c.oid, true, true) WHERE m.amname = 'btree' AND c.relkind = 'i' AND c.relnamespace = 'public'::regnamespace ORDER BY 1;")


def plan(says, statement, before=""):
    """The plan of a statement, as lines without blanks before them."""
    return [it.strip() for it in says(f"{before} EXPLAIN (costs off) {statement}").split("\n")[:-1]]


def has(lines, part, what):
    if not any(part in it for it in lines):
        raise AssertionError(f"{what}: no {part!r} in {lines}")


def fails_with(says, statement, error, what=None, **named):
    found = says(statement, fails=True, **named)
    if error not in found:
        raise AssertionError(f"{what or statement}: {found!r} in place of {error!r}")


# ---- one server


SOME = """
CREATE TABLE words(id serial, name uca_text);
INSERT INTO words(name) VALUES ('ch'), ('c-h'), (NULL), ('a'), ('á'), (''), ('A'), ('b'), ('cb');
"""
SORTED = "|a|A|á|b|cb|c-h|ch|NULL"


def statements(work):
    """Orders, NULL, the empty text, rejected texts, and the aggregates."""
    listed = "SELECT string_agg(coalesce(name::text, 'NULL'), '|' ORDER BY {}) FROM words;"
    for book in (None, BOOK):
        with bindings_postgresql.postgresql_server(work, book=book) as (_, says, _):
            says(SOME)
            same(says(listed.format("name")), f"{SORTED}\n", "the order")
            same(says(listed.format("name DESC")), "|".join(reversed(SORTED.split("|"))) + "\n", "the order from the end")
            same(says(listed.format("name NULLS FIRST")), f"NULL|{SORTED.removesuffix('|NULL')}\n", "NULL first")
            says("CREATE INDEX by_name ON words(name); ANALYZE words;")
            by_index = f"{BY_INDEX} SELECT string_agg(coalesce(name::text, 'NULL'), '|') FROM (SELECT name FROM words ORDER BY name{{}}) it;"
            same(says(by_index.format("")), f"{SORTED}\n", "the order of an index")
            same(says(by_index.format(" DESC")), "|".join(reversed(SORTED.split("|"))) + "\n", "the order of an index from the end")
            same(says("SELECT min(name), max(name), count(DISTINCT name) FROM words;"), "|ch|8\n", "aggregates")
            same(says("SELECT max(name) FROM words WHERE name < 'cb' GROUP BY length(name::text) ORDER BY 1;"), "\nb\n", "max of groups")
            has(plan(says, "SELECT max(name) FROM words", BY_INDEX), "Index Only Scan Backward using by_name", "max by the index")
            same(says(f"INSERT INTO words(name) VALUES ({RUN_OF_65}), ({RUN_OF_65} || 'a'), ('z'); SELECT count(*) FROM words WHERE name > 'z';"), "2\n", "rejected texts")
            for it in ("", BY_INDEX):
                same(says(f"{it} SELECT left(name::text, 1), length(name::text) FROM words WHERE name IS NOT NULL ORDER BY name DESC LIMIT 3;"), "a|67\na|66\nz|1\n", "rejected texts come last")
            same(says("SELECT count(*) FROM words WHERE name BETWEEN 'a' AND 'b'; SELECT count(*) FROM words WHERE name IN ('A', 'b', 'x');"), "4\n2\n", "BETWEEN and IN")
            same(says("SELECT name FROM words WHERE name IS NOT NULL ORDER BY name OFFSET 1 FETCH FIRST 1 ROW WITH TIES;"), "a\n", "no ties of different bytes")


def bad_texts(work):
    """Texts that are no UTF-8 do not come in, as text, in binary or by a cast."""
    with bindings_postgresql.postgresql_server(work) as (server, says, _):
        says("CREATE TABLE words(name uca_text);")
        for it in ("E'\\xff'", "E'\\xff'::uca_text", "E'a\\x00b'::uca_text", "convert_from('\\xff', 'UTF8')"):
            fails_with(says, f"INSERT INTO words VALUES ({it});", "ERROR:  invalid byte sequence for encoding")
        for number, bytes_ in enumerate((b"\xff", b"a\0b", b"\xed\xa0\x80", "á".encode())):
            file = f"{os.path.dirname(server.folder)}/binary{number}"
            with open(file, "wb") as it:
                it.write(b"PGCOPY\n\xff\r\n\0" + bytes(8) + b"\0\1" + len(bytes_).to_bytes(4, "big") + bytes_ + b"\xff\xff")
            os.chmod(file, 0o644)
            if bytes_ == "á".encode():
                same(says(f"COPY words FROM '{file}' (FORMAT binary); SELECT name FROM words;"), "á\n", "a text in binary")
            else:
                fails_with(says, f"COPY words FROM '{file}' (FORMAT binary);", "ERROR:  invalid byte sequence for encoding")


def unique(work):
    """Unique indexes: of bytes, of keys, and without case or accents."""
    with bindings_postgresql.postgresql_server(work) as (_, says, _):
        says("CREATE TABLE names(name uca_text PRIMARY KEY); INSERT INTO names VALUES ('ba'), ('bA'), ('bá'), (U&'ba\\0301');")
        duplicate = "duplicate key value violates unique constraint"
        fails_with(says, "INSERT INTO names VALUES ('ba');", duplicate)
        same(says("INSERT INTO names VALUES ('ba'), ('bb') ON CONFLICT (name) DO NOTHING; SELECT count(*) FROM names;"), "5\n", "ON CONFLICT")
        says("CREATE TABLE uses(name uca_text REFERENCES names); INSERT INTO uses VALUES ('bA');")
        fails_with(says, "INSERT INTO uses VALUES ('BA');", "violates foreign key constraint")
        fails_with(says, "DELETE FROM names WHERE name = 'bA';", "violates foreign key constraint")
        same(says("UPDATE names SET name = 'c' WHERE name = 'bb'; SELECT count(*) FROM names WHERE name = 'c';"), "1\n", "UPDATE")
        for levels, taken, free in (("", "U&'da\\0301'", "'dA'"), (", 2", "'dÁ'", "'da'"), (", 1", "'dA'", "'db'")):
            says(f"CREATE TABLE one(name uca_text); CREATE UNIQUE INDEX ON one(uca_key(name{levels})); INSERT INTO one VALUES ('dá');")
            fails_with(says, f"INSERT INTO one VALUES ({taken});", duplicate, f"by uca_key(name{levels})")
            says(f"INSERT INTO one VALUES ({free}); DROP TABLE one;")


def joins(work):
    """Joins by hashes, by merging and by loops; groups, and indexes of hashes and hash partitions."""
    made = ("CREATE TABLE a(name uca_text, n integer); CREATE TABLE b(name uca_text, n integer);"
            "INSERT INTO a SELECT chr(97 + i % 3) || chr(97 + i % 5), i FROM generate_series(1, 300) i; INSERT INTO b SELECT name, n FROM a WHERE n % 2 = 0;"
            "INSERT INTO a VALUES (NULL, 1); INSERT INTO b VALUES (NULL, 1); ANALYZE a; ANALYZE b;")
    joined = "SELECT count(*), sum(a.n * b.n) FROM a JOIN b ON a.name = b.name"
    ways = {"Hash Join": "SET enable_mergejoin = off; SET enable_nestloop = off;", "Merge Join": "SET enable_hashjoin = off; SET enable_nestloop = off;",
            "Nested Loop": "SET enable_hashjoin = off; SET enable_mergejoin = off;"}
    with bindings_postgresql.postgresql_server(work) as (_, says, _):
        says(made)
        wanted = says("SELECT count(*), sum(a.n * b.n) FROM a JOIN b ON a.name::text = b.name::text;")
        for way, settings in ways.items():
            has(plan(says, joined, settings), way, way)
            same(says(f"{settings} {joined};"), wanted, way)
            same(says(f"{settings} {joined.replace('b.name', 'b.name::text')};"), wanted, f"{way} with a text")
        says("CREATE INDEX ON a(name); CREATE INDEX ON b(name); CREATE INDEX by_hash ON a USING hash (name);")
        same(says(f"{BY_INDEX} {ways['Merge Join']} {joined};"), wanted, "a merge join of indexes")
        same(says("SELECT count(*) FROM a FULL JOIN b USING (name);"), says("SELECT count(*) FROM (SELECT name::text FROM a) a FULL JOIN (SELECT name::text FROM b) b USING (name);"), "a full join")
        has(plan(says, "SELECT name, count(*) FROM a GROUP BY name", "SET enable_sort = off; SET enable_indexscan = off; SET enable_indexonlyscan = off;"), "HashAggregate", "groups by hashes")
        same(says("SELECT count(*) FROM (SELECT DISTINCT name FROM a) it; SELECT count(*) FROM (SELECT name FROM a INTERSECT SELECT name FROM b) it;"), "16\n16\n", "DISTINCT and INTERSECT")
        has(plan(says, "SELECT n FROM a WHERE name = 'ab'", "DROP INDEX a_name_idx; SET enable_seqscan = off; SET enable_bitmapscan = off;"), "Index Scan using by_hash", "an index of hashes")
        says("CREATE TABLE parts(name uca_text) PARTITION BY HASH (name);" + "".join(f"CREATE TABLE part{it} PARTITION OF parts FOR VALUES WITH (MODULUS 3, REMAINDER {it});" for it in range(3))
             + "INSERT INTO parts SELECT name FROM a;")
        same(says("SELECT count(*) FROM parts; SELECT count(*) FROM parts WHERE name = 'ab';"), "301\n20\n", "hash partitions")


def begins(work):
    """Texts that begin with some letters, by an index and by a scan; other ranges of keys; and index-only scans."""
    texts = ["bach", "Bach", "bácH", "b-a", "ba", "b", "", "c", "ch", "cb", "C-H", "ab", "bb", "Bä", "a\u0301b", "- ", "b\u0301a"]
    for book in (None, BOOK):
        with bindings_postgresql.postgresql_server(work, book=book) as (_, says, _):
            values = ", ".join(f"({quoted(it)})" for it in texts)
            says(f"CREATE TABLE words(id serial, name uca_text); INSERT INTO words(name) VALUES {values}, (NULL), ({RUN_OF_65});"
                 "CREATE INDEX by_name ON words(name); CREATE TABLE texts AS SELECT id, name::text AS name FROM words; CREATE INDEX by_text ON texts(name uca_ops); VACUUM ANALYZE;")
            listed = "SELECT coalesce(string_agg(id::text, ' ' ORDER BY id), '') FROM {} WHERE {};"
            for it in ("b", "Ba", "bÁ", "c", "ch", "C", "", "-", "x", "bac"):
                wanted = says(listed.format("texts", f"length(name) < 60 AND uca_key(name) >= uca_prefix_low('{it}') AND uca_key(name) < uca_prefix_high('{it}')"))
                for before in ("", BY_INDEX):
                    same(says(before + listed.format("words", f"name ^@ '{it}'")), wanted, f"what begins with {it!r}")
                    same(says(before + listed.format("texts", f"uca_begins(name, '{it}')")), wanted, f"texts that begin with {it!r}")
                same(says("PREPARE it(text) AS " + listed.format("words", "name ^@ $1") + f"SET plan_cache_mode = force_generic_plan; {BY_INDEX} EXECUTE it('{it}');"), wanted, "a prepared statement")
                for levels in (1, 2):
                    wanted = says(listed.format("texts", f"length(name) < 60 AND uca_key(name) >= uca_range_low('{it}', {levels}) AND uca_key(name) < uca_range_high('{it}', {levels})"))
                    for before in ("", BY_INDEX):
                        same(says(before + listed.format("words", f"name >= uca_range_low('{it}', {levels}) AND name < uca_range_high('{it}', {levels})")), wanted, f"the letters of {it!r}")
            found = plan(says, "SELECT name FROM words WHERE name ^@ 'ba' ORDER BY name", BY_INDEX)
            has(found, "Index Only Scan using by_name", "a prefix by the index")
            has(found, "Index Cond: ((name >= '", "a prefix by the index")
            found = plan(says, "SELECT name FROM texts WHERE uca_begins(name, 'ba') ORDER BY name USING <~", BY_INDEX)
            has(found, "Index Only Scan using by_text", "a prefix of a text by the index")
            has(plan(says, "SELECT w.name FROM words w JOIN texts t ON w.name ^@ t.name", BY_INDEX), "Index Cond: ((name >= uca_prefix_low(t.name)) AND (name < uca_prefix_high(t.name)))", "a join by prefixes")
            for it in ("name = 'b'", "name > 'b'::text", "name <= 'b'::varchar", "name BETWEEN 'b' AND 'c'", "name > uca_key('b')"):
                has(plan(says, f"SELECT name FROM words WHERE {it}", BY_INDEX), "Index Only Scan using by_name", it)
            has(plan(says, "SELECT name FROM words ORDER BY name", BY_INDEX), "Index Only Scan using by_name", "ORDER BY")
            has(plan(says, "EXECUTE it('b')", f"{BY_INDEX} PREPARE it(text) AS SELECT name FROM words WHERE name < $1;"), "Index Only Scan using by_name", "a parameter that is a text")
            for it, row in (("words", "name > 'b' AND NOT name > uca_prefix_high('b')"), ("texts", "name >~ 'b' AND NOT name >~ uca_prefix_high('b')")):
                same(says(listed.format(it, row)), says(listed.format("texts", "length(name) < 60 AND uca_key(name) > uca_key('b') AND uca_key(name) <= uca_prefix_high('b') OR name = 'B'")), "NOT of a comparison with a key")


def casts(work):
    """No statement takes the order of text by itself."""
    with bindings_postgresql.postgresql_server(work, more="") as (_, says, _):
        says(SOME)
        says("CREATE TABLE texts(word text); INSERT INTO texts SELECT name FROM words; INSERT INTO words(name) SELECT word FROM texts; DELETE FROM words WHERE id > 9;")
        # the order of the database is that of bytes, where A is before a
        same(says("SELECT string_agg(word, '|' ORDER BY word) FROM texts;"), "|A|a|b|c-h|cb|ch|á\n", "the order of text")
        node = "SELECT relfilenode FROM pg_class WHERE relname = 'turned';"
        found = says(f"CREATE TABLE turned AS SELECT word FROM texts; CREATE INDEX by_turned ON turned(word); {node} ALTER TABLE turned ALTER word TYPE uca_text; {node} SELECT word FROM turned ORDER BY word LIMIT 3;").split("\n")
        same((found[0] == found[1], found[2:]), (True, ["", "a", "A", ""]), "a column whose type changes, and no row is written")
        fails_with(says, "SELECT string_agg(name, '|' ORDER BY name) FROM words;", "ERROR:  function string_agg(uca_text, unknown) does not exist")
        same(says("SELECT array_agg(name ORDER BY name) FROM words WHERE name < 'b';"), '{"",a,A,á}\n', "array_agg")
        same(says("SELECT count(*) FROM words WHERE name > 'A'::text; SELECT count(*) FROM texts WHERE word > 'A'; SELECT count(*) FROM texts JOIN words ON word < name;"), "5\n6\n28\n", "comparisons with texts")
        same(says("SELECT name FROM words WHERE id < 6 UNION SELECT word FROM texts WHERE word = 'A' ORDER BY 1;"), "a\nA\ná\nc-h\nch\n\n", "UNION")
        fails_with(says, "SELECT word FROM texts UNION SELECT name FROM words ORDER BY 1;", "ERROR:  UNION could not convert type uca_text to text")
        fails_with(says, "SELECT greatest('a'::text, name) FROM words;", "ERROR:  GREATEST could not convert type uca_text to text")
        same(says("SELECT greatest(name, 'A') FROM words WHERE name = 'a';"), "A\n", "greatest")
        for it in ("name LIKE 'a%'", "name ~ 'a'", "upper(name) = 'A'", "lower(name) < 'b'", "name ILIKE 'a'", "starts_with(name, 'a')"):
            fails_with(says, f"SELECT FROM words WHERE {it};", "does not exist")
        fails_with(says, 'SELECT name FROM words ORDER BY name COLLATE "C";', "ERROR:  collations are not supported by type uca_text")
        fails_with(says, 'CREATE TABLE other(name uca_text COLLATE "C");', "ERROR:  collations are not supported by type uca_text")
        same(says("SELECT upper(name::text), name || 'x', length(name::text) FROM words WHERE name = 'á';"), "á|áx|1\n", "functions of text")
        for it in ("name < 'b'", "name = 'b'", "name IN ('b')", "name ^@ 'b'", "name > 'b'::text", "name BETWEEN 'a' AND 'b'", "min(name) IS NULL"):
            fails_with(says, f"SET search_path = pg_catalog; SELECT count(*) FROM public.words {'HAVING' if 'min' in it else 'WHERE'} {it};", "does not exist", f"{it} without the schema")
        same(says("SET search_path = pg_catalog; SELECT name FROM public.words WHERE id < 6 ORDER BY name; SELECT count(*) FROM (SELECT DISTINCT name FROM public.words) it;"), "a\ná\nc-h\nch\n\n9\n", "without the schema")
        says("CREATE DOMAIN short AS uca_text CHECK (length(VALUE::text) < 5); CREATE TABLE shorts(name short PRIMARY KEY); INSERT INTO shorts VALUES ('b'), ('A'), ('a');")
        same(says(f"SELECT name FROM shorts ORDER BY name; {BY_INDEX} SELECT name FROM shorts WHERE name > 'a';"), "a\nA\nb\nA\nb\n", "a domain")


def text_class(work):
    """The operator class uca_ops of text."""
    with bindings_postgresql.postgresql_server(work) as (_, says, _):
        says("CREATE TABLE words(word text); INSERT INTO words VALUES ('ch'), ('c-h'), ('a'), ('á'), (''), ('A'), ('b'), ('cb'), (NULL); CREATE INDEX by_word ON words(word uca_ops);")
        for before in ("", BY_INDEX):
            same(says(f"{before} SELECT coalesce(word, 'NULL') FROM words ORDER BY word USING <~;").replace("\n", "|"), f"{SORTED}|", "the order")
            same(says(f"{before} SELECT word FROM words WHERE word >=~ 'A' AND word <=~ 'b' ORDER BY word USING >~; SELECT count(*) FROM words WHERE word = 'á';"), "b\ná\nA\n1\n", "comparisons")
        has(plan(says, "SELECT word FROM words WHERE word = 'á'", BY_INDEX), "Index Only Scan using by_word", "equal texts")
        merged = plan(says, "SELECT FROM words a JOIN words b ON a.word = b.word", "SET enable_hashjoin = off; SET enable_nestloop = off; SET enable_indexscan = off; SET enable_indexonlyscan = off;")
        has(merged, "Merge Join", "a join of texts")
        same([it for it in merged if "USING" in it], [], "a join of texts that is sorted by this order")
        says("CREATE UNIQUE INDEX each_once ON words(word uca_ops);")
        fails_with(says, "INSERT INTO words VALUES ('a');", "duplicate key value violates unique constraint")
        same(says("INSERT INTO words VALUES ('a'), ('d') ON CONFLICT (word) DO NOTHING; SELECT count(*) FROM words;"), "10\n", "ON CONFLICT")
        same(says("SELECT word FROM words ORDER BY word;").replace("\n", "|"), "|A|a|b|c-h|cb|ch|d|á||", "the order of the database")
        says("CREATE COLLATION loose (provider = icu, locale = 'und-u-ks-level2', deterministic = false); CREATE TABLE loose(word text COLLATE loose); INSERT INTO loose VALUES ('a'), ('A');")
        error = "ERROR:  uca: nondeterministic collations are not supported for this order"
        fails_with(says, "CREATE INDEX ON loose(word uca_ops);", error)
        for it in ("SELECT word FROM loose ORDER BY word USING <~;", "SELECT FROM loose WHERE word <~ 'a';", "DELETE FROM loose; CREATE INDEX by_loose ON loose(word uca_ops); INSERT INTO loose VALUES ('a'), ('A');"):
            fails_with(says, it, error)


# ---- other files

# The word bh is before bz by the one table, and after it by the other.
KEPT = """
CREATE EXTENSION amcheck;
CREATE TABLE words(id serial, name uca_text, word text);
INSERT INTO words(name, word) SELECT it, it FROM unnest(ARRAY['b', 'bh', 'bz', 'c', 'bh-']) it;
CREATE INDEX by_name ON words(name); CREATE INDEX by_word ON words(word uca_ops); CREATE INDEX by_hash ON words USING hash (name);
CREATE INDEX by_expression ON words((word::uca_text) DESC); CREATE INDEX small ON words(id) WHERE name < 'c'; CREATE INDEX by_key ON words(uca_key(word), word);
CREATE TABLE lists(names uca_text[]); INSERT INTO lists SELECT ARRAY[name] FROM words; CREATE INDEX by_names ON lists(names); CREATE INDEX by_element ON lists USING gin (names);
CREATE TYPE pair AS (number integer, name uca_text); CREATE TABLE pairs(it pair); INSERT INTO pairs SELECT ROW(1, name)::pair FROM words; CREATE INDEX by_pair ON pairs(it);
CREATE TYPE span AS RANGE (subtype = uca_text); CREATE TABLE spans(it span); INSERT INTO spans SELECT span(name, NULL) FROM words; CREATE INDEX by_span ON spans(it);
CREATE TABLE more(all_of pair[]); INSERT INTO more SELECT ARRAY[it] FROM pairs; CREATE INDEX by_all ON more(all_of);
CREATE DOMAIN short AS uca_text CHECK (VALUE < 'd'); CREATE TABLE shorts(name short); INSERT INTO shorts SELECT name FROM words; CREATE INDEX by_short ON shorts(name);
CREATE TABLE parts(name uca_text) PARTITION BY RANGE (name);
CREATE TABLE part1 PARTITION OF parts FOR VALUES FROM (MINVALUE) TO ('bi'); CREATE TABLE part2 PARTITION OF parts FOR VALUES FROM ('bi') TO (MAXVALUE);
INSERT INTO parts SELECT name FROM words;
CREATE TABLE shares(name uca_text) PARTITION BY HASH (name);
CREATE TABLE share0 PARTITION OF shares FOR VALUES WITH (MODULUS 2, REMAINDER 0); CREATE TABLE share1 PARTITION OF shares FOR VALUES WITH (MODULUS 2, REMAINDER 1);
INSERT INTO shares SELECT name FROM words;
CREATE TABLE checked(name uca_text CONSTRAINT is_small CHECK (name < 'd'), is_before boolean GENERATED ALWAYS AS (name < 'bi') STORED); INSERT INTO checked SELECT name FROM words;
CREATE MATERIALIZED VIEW firsts AS SELECT name FROM words ORDER BY name LIMIT 3;
CREATE FUNCTION is_first(it uca_text) RETURNS boolean LANGUAGE plpgsql IMMUTABLE SET search_path = public AS 'BEGIN RETURN it < ''bi''; END';
CREATE INDEX by_function ON words(is_first(name));
CREATE TABLE plain(name uca_text UNIQUE); INSERT INTO plain SELECT name FROM words;
CREATE TABLE many AS SELECT (chr(97 + i % 26) || i)::uca_text AS name, i FROM generate_series(1, 20000) i;
ANALYZE;
"""
PARTITIONED = "partitioned table|public.parts|\n"
DEPENDENTS = """index|public.by_all
index|public.by_element
index|public.by_expression
index|public.by_function
index|public.by_key
index|public.by_name
index|public.by_names
index|public.by_pair
index|public.by_short
index|public.by_span
index|public.by_word
index|public.plain_name_key
index|public.small
generated column|public.checked.is_before
column of ranges|public.spans.it
check|is_small on public.checked
check|short_check on public.short
partitioned table|public.parts
materialized view|public.firsts
"""
# What reads or makes an order: an error where the files are others.
ORDERED = (
    "SELECT name FROM words ORDER BY name", "SELECT id FROM words ORDER BY name LIMIT 1", "SELECT min(name) FROM words", "SELECT max(name) FROM plain", "SELECT id FROM words WHERE name > 'b'",
    "SELECT id FROM words WHERE name ^@ 'b'", "SELECT id FROM words WHERE name < 'c'", "SELECT word FROM words ORDER BY uca_key(word)", "SELECT uca_key(word) FROM words", "SELECT id FROM words ORDER BY name DESC", "SELECT row_number() OVER (ORDER BY name) FROM words", "SELECT DISTINCT ON (name) name FROM words ORDER BY name",
    "SELECT id FROM words ORDER BY word USING <~", "SELECT id FROM words WHERE word >~ 'b'", "SELECT id FROM words WHERE uca_begins(word, 'b')", "SELECT id FROM words ORDER BY word::uca_text DESC", "SELECT id FROM words WHERE is_first(name)", "SELECT count(*) FROM words WHERE uca_key(word) > '\\x00'",
    "SELECT names FROM lists ORDER BY names", "SELECT it FROM pairs ORDER BY it", "SELECT it FROM spans ORDER BY it", "SELECT all_of FROM more ORDER BY all_of", "SELECT name FROM shorts ORDER BY name",
    "SELECT name FROM parts ORDER BY name", "SELECT name FROM parts WHERE name = 'bh'", "INSERT INTO parts VALUES ('bh')", "INSERT INTO words(name) VALUES ('bhz')", "INSERT INTO words(word) VALUES ('bhz')",
    "INSERT INTO plain VALUES ('bhz')", "INSERT INTO checked VALUES ('bh')", "UPDATE plain SET name = 'bhz' WHERE name = 'bh'", "INSERT INTO lists VALUES ('{bhz}')", "INSERT INTO pairs VALUES ((1, 'bhz'))",
    "INSERT INTO shorts VALUES ('bh')", "REINDEX INDEX by_name", "CREATE INDEX ON many(name)", "REFRESH MATERIALIZED VIEW firsts", "ANALYZE words", "CLUSTER words USING by_name",
    "SELECT bt_index_check('by_name')", "INSERT INTO plain VALUES ('bh') ON CONFLICT DO NOTHING", "SELECT a.id FROM words a JOIN words b ON a.name = b.name ORDER BY a.name",
    "SELECT percentile_disc(0.5) WITHIN GROUP (ORDER BY name) FROM words", "SELECT array_agg(name ORDER BY name) FROM words", "SELECT name FROM firsts ORDER BY name",
)
# What no order matters for: it prints what it printed.
UNORDERED = ("SELECT count(*) FROM words", "SELECT id FROM words WHERE name = 'bh'", "SELECT id FROM words WHERE word = 'bh'", "SELECT name, id FROM words ORDER BY id",
             "SELECT count(*) FROM (SELECT name FROM words GROUP BY name) it", "SELECT count(*) FROM shares WHERE name = 'bh'", "SELECT count(*) FROM lists WHERE names = '{bh}'", "SELECT count(*) FROM part1", "SELECT name FROM words WHERE name IN ('b', 'c') ORDER BY id")
WAYS = {"": "", "by indexes": "SET enable_seqscan = off; SET enable_sort = off; SET enable_hashagg = off; SET enable_bitmapscan = off;", "by merging": "SET enable_hashjoin = off; SET enable_nestloop = off; SET enable_sort = off; SET enable_seqscan = off;",
        "by parallel workers": PARALLEL + "SET force_parallel_mode = on; SET max_parallel_maintenance_workers = 4;"}
USED_AGAIN = "SELECT uca_use_files(again => true);"


def others_fail(says, wanted, what, database="postgres", ordered=ORDERED):
    """Each statement that needs the order is an error, and each other one prints what it printed."""
    for way, settings in WAYS.items():
        for it in ordered:
            same(says(f"{settings} {it};", fails=True, database=database), OTHER_FILES, f"{it} {way}, {what}")
    # a merge join or sorted groups may be taken, and they are an error: so only where PostgreSQL chooses
    for it in UNORDERED:
        same(says(f"{it};", database=database), wanted[it], f"{it}, {what}")


def other_settings(work):
    """After a start with other files, and back."""
    with bindings_postgresql.postgresql_server(work) as (server, says, settings):
        says(KEPT)
        wanted = {it: says(f"{it};") for it in UNORDERED}
        in_order = says("SELECT name FROM words ORDER BY name;")
        same(in_order, "b\nbh\nbh-\nbz\nc\n", "the order by the first table")
        same(says("SELECT kind, object FROM uca_dependents();"), DEPENDENTS, "the dependents")
        names = says(CHECKED)
        room = os.path.dirname(server.folder)
        for it in ("SET uca.table_file = '{}';", "ALTER DATABASE postgres SET uca.table_file = '{}';", "ALTER ROLE postgres SET uca.table_file = '{}';", "SET uca.weighting = '{}';"):
            fails_with(says, it.format(f"{room}/tailored.txt"), "cannot be changed without restarting the server" if "table" in it else "ERROR:")
        others = says(f"ALTER SYSTEM SET uca.table_file = '{room}/tailored.txt'; SELECT pg_reload_conf();")
        same(others + says("SELECT name FROM words ORDER BY name;"), "t\n" + in_order, "after ALTER SYSTEM, before a start")
        server.call("pg_ctl", "-w", "-m", "fast", "stop")
        server.call("pg_ctl", "-w", "-o", f"-c listen_addresses='' -c unix_socket_directories='{server.folder}' -c fsync=off", "start")
        others_fail(says, wanted, "after ALTER SYSTEM")
        dumped = run([f"{server.programs}/pg_dump", "-h", server.folder, "-U", "postgres", "postgres"]).decode()
        same(dumped.count("\nCOPY public."), int(says("SELECT count(*) FROM pg_class WHERE relkind = 'r' AND relnamespace = 'public'::regnamespace;")), "tables of a dump")
        for other in (settings.replace("weighting = shifted", "weighting = 'non-ignorable'"), settings + "uca.identical = on\n", settings + f"uca.book_file = '{room}/book.txt'\n"):
            server.restart(other)
            others_fail(says, wanted, other, ordered=ORDERED[:8])
        none = "ERROR:  uca: the file of uca.table_file cannot be read: No such file or directory"
        for other, error in ((settings.replace("/table.txt", "/none.txt"), none), (settings + "uca.numeric = on\n", "ERROR:  uca: table: Digits")):
            server.restart(other)
            for it in ORDERED[:8]:
                same(says(f"{WAYS['by indexes']} {it};", fails=True), error, f"{it} without such a table")
        server.restart(settings)
        same(says("SELECT name FROM words ORDER BY name;") + says(f"{BY_INDEX} SELECT name FROM words ORDER BY name;"), 2 * in_order, "the first files again")
        server.restart(settings.replace("/table.txt", "/tailored.txt"))
        for it in ("", "DROP TABLE parts;", "DROP TABLE spans;"):
            same(says(f"BEGIN; {it} {USED_AGAIN}", fails=True), bindings_postgresql.KEYS_ARE_KEPT, f"what has no statement, after {it}")
        moved = "BEGIN; CREATE TABLE kept AS SELECT * FROM part1 UNION ALL SELECT * FROM part2; DROP TABLE parts, spans;"
        says(f"{moved} {USED_AGAIN} {KEPT[KEPT.index('CREATE TABLE parts'):KEPT.index('INSERT INTO parts')]} INSERT INTO parts SELECT * FROM kept; COMMIT;")
        ordered = says("SELECT name FROM words ORDER BY name;")
        same(ordered, "b\nbz\nbh\nbh-\nc\n", "the order by the other table")
        for it in ("SELECT name FROM words ORDER BY name;", "SELECT name FROM parts ORDER BY name;", "SELECT name FROM shorts ORDER BY name;", "SELECT names[1] FROM lists ORDER BY names;", "SELECT word FROM words ORDER BY word USING <~;"):
            same(says(f"{BY_INDEX} {it}"), ordered, f"{it} by an index that is made again")
        same(says("SELECT name FROM firsts ORDER BY name; SELECT count(*) FROM checked WHERE is_before <> (name < 'bi');"), "b\nbz\nbh\n0\n", "what is made again")
        same(says(CHECKED), names.replace("by_span\n", ""), "amcheck")


def dumps(work):
    """Dumps that are restored where the server has the same files, and where it has others."""
    with bindings_postgresql.postgresql_server(work) as (server, says, settings), bindings_postgresql.postgresql_server(work, TAILORED) as (other, says_other, _):
        says(KEPT)
        wanted = {it: says(f"{it};") for it in UNORDERED}
        in_order = says("SELECT name FROM words ORDER BY name;")
        dump = [f"{server.programs}/pg_dump", "-h", server.folder, "-U", "postgres"]
        plain = run([*dump, "postgres"])
        run([*dump, "-Fc", "-f", f"{work}/texts.dump", "postgres"])
        restores = {"plain": (["psql", "-X"], plain), "parallel": (["pg_restore", "-j", "4", f"{work}/texts.dump"], None)}
        for name, (words, given) in restores.items():
            same(bindings_postgresql.restored(server, name, *words, given=given), "", f"a {name} restore under the same files")
            same(says("SELECT name FROM words ORDER BY name;", database=name), in_order, f"the order after a {name} restore")
            same(says(f"{CHECKED} SELECT uca_use_files();", database=name), says(CHECKED) + "0\n", f"amcheck after a {name} restore")
            bindings_postgresql.restored(other, name, *words, given=given)
            for it in ORDERED[:16]:
                for way in WAYS.values():
                    same(says_other(f"{way} {it};", fails=True, database=name), OTHER_FILES, f"{it} after a {name} restore under other files")
            for it in ("SELECT count(*) FROM words", "SELECT id FROM words WHERE name = 'bh'"):
                same(says_other(f"{it};", database=name), wanted[it], it)
        # two databases of one server, of which one was made by other files
        same(says_other("CREATE TABLE t(name uca_text); INSERT INTO t VALUES ('bz'), ('bh'); CREATE INDEX ON t(name); SELECT name FROM t ORDER BY name;"), "bz\nbh\n", "a database beside it")


def standby(work):
    """A physical standby with other files, and with the same."""
    with bindings_postgresql.postgresql_server(work) as (server, says, settings):
        from local_servers import PostgreSQL

        says(KEPT)
        wanted = {it: says(f"{it};") for it in UNORDERED}
        in_order = says("SELECT name FROM words ORDER BY name;")
        copy = PostgreSQL(tempfile.mkdtemp(dir=work), programs=server.programs)
        os.chmod(os.path.dirname(copy.folder), 0o755)
        os.mkdir(copy.folder)
        if copy.owner:
            shutil.chown(copy.folder, copy.owner)
        copy.call("pg_basebackup", "-h", server.folder, "-U", "postgres", "-R", "-c", "fast", "--no-sync")
        its = settings + f"primary_conninfo = 'host={server.folder} user=postgres'\n"

        def copy_says(statements, fails=False, database="postgres"):
            environment = {**os.environ, **copy.environment, "PGOPTIONS": "-c client_min_messages=error"}
            ran = subprocess.run(["psql", "-XAtq", "-v", "ON_ERROR_STOP=1", "-d", database], input=statements, capture_output=True, text=True, env=environment)
            if bool(ran.returncode) != fails:
                raise AssertionError(f"{statements:.200}: {ran.stdout}{ran.stderr}")
            return ran.stderr.split("\n")[0] if fails else ran.stdout

        reads = [it for it in ORDERED if it.startswith("SELECT")]
        try:
            copy.start(its.replace("/table.txt", "/tailored.txt"))
            others_fail(copy_says, wanted, "on a standby", ordered=reads)
            copy.restart(its)
            same(copy_says(f"{BY_INDEX} SELECT name FROM words ORDER BY name;"), in_order, "a standby with the same files")
            same(copy_says("SELECT uca_use_language('pl');", fails=True), f"ERROR:  {bindings_postgresql.NO_LANGUAGE.format('pl')}", "a language of a standby")
            # the primary takes other files, while the standby has a plan that reads the index
            server.restart(settings.replace("/table.txt", "/tailored.txt"))
            session = subprocess.Popen(["psql", "-XAtq"], stdin=subprocess.PIPE, stdout=subprocess.PIPE, stderr=subprocess.STDOUT, text=True, env={**os.environ, **copy.environment})
            asked = "EXECUTE it;\n\\echo done\n"
            session.stdin.write(f"{BY_INDEX} SET plan_cache_mode = force_generic_plan; PREPARE it AS SELECT name FROM words ORDER BY name;\n{asked}")
            session.stdin.flush()
            same("".join(iter(session.stdout.readline, "done\n")), in_order, "a prepared statement of the standby")
            says(f"BEGIN; DROP TABLE parts, spans; {USED_AGAIN} COMMIT;")
            found = lambda: copy_says("SELECT fingerprint FROM uca_files;") == says("SELECT uca_fingerprint();")
            bindings_postgresql.until(found, True, "what the primary did")
            session.stdin.write(asked)
            session.stdin.flush()
            said = "".join(iter(session.stdout.readline, "done\n"))
            same(said.split("\n")[0], OTHER_FILES, "the prepared statement after the primary's indexes were made again")
            session.stdin.close()
            session.wait()
            copy.restart(its.replace("/table.txt", "/tailored.txt"))
            same(copy_says(f"{BY_INDEX} SELECT name FROM words ORDER BY name;"), "b\nbz\nbh\nbh-\nc\n", "a standby with the files of its primary")
        finally:
            copy.call("pg_ctl", "-w", "-m", "immediate", "stop")


def inside_transactions(work):
    """Other fingerprints that come while a statement or a transaction runs, and files that are used after all or not."""
    with bindings_postgresql.postgresql_server(work) as (server, says, settings):
        says("CREATE EXTENSION amcheck; CREATE TABLE words(name uca_text PRIMARY KEY); INSERT INTO words VALUES ('b'), ('bh'), ('bz');"
             "CREATE TABLE many AS SELECT (chr(97 + i % 26) || i)::uca_text AS name FROM generate_series(1, 200000) i; CREATE INDEX by_name ON many(name);")
        by_index = f"{BY_INDEX} SELECT name FROM words ORDER BY name;"
        meanwhile = "BEGIN; INSERT INTO words VALUES ('bx');\n\\! psql -XAtqc \"INSERT INTO uca_files VALUES ('another')\"\nINSERT INTO words VALUES ('by');"
        same(says(meanwhile, fails=True), OTHER_FILES, "another fingerprint of another session")
        same(says(by_index, fails=True), OTHER_FILES, "a scan of an index with another fingerprint in the database")
        same(says("SELECT count(*) FROM words; DELETE FROM uca_files WHERE fingerprint = 'another';" + by_index), "3\nb\nbh\nbz\n", "without it")
        server.restart(settings.replace("/table.txt", "/tailored.txt"))
        used = "BEGIN; DO 'BEGIN PERFORM uca_use_files(again => true); END';"
        same(says(f"{used} {by_index} ROLLBACK; {by_index}", fails=True), OTHER_FILES, "files that are not used after all")
        same(says(f"{used} {by_index} ROLLBACK;"), "b\nbz\nbh\n", "inside of the transaction")
        parallel = f"{PARALLEL} SET max_parallel_maintenance_workers = 4; SET maintenance_work_mem = '200MB'; ALTER TABLE many SET (parallel_workers = 4);"
        counted = "SELECT bt_index_parent_check('by_name', true, true); SELECT count(*) FROM (SELECT name, lag(name) OVER (ORDER BY name) FROM many) it WHERE name < lag;"
        same(says(f"{parallel} {used} COMMIT; {counted}"), "\n0\n", "an index that parallel workers make in the transaction that uses other files")
        same(says("VACUUM many; DELETE FROM many WHERE name > 'c'; VACUUM many; REINDEX INDEX CONCURRENTLY by_name; VACUUM FULL many; CLUSTER many USING by_name; SELECT bt_index_parent_check('by_name', true, true);"), "\n", "VACUUM")
        says("DELETE FROM many WHERE name > 'b';")
        server.restart(settings)
        said = subprocess.run(["psql", "-XAtqc", "VACUUM many"], capture_output=True, text=True, env={**os.environ, **server.environment}).stderr.split("\n")[0]
        if said and said != OTHER_FILES:
            raise AssertionError(f"VACUUM under other files: {said}")
        server.restart(settings.replace("/table.txt", "/tailored.txt"))
        same(says("VACUUM many; SELECT bt_index_parent_check('by_name', true, true);"), "\n", "VACUUM afterwards")


def roles(work):
    """Roles without rights, and an extension in a schema of its own."""
    with bindings_postgresql.postgresql_server(work) as (_, says, _):
        says("DROP EXTENSION uca; CREATE SCHEMA ext; CREATE EXTENSION uca SCHEMA ext; CREATE ROLE joe; CREATE TABLE words(name ext.uca_text PRIMARY KEY); GRANT ALL ON words TO joe;")
        same(says("SET ROLE joe; INSERT INTO words VALUES ('b'), ('á'), ('a'); SELECT name FROM words ORDER BY name;"), "a\ná\nb\n", "a role without rights on the schema")
        same(says(f"REVOKE SELECT ON ext.uca_files FROM PUBLIC; SET ROLE joe; {BY_INDEX} SELECT name FROM words ORDER BY name;"), "a\ná\nb\n", "a role without rights on the table")
        same(says("ALTER SCHEMA ext RENAME TO ext2; GRANT USAGE ON SCHEMA ext2 TO joe; SET ROLE joe; SET search_path = ext2, public; SELECT name FROM words WHERE name ^@ 'A' ORDER BY name;"), "a\ná\n", "a schema that is renamed")
        fails_with(says, "DROP EXTENSION uca;", "cannot drop extension uca because other objects depend on it")


# ---- orders and figures


def by_bytes(text):
    """Lines in the order of their bytes. `uca sort` keeps lines of equal keys as they come."""
    return b"".join(it + b"\n" for it in sorted(text.removesuffix(b"\n").split(b"\n")))


def orders_like(program):
    """Lines of examples/, and lines with numbers, in the order of `uca sort`, for each weighting and depth."""

    def check(work):
        if not os.path.exists(program):
            raise NotHere(f"there is no {program}")
        table = bindings_shared.files_for(work, ["numeric"])[0]
        with bindings_postgresql.postgresql_server(work, table) as (server, says, settings):
            depths = (("shifted", "identical"), ("shifted", "numeric"), ("non-ignorable", "identical", "numeric"))
            for weighting, *depth in (("shifted",), ("non-ignorable",), *depths):
                its = "".join(f"uca.{it} = on\n" for it in depth)
                server.restart(settings.replace("weighting = shifted", f"weighting = '{weighting}'") + its)
                says("SELECT uca_use_files();")
                for lines in LINES:
                    text = bindings_shared.numbered(lines)
                    values = ", ".join(f"({quoted(it)})" for it in text.decode().removesuffix("\n").split("\n"))
                    says(f"CREATE TABLE lines(line uca_text); INSERT INTO lines VALUES {values}; CREATE INDEX by_line ON lines(line);")
                    wanted = run([program, "sort", *(f"--{it}" for it in depth), "--weighting", weighting, table, DATA], input=by_bytes(text)).decode()
                    for before in ("", BY_INDEX):
                        same(says(f"{before} SELECT line FROM lines ORDER BY line;"), wanted, f"order of {lines}, {weighting}, {depth}")
                    says("DROP TABLE lines;")

    return check


def words_like(program):
    """100,000 words over Unicode's table and a tailored one: sorted in each way, and read from indexes."""

    def check(work):
        data, tables = bindings_shared.unicode_files(work, program)
        # some twice, some with marks that are composed or not, and some that are no words
        words = bindings_shared.words(100_000)
        words += words[:2000] + [it.replace("é", "e\u0301") for it in words if "é" in it] + [f"{one} {other}" for one, other in zip(words[:3000], words[3000:6000])] + ["", " ", "-", "漢字", "汉字", "한글", "кот", "عربي", "α", "𝒜", "😀"]
        random.Random(5).shuffle(words)
        text = "".join(it + "\n" for it in words).encode()
        for table in tables:
            wanted = run([program, "sort", "--weighting", "shifted", table, data], input=by_bytes(text)).decode()
            for book in (None, BOOK):
                with bindings_postgresql.postgresql_server(work, table, data, book) as (_, says, _):
                    what = f"order over {os.path.basename(table)} {'with a book' if book else ''}"
                    says(f"CREATE EXTENSION amcheck; CREATE TABLE words(id serial, name uca_text); COPY words(name) FROM STDIN;\n{text.decode()}\\.\nANALYZE words;")
                    ordered = "SELECT name FROM words ORDER BY name;"
                    same(says(f"SET work_mem = '1GB'; {ordered}"), wanted, f"{what}, sorted in memory")
                    same(says(f"SET work_mem = '64kB'; {ordered}"), wanted, f"{what}, sorted on disk")
                    has(plan(says, ordered, PARALLEL), "Gather Merge", "a parallel plan")
                    same(says(f"{PARALLEL} {ordered}"), wanted, f"{what}, sorted by parallel workers")
                    same(says("SELECT name FROM words ORDER BY name LIMIT 1000;"), "".join(it + "\n" for it in wanted.split("\n")[:1000]), f"{what}, the first")
                    says("SET max_parallel_maintenance_workers = 4; ALTER TABLE words SET (parallel_workers = 4); CREATE INDEX by_name ON words(name); CREATE INDEX by_text ON words((name::text) uca_ops);"
                         "CREATE TABLE copies(name uca_text); CREATE INDEX by_copy ON copies(name); INSERT INTO copies SELECT name FROM words; VACUUM ANALYZE;")
                    for it in (ordered, ordered.replace("words", "copies"), "SELECT name::text FROM words ORDER BY name::text USING <~;"):
                        has(plan(says, it, BY_INDEX), "using by_", it)
                        same(says(f"{BY_INDEX} {it}"), wanted, f"{what}, by an index: {it}")
                    same(says(CHECKED), "by_copy\nby_name\nby_text\n", "amcheck")
                    same(says("SELECT count(*) FROM words a JOIN copies b USING (name);"), says("SELECT count(*) FROM words a JOIN copies b ON a.name::text = b.name::text;"), "a join")
                    for it in ("e", "Cafe", "über", "z"):
                        brute = says(f"SELECT count(*) FROM words WHERE uca_key(name) >= uca_prefix_low('{it}') AND uca_key(name) < uca_prefix_high('{it}');")
                        same(says(f"{BY_INDEX} SELECT count(*) FROM words WHERE name ^@ '{it}';"), brute, f"what begins with {it}")

    return check


# Ranges of code points of many kinds, whose ends are in them.
KINDS = [(0x20, 0x7E), (0x30, 0x39), (0x30, 0x31), (0x61, 0x7A), (0x61, 0x66), (1, 0x1F), (0xA0, 0x24F), (0x300, 0x36F), (0x370, 0x5FF), (0x600, 0x6FF), (0x900, 0xDFF), (0x1100, 0x11FF), (0x2000, 0x2BFF), (0x3040, 0x30FF),
         (0x4E00, 0x9FFF), (0xAC00, 0xD7A3), (0xE000, 0xE010), (0xF900, 0xFFFF), (0x10000, 0x1FFFF), (0x20000, 0x323AF), (0xE0100, 0xE01EF), (0x10FFF0, 0x10FFFF)]


def random_text(chosen):
    """A text of up to 12 code points of one or two kinds; one of a hundred has a run of marks that may be too long."""
    kinds = chosen.choices(KINDS, k=2)
    points = [chosen.randint(*chosen.choice(kinds)) for _ in range(chosen.randint(0, 12))]
    if chosen.random() < 0.01:
        points += [0x301] * chosen.randint(60, 70)
    return "".join(map(chr, points))


def random_like(program):
    """Random texts of many scripts are in the order of their keys, and then of their bytes; rejected ones come last."""

    def check(work):
        data, tables = bindings_shared.unicode_files(work, program)
        chosen = random.Random(6)
        texts = [random_text(chosen) for _ in range(20_000)]
        escapes = {"\\": "\\\\", "\t": "\\t", "\n": "\\n", "\r": "\\r"}
        copied = "".join("".join(escapes.get(it, it) for it in text) + "\n" for text in texts)
        counted = "SELECT count(*), count(*) FILTER (WHERE left(uca_any_key(name::text)::text, 4) = '\\x01') > 50 FROM words;"
        by_key = 'row_number() OVER (ORDER BY uca_any_key(name::text), name::text COLLATE "C") AS place FROM words'
        # texts of the same bytes may change places
        differ = f"SELECT count(*) FROM (SELECT name, row_number() OVER (ORDER BY name) AS place FROM words) a JOIN (SELECT name, {by_key}) b USING (place) WHERE a.name <> b.name;"
        numeric = (("shifted", None, "numeric"), ("shifted", BOOK, "numeric"))
        both = ("non-ignorable", None, "identical", "numeric")
        for weighting, book, *depth in (("shifted", None), ("non-ignorable", BOOK), *numeric, both):
            with bindings_postgresql.postgresql_server(work, tables[0], data, book) as (server, says, settings):
                its = "".join(f"uca.{it} = on\n" for it in depth)
                server.restart(settings.replace("weighting = shifted", f"weighting = '{weighting}'") + its)
                says("SELECT uca_use_files();")
                says(f"CREATE EXTENSION amcheck; CREATE TABLE words(name uca_text); COPY words FROM STDIN;\n{copied}\\.\nCREATE INDEX by_name ON words(name); VACUUM ANALYZE words;")
                same(says(counted), "20000|t\n", "random texts, some of which are rejected")
                for before in ("SET work_mem = '1GB';", "SET work_mem = '64kB';", BY_INDEX):
                    what = f"random texts in another place, {weighting}, {depth}, {before}"
                    same(says(f"SET jit = off; {before} {differ}"), "0\n", what)
                same(says(CHECKED), "by_name\n", "amcheck")

    return check


ROUNDS = 21


def seconds(server, statements):
    """The processor time of each statement in one process of the server, in seconds: the least of some rounds, in which they take turns."""
    settings = "SET work_mem = '1GB'; SET maintenance_work_mem = '1GB'; SET max_parallel_workers_per_gather = 0; SET max_parallel_maintenance_workers = 0;"
    least = [float("inf")] * len(statements)
    for _ in range(ROUNDS):
        for at, statement in enumerate(statements):
            words = f"{settings} SET client_min_messages = log; SET log_statement_stats = on; BEGIN; {statement} SET log_statement_stats = off; ROLLBACK;"
            ran = subprocess.run(["psql", "-XAtq", "-v", "ON_ERROR_STOP=1"], input=words, capture_output=True, text=True, check=True, env={**os.environ, **server.environment})
            found = re.findall(r"!\s+([\d.]+) s user, ([\d.]+) s system, ", ran.stderr)
            least[at] = min(least[at], max(float(user) + float(system) for user, system in found))
    return least


def beside_icu(program):
    """The bytes of an index, and the time of sorting and of making an index, beside a column with ICU's collation."""

    def check(work):
        data, tables = bindings_shared.unicode_files(work, program)
        text = "".join(it + "\n" for it in bindings_shared.words(100_000))
        late = []
        for book in (None, BOOK):
            with bindings_postgresql.postgresql_server(work, tables[0], data, book, more="uca.identical = off\n") as (server, says, _):
                says(f"CREATE TABLE words(name uca_text, word text COLLATE \"und-x-icu\"); COPY words(name) FROM STDIN;\n{text}\\.\nUPDATE words SET word = name; VACUUM FULL words; ANALYZE words;"
                     "CREATE INDEX by_name ON words(name); CREATE INDEX by_word ON words(word);")
                ours, theirs = says("SELECT pg_relation_size('by_name'), pg_relation_size('by_word');").strip().split("|")
                if int(ours) > 1.01 * int(theirs):
                    late.append(f"index: {ours} bytes, and ICU's {theirs}")
                says("DROP INDEX by_name, by_word;")
                columns = ("name", "word")
                sorts = seconds(server, [f"SELECT {it} FROM words ORDER BY {it} OFFSET 1000000;" for it in columns])
                indexes = seconds(server, [f"CREATE INDEX ON words({it});" for it in columns])
                for what, (own, icu), most in (("sort", sorts, 1.0), ("index", indexes, 1.2)):
                    print(f"{what} of 100,000 words {'with' if book else 'without'} a book: {own:.3f} s, and ICU's {icu:.3f} s of processor time: {own / icu:.2f} times; index: {int(ours):,} bytes, and ICU's {int(theirs):,}")
                    late += [f"{what}: {own / icu:.2f} times"] if own > most * icu else []
        same(late, [], "what takes more than it may")

    return check


def page(work):
    """The statements of docs/BINDINGS.md on uca_text."""
    text = re.search(r"^### Texts in order in PostgreSQL\n(.*?)^## ", content(f"{TOP}/docs/BINDINGS.md").decode(), re.S | re.M).group(1)
    blocks = re.findall(r"```sql\n(.*?)```", text, re.S)
    with bindings_postgresql.postgresql_server(work) as (_, says, _):
        for block in blocks:
            found = [it for it in says(block.replace("CREATE EXTENSION uca;", "")).split("\n")[:-1]]
            same(found, re.findall(r"^-- (.*)", block, re.M), block)


def main():
    parser = argparse.ArgumentParser(description=__doc__, formatter_class=argparse.RawDescriptionHelpFormatter)
    parser.add_argument("--uca", default=f"{TOP}/crates/uca/out/uca", help="the program")
    parser.add_argument("names", nargs="*", metavar="NAME")
    given = parser.parse_args()
    packages.stop_without(NEEDS)
    missing = [it for it in bindings_shared.ARCHIVES if not os.path.exists(it)]
    if missing:
        sys.exit(f"there is no {missing[0]}: run `tools/build.py uca_c uca_command_in_memory` first")
    program = os.path.realpath(given.uca)
    checks = {"statements": statements, "bad_texts": bad_texts, "unique": unique, "joins": joins, "begins": begins, "casts": casts, "text_class": text_class, "other_settings": other_settings,
              "dumps": dumps, "standby": standby, "transactions": inside_transactions, "roles": roles, "page": page, "orders": orders_like(program),
              "words": words_like(program), "random": random_like(program), "beside_icu": beside_icu(program)}
    if unknown := {*given.names} - {*checks}:
        parser.error(f"no check is named {', '.join(sorted(unknown))}: they are {', '.join(checks)}")
    run(["make", "-s", "-C", bindings_shared.C])
    passed = failed = skipped = 0
    with tempfile.TemporaryDirectory() as work:
        for name in given.names or checks:
            try:
                checks[name](work)
                passed += 1
            except NotHere as it:
                skipped += 1
                print(f"{name}: not run, since {it}", flush=True)
            except (AssertionError, OSError) as it:
                failed += 1
                print(f"{name}: {it}", flush=True)
    print(f"{passed} passed, {failed} failed" + (f", {skipped} not run" if skipped else ""))
    return 1 if failed else 0


if __name__ == "__main__":
    sys.dont_write_bytecode = True
    sys.exit(main())
