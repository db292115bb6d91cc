\echo Use "CREATE EXTENSION uca" to load this file. \quit

-- The superuser who installs this may do so in a schema where another role makes functions and operators. So each function, operator and type
-- of PostgreSQL is named with its schema, or is in a body whose search_path is pg_catalog; `integer`, `boolean` and `bigint` are key words.
-- IN, CASE with a value, BETWEEN and LIKE would name an operator without one. The extension's own are named alone, since it can be moved to
-- another schema. Each is called with exactly its types: PostgreSQL takes no other one then, and a second one of these types is an error.

-- the fingerprint of the files and settings that the server has read when it started, as `uca fingerprint` prints it
CREATE FUNCTION uca_fingerprint() RETURNS pg_catalog.text AS 'MODULE_PATHNAME', 'uca_fingerprint_of_files' LANGUAGE C STABLE PARALLEL SAFE;

-- the same of the next edition. It is an error where the server has none.
CREATE FUNCTION uca_next_fingerprint() RETURNS pg_catalog.text AS 'MODULE_PATHNAME', 'uca_fingerprint_of_next_files' LANGUAGE C STABLE PARALLEL SAFE;

-- The fingerprints of the files and settings by which the keys of this database are made. Each row has to be that of the server, or else
-- uca_key(text) is an error. A dump has these rows. So a restored database has a row of its server and the rows of the dump.
CREATE TABLE uca_files (fingerprint pg_catalog.text NOT NULL);
ALTER TABLE uca_files REPLICA IDENTITY FULL;
INSERT INTO uca_files VALUES (uca_fingerprint());
GRANT SELECT ON uca_files TO PUBLIC;
SELECT pg_catalog.pg_extension_config_dump('uca_files', '');

-- Bytes that are here already may be keys of other files, as after DROP EXTENSION. So this row stays until uca_use_files() is called.
-- Tables of users have numbers from 16384 on. Domains, arrays, rows and ranges hold bytea too.
-- To compile this statement takes seconds, and to run it a moment.
SET LOCAL jit = off;
INSERT INTO uca_files SELECT 'unknown, since columns of type bytea were here before the extension' WHERE EXISTS (
    WITH RECURSIVE holds(type) AS (
        SELECT 'pg_catalog.bytea'::pg_catalog.regtype::pg_catalog.oid
        UNION
        SELECT t.oid FROM holds h JOIN pg_catalog.pg_type t ON h.type OPERATOR(pg_catalog.=) t.typbasetype OR h.type OPERATOR(pg_catalog.=) t.typelem
            OR EXISTS (SELECT FROM pg_catalog.pg_attribute a
                WHERE a.attrelid OPERATOR(pg_catalog.=) t.typrelid AND a.atttypid OPERATOR(pg_catalog.=) h.type)
            OR EXISTS (SELECT FROM pg_catalog.pg_range r
                WHERE (t.oid OPERATOR(pg_catalog.=) r.rngtypid OR t.oid OPERATOR(pg_catalog.=) r.rngmultitypid)
                    AND r.rngsubtype OPERATOR(pg_catalog.=) h.type)
    )
    SELECT FROM pg_catalog.pg_attribute a JOIN pg_catalog.pg_class c ON c.oid OPERATOR(pg_catalog.=) a.attrelid
        JOIN holds h ON h.type OPERATOR(pg_catalog.=) a.atttypid
    WHERE c.oid OPERATOR(pg_catalog.>=) 16384::pg_catalog.oid AND c.relkind OPERATOR(pg_catalog.=) ANY ('{r,p,m,f}'::pg_catalog."char"[])
        AND a.attnum OPERATOR(pg_catalog.>) 0::smallint AND NOT a.attisdropped);

-- The sort key of a text, whose byte order is the order of texts. It is compact where the server has a book. A text that is rejected is an
-- error, which has the position: LongRun at 1.
CREATE FUNCTION uca_key(pg_catalog.text) RETURNS pg_catalog.bytea AS 'MODULE_PATHNAME', 'uca_key_of_text' LANGUAGE C IMMUTABLE STRICT PARALLEL SAFE COST 20;

-- Why a text is rejected, and where: Utf8 at 0, LongRun at 1 or TooLong. It is NULL for a text that is accepted, and for NULL. So it finds
-- the rows for which an index on uca_key is an error.
CREATE FUNCTION uca_check(pg_catalog.text) RETURNS pg_catalog.text AS 'MODULE_PATHNAME', 'uca_check_of_text'
LANGUAGE C IMMUTABLE STRICT PARALLEL SAFE COST 20;

-- The key for rejected texts too: a byte 0 and the key, or a byte 1 and the text. So rejected texts come after all others.
CREATE FUNCTION uca_any_key(pg_catalog.text) RETURNS pg_catalog.bytea AS 'MODULE_PATHNAME', 'uca_any_key_of_text'
LANGUAGE C IMMUTABLE STRICT PARALLEL SAFE COST 20;

-- The key through 1 or 2 levels. Two are equal exactly if the texts have the same letters, or the same letters and accents.
CREATE FUNCTION uca_key(pg_catalog.text, levels integer) RETURNS pg_catalog.bytea AS 'MODULE_PATHNAME', 'uca_range_low_of_text'
LANGUAGE C IMMUTABLE STRICT PARALLEL SAFE COST 20;

-- The range of the keys with the same letters, or the same letters and accents: from the low end up to, and without, the high end.
CREATE FUNCTION uca_range_low(pg_catalog.text, levels integer) RETURNS pg_catalog.bytea AS 'MODULE_PATHNAME', 'uca_range_low_of_text'
LANGUAGE C IMMUTABLE STRICT PARALLEL SAFE COST 20;
CREATE FUNCTION uca_range_high(pg_catalog.text, levels integer) RETURNS pg_catalog.bytea AS 'MODULE_PATHNAME', 'uca_range_high_of_text'
LANGUAGE C IMMUTABLE STRICT PARALLEL SAFE COST 20;

-- The range of the keys whose level 1 begins with the letters of the text.
CREATE FUNCTION uca_prefix_low(pg_catalog.text) RETURNS pg_catalog.bytea AS 'MODULE_PATHNAME', 'uca_prefix_low_of_text'
LANGUAGE C IMMUTABLE STRICT PARALLEL SAFE COST 20;
CREATE FUNCTION uca_prefix_high(pg_catalog.text) RETURNS pg_catalog.bytea AS 'MODULE_PATHNAME', 'uca_prefix_high_of_text'
LANGUAGE C IMMUTABLE STRICT PARALLEL SAFE COST 20;

-- The whole key of a compact key, and the compact key of a whole one. Bytes that are none are an error, and so is a server without a book.
CREATE FUNCTION uca_expand(pg_catalog.bytea) RETURNS pg_catalog.bytea AS 'MODULE_PATHNAME', 'uca_expand_key'
LANGUAGE C IMMUTABLE STRICT PARALLEL SAFE COST 20;
CREATE FUNCTION uca_compact(pg_catalog.bytea) RETURNS pg_catalog.bytea AS 'MODULE_PATHNAME', 'uca_compact_key'
LANGUAGE C IMMUTABLE STRICT PARALLEL SAFE COST 20;

-- Whether the key of a text has to be made again for the next edition, as for a text that is rejected; and the next edition's key of the key
-- of another text. Both fingerprints are named, since only who has the key knows by which files it was made. The call is an error where the
-- server has others, whatever uca_files has. They are not for indexes: what they make of an affected text, or of its key, depends on the file
-- of changes.
CREATE FUNCTION uca_affected(pg_catalog.text, fingerprint pg_catalog.text, next_fingerprint pg_catalog.text) RETURNS boolean
AS 'MODULE_PATHNAME', 'uca_affected_by_fingerprints' LANGUAGE C STABLE PARALLEL SAFE COST 20;
CREATE FUNCTION uca_rekey(pg_catalog.bytea, fingerprint pg_catalog.text, next_fingerprint pg_catalog.text) RETURNS pg_catalog.bytea
AS 'MODULE_PATHNAME', 'uca_rekey_by_fingerprints' LANGUAGE C STABLE PARALLEL SAFE COST 20;

-- Keys, ranges and checks by the files and settings of a fingerprint, which may be that of the next edition. The call is an error where the
-- server has others, whatever uca_files has.
CREATE FUNCTION uca_key(pg_catalog.text, fingerprint pg_catalog.text) RETURNS pg_catalog.bytea AS 'MODULE_PATHNAME', 'uca_key_by_fingerprint'
LANGUAGE C IMMUTABLE PARALLEL SAFE COST 20;
CREATE FUNCTION uca_check(pg_catalog.text, fingerprint pg_catalog.text) RETURNS pg_catalog.text AS 'MODULE_PATHNAME', 'uca_check_by_fingerprint'
LANGUAGE C IMMUTABLE PARALLEL SAFE COST 20;
CREATE FUNCTION uca_any_key(pg_catalog.text, fingerprint pg_catalog.text) RETURNS pg_catalog.bytea AS 'MODULE_PATHNAME', 'uca_any_key_by_fingerprint'
LANGUAGE C IMMUTABLE PARALLEL SAFE COST 20;
CREATE FUNCTION uca_key(pg_catalog.text, fingerprint pg_catalog.text, levels integer) RETURNS pg_catalog.bytea
AS 'MODULE_PATHNAME', 'uca_range_low_by_fingerprint' LANGUAGE C IMMUTABLE PARALLEL SAFE COST 20;
CREATE FUNCTION uca_range_low(pg_catalog.text, fingerprint pg_catalog.text, levels integer) RETURNS pg_catalog.bytea
AS 'MODULE_PATHNAME', 'uca_range_low_by_fingerprint' LANGUAGE C IMMUTABLE PARALLEL SAFE COST 20;
CREATE FUNCTION uca_range_high(pg_catalog.text, fingerprint pg_catalog.text, levels integer) RETURNS pg_catalog.bytea
AS 'MODULE_PATHNAME', 'uca_range_high_by_fingerprint' LANGUAGE C IMMUTABLE PARALLEL SAFE COST 20;
CREATE FUNCTION uca_prefix_low(pg_catalog.text, fingerprint pg_catalog.text) RETURNS pg_catalog.bytea AS 'MODULE_PATHNAME', 'uca_prefix_low_by_fingerprint'
LANGUAGE C IMMUTABLE PARALLEL SAFE COST 20;
CREATE FUNCTION uca_prefix_high(pg_catalog.text, fingerprint pg_catalog.text) RETURNS pg_catalog.bytea
AS 'MODULE_PATHNAME', 'uca_prefix_high_by_fingerprint' LANGUAGE C IMMUTABLE PARALLEL SAFE COST 20;
CREATE FUNCTION uca_expand(pg_catalog.bytea, fingerprint pg_catalog.text) RETURNS pg_catalog.bytea AS 'MODULE_PATHNAME', 'uca_expand_by_fingerprint'
LANGUAGE C IMMUTABLE PARALLEL SAFE COST 20;
CREATE FUNCTION uca_compact(pg_catalog.bytea, fingerprint pg_catalog.text) RETURNS pg_catalog.bytea AS 'MODULE_PATHNAME', 'uca_compact_by_fingerprint'
LANGUAGE C IMMUTABLE PARALLEL SAFE COST 20;

-- ---- Texts in order: the type uca_text, and the operator class uca_ops of text

-- A value of uca_text is a text, byte by byte. Nothing in it depends on files. What depends on files is the order: that of an index, of the
-- ranges of a partitioned table, and what a CHECK, a generated column or a materialized view made by comparing. So the order has the guard that
-- uca_key(text) has, the table uca_files. These are the attacks, and why none of them gives a wrong order without an error:
--
-- - Other files or settings (a start after ALTER SYSTEM, a restore, pg_upgrade, a standby with its own postgresql.conf): each comparison, and each
--   sort when it begins, looks at uca_files as uca_key(text) does. So a lookup in an index, an insertion, a sort, a merge join and the CHECK of
--   a range partition are errors.
-- - A scan of a whole index in its order, or of the first rows of it, makes no comparison. Nor does one of an index whose condition compares, as on
--   (id) WHERE name < 'c', or whose expression does. While uca_files differs, the planner does not get to see these indexes (leave_out_indexes in
--   uca_text.c). So it sorts or compares, which is an error. Indexes on arrays, rows and ranges of uca_text count too. A server that does not
--   preload the library has no files, so that each comparison is an error, and what it reads in the order of an index is in the recorded order.
-- - A plan that is kept: the server's files do not change while it runs. An index is made again in another order by REINDEX alone, which makes
--   all plans again that read it, also on a standby.
-- - Threads, parallel workers: a process of the server has one thread, and the collator that the server opened before it started any process.
-- - Another administrator: the settings cannot be set for a session, a role or a database. uca_use_files() makes again all that is ordered, or
--   is an error, as for keys.
-- - Hash joins, hash indexes, hash partitions, DISTINCT, foreign keys, UNIQUE: texts are equal exactly if their bytes are. So what is equal does
--   not depend on files. This is why texts with equal keys and other bytes are not equal here, and why an index takes each value once.
-- - The order of text, which comes without an error where PostgreSQL takes a uca_text for a text: it never does so by itself. A cast to text is
--   written (name::text), or is that of an assignment. With an implicit one, max(name), string_agg(name, ', ' ORDER BY name), and each operator
--   with a search_path without this schema would be in the order of text. Now they are ours, or an error.
-- - Collations: uca_text has none, so COLLATE is an error. An index by uca_ops for a nondeterministic collation is an error, since it has other
--   equal texts.
CREATE TYPE uca_text;
CREATE FUNCTION uca_text_in(pg_catalog.cstring) RETURNS uca_text AS 'textin' LANGUAGE internal IMMUTABLE STRICT PARALLEL SAFE;
CREATE FUNCTION uca_text_out(uca_text) RETURNS pg_catalog.cstring AS 'textout' LANGUAGE internal IMMUTABLE STRICT PARALLEL SAFE;
CREATE FUNCTION uca_text_receive(pg_catalog.internal) RETURNS uca_text AS 'textrecv' LANGUAGE internal STABLE STRICT PARALLEL SAFE;
CREATE FUNCTION uca_text_send(uca_text) RETURNS pg_catalog.bytea AS 'textsend' LANGUAGE internal STABLE STRICT PARALLEL SAFE;
CREATE TYPE uca_text (
    INPUT = uca_text_in, OUTPUT = uca_text_out, RECEIVE = uca_text_receive, SEND = uca_text_send,
    INTERNALLENGTH = VARIABLE, STORAGE = extended, CATEGORY = 'S');
CREATE CAST (pg_catalog.text AS uca_text) WITHOUT FUNCTION AS IMPLICIT;
CREATE CAST (varchar AS uca_text) WITHOUT FUNCTION AS IMPLICIT;
CREATE CAST (uca_text AS pg_catalog.text) WITHOUT FUNCTION AS ASSIGNMENT;
CREATE CAST (uca_text AS varchar) WITHOUT FUNCTION AS ASSIGNMENT;

-- Texts are equal if their bytes are.
CREATE FUNCTION uca_text_equal(uca_text, uca_text) RETURNS boolean AS 'byteaeq' LANGUAGE internal IMMUTABLE STRICT LEAKPROOF PARALLEL SAFE;
CREATE FUNCTION uca_text_differ(uca_text, uca_text) RETURNS boolean AS 'byteane' LANGUAGE internal IMMUTABLE STRICT LEAKPROOF PARALLEL SAFE;
CREATE FUNCTION uca_text_hash(uca_text) RETURNS integer AS 'hashvarlena' LANGUAGE internal IMMUTABLE STRICT PARALLEL SAFE;
CREATE FUNCTION uca_text_hash(uca_text, bigint) RETURNS bigint AS 'hashvarlenaextended' LANGUAGE internal IMMUTABLE STRICT PARALLEL SAFE;
CREATE OPERATOR = (
    LEFTARG = uca_text, RIGHTARG = uca_text, FUNCTION = uca_text_equal, COMMUTATOR = =, NEGATOR = <>,
    RESTRICT = pg_catalog.eqsel, JOIN = pg_catalog.eqjoinsel, HASHES, MERGES);
CREATE OPERATOR <> (
    LEFTARG = uca_text, RIGHTARG = uca_text, FUNCTION = uca_text_differ, COMMUTATOR = <>, NEGATOR = =,
    RESTRICT = pg_catalog.neqsel, JOIN = pg_catalog.neqjoinsel);
CREATE OPERATOR CLASS uca_text_ops DEFAULT FOR TYPE uca_text USING hash AS
    OPERATOR 1 =, FUNCTION 1 uca_text_hash(uca_text), FUNCTION 2 uca_text_hash(uca_text, bigint);

-- The order of texts is that of their keys, and then of their bytes. Rejected texts come after all others.
CREATE FUNCTION uca_text_compare(uca_text, uca_text) RETURNS integer AS 'MODULE_PATHNAME', 'uca_text_compare'
LANGUAGE C IMMUTABLE STRICT PARALLEL SAFE COST 10;
CREATE FUNCTION uca_text_less(uca_text, uca_text) RETURNS boolean AS 'MODULE_PATHNAME', 'uca_text_less'
LANGUAGE C IMMUTABLE STRICT PARALLEL SAFE COST 10;
CREATE FUNCTION uca_text_not_greater(uca_text, uca_text) RETURNS boolean AS 'MODULE_PATHNAME', 'uca_text_not_greater'
LANGUAGE C IMMUTABLE STRICT PARALLEL SAFE COST 10;
CREATE FUNCTION uca_text_not_less(uca_text, uca_text) RETURNS boolean AS 'MODULE_PATHNAME', 'uca_text_not_less'
LANGUAGE C IMMUTABLE STRICT PARALLEL SAFE COST 10;
CREATE FUNCTION uca_text_greater(uca_text, uca_text) RETURNS boolean AS 'MODULE_PATHNAME', 'uca_text_greater'
LANGUAGE C IMMUTABLE STRICT PARALLEL SAFE COST 10;
CREATE OPERATOR < (
    LEFTARG = uca_text, RIGHTARG = uca_text, FUNCTION = uca_text_less, COMMUTATOR = >, NEGATOR = >=,
    RESTRICT = pg_catalog.scalarltsel, JOIN = pg_catalog.scalarltjoinsel);
CREATE OPERATOR <= (
    LEFTARG = uca_text, RIGHTARG = uca_text, FUNCTION = uca_text_not_greater, COMMUTATOR = >=, NEGATOR = >,
    RESTRICT = pg_catalog.scalarlesel, JOIN = pg_catalog.scalarlejoinsel);
CREATE OPERATOR >= (
    LEFTARG = uca_text, RIGHTARG = uca_text, FUNCTION = uca_text_not_less, COMMUTATOR = <=, NEGATOR = <,
    RESTRICT = pg_catalog.scalargesel, JOIN = pg_catalog.scalargejoinsel);
CREATE OPERATOR > (
    LEFTARG = uca_text, RIGHTARG = uca_text, FUNCTION = uca_text_greater, COMMUTATOR = <, NEGATOR = <=,
    RESTRICT = pg_catalog.scalargtsel, JOIN = pg_catalog.scalargtjoinsel);

-- A text is also compared with bytes: its key with an end of a range, as uca_prefix_low makes it. A rejected text is after all bytes.
CREATE FUNCTION uca_text_compare(left_text uca_text, right_key pg_catalog.bytea) RETURNS integer AS 'MODULE_PATHNAME', 'uca_text_compare_key'
LANGUAGE C IMMUTABLE STRICT PARALLEL SAFE COST 10;
CREATE FUNCTION uca_text_less(left_text uca_text, right_key pg_catalog.bytea) RETURNS boolean AS 'MODULE_PATHNAME', 'uca_text_less_key'
LANGUAGE C IMMUTABLE STRICT PARALLEL SAFE COST 10;
CREATE FUNCTION uca_text_not_greater(left_text uca_text, right_key pg_catalog.bytea) RETURNS boolean AS 'MODULE_PATHNAME', 'uca_text_not_greater_key'
LANGUAGE C IMMUTABLE STRICT PARALLEL SAFE COST 10;
CREATE FUNCTION uca_text_not_less(left_text uca_text, right_key pg_catalog.bytea) RETURNS boolean AS 'MODULE_PATHNAME', 'uca_text_not_less_key'
LANGUAGE C IMMUTABLE STRICT PARALLEL SAFE COST 10;
CREATE FUNCTION uca_text_greater(left_text uca_text, right_key pg_catalog.bytea) RETURNS boolean AS 'MODULE_PATHNAME', 'uca_text_greater_key'
LANGUAGE C IMMUTABLE STRICT PARALLEL SAFE COST 10;
CREATE OPERATOR < (
    LEFTARG = uca_text, RIGHTARG = pg_catalog.bytea, FUNCTION = uca_text_less, NEGATOR = >=,
    RESTRICT = pg_catalog.scalarltsel, JOIN = pg_catalog.scalarltjoinsel);
CREATE OPERATOR <= (
    LEFTARG = uca_text, RIGHTARG = pg_catalog.bytea, FUNCTION = uca_text_not_greater, NEGATOR = >,
    RESTRICT = pg_catalog.scalarlesel, JOIN = pg_catalog.scalarlejoinsel);
CREATE OPERATOR >= (
    LEFTARG = uca_text, RIGHTARG = pg_catalog.bytea, FUNCTION = uca_text_not_less, NEGATOR = <,
    RESTRICT = pg_catalog.scalargesel, JOIN = pg_catalog.scalargejoinsel);
CREATE OPERATOR > (
    LEFTARG = uca_text, RIGHTARG = pg_catalog.bytea, FUNCTION = uca_text_greater, NEGATOR = <=,
    RESTRICT = pg_catalog.scalargtsel, JOIN = pg_catalog.scalargtjoinsel);

CREATE FUNCTION uca_text_sort_support(pg_catalog.internal) RETURNS pg_catalog.void AS 'MODULE_PATHNAME', 'uca_text_sort_support'
LANGUAGE C IMMUTABLE STRICT PARALLEL SAFE;
CREATE OPERATOR CLASS uca_text_ops DEFAULT FOR TYPE uca_text USING btree AS
    OPERATOR 1 <, OPERATOR 2 <=, OPERATOR 3 =, OPERATOR 4 >=, OPERATOR 5 >,
    FUNCTION 1 uca_text_compare(uca_text, uca_text),
    FUNCTION 2 uca_text_sort_support(pg_catalog.internal), FUNCTION 4 pg_catalog.btequalimage(pg_catalog.oid),
    OPERATOR 1 < (uca_text, pg_catalog.bytea), OPERATOR 2 <= (uca_text, pg_catalog.bytea),
    OPERATOR 4 >= (uca_text, pg_catalog.bytea), OPERATOR 5 > (uca_text, pg_catalog.bytea),
    FUNCTION 1 (uca_text, pg_catalog.bytea) uca_text_compare(uca_text, pg_catalog.bytea);

CREATE FUNCTION uca_text_least(uca_text, uca_text) RETURNS uca_text AS 'MODULE_PATHNAME', 'uca_text_least'
LANGUAGE C IMMUTABLE STRICT PARALLEL SAFE COST 10;
CREATE FUNCTION uca_text_greatest(uca_text, uca_text) RETURNS uca_text AS 'MODULE_PATHNAME', 'uca_text_greatest'
LANGUAGE C IMMUTABLE STRICT PARALLEL SAFE COST 10;
CREATE AGGREGATE min(uca_text) (SFUNC = uca_text_least, STYPE = uca_text, COMBINEFUNC = uca_text_least, SORTOP = <, PARALLEL = SAFE);
CREATE AGGREGATE max(uca_text) (SFUNC = uca_text_greatest, STYPE = uca_text, COMBINEFUNC = uca_text_greatest, SORTOP = >, PARALLEL = SAFE);

-- Whether a text begins with these letters: level 1 of its key begins with theirs. The planner puts the body in its place, so an index serves it.
CREATE FUNCTION uca_begins(uca_text, beginning pg_catalog.text) RETURNS boolean LANGUAGE sql IMMUTABLE PARALLEL SAFE
RETURN $1 >= uca_prefix_low($2) AND $1 < uca_prefix_high($2);
CREATE OPERATOR ^@ (
    LEFTARG = uca_text, RIGHTARG = pg_catalog.text, FUNCTION = uca_begins,
    RESTRICT = pg_catalog.matchingsel, JOIN = pg_catalog.matchingjoinsel);

-- Keys of such texts, and why they are rejected.
CREATE FUNCTION uca_key(uca_text) RETURNS pg_catalog.bytea AS 'MODULE_PATHNAME', 'uca_key_of_text' LANGUAGE C IMMUTABLE STRICT PARALLEL SAFE COST 20;
CREATE FUNCTION uca_check(uca_text) RETURNS pg_catalog.text AS 'MODULE_PATHNAME', 'uca_check_of_text' LANGUAGE C IMMUTABLE STRICT PARALLEL SAFE COST 20;
CREATE FUNCTION uca_key(uca_text, levels integer) RETURNS pg_catalog.bytea AS 'MODULE_PATHNAME', 'uca_range_low_of_text'
LANGUAGE C IMMUTABLE STRICT PARALLEL SAFE COST 20;

-- The same order for columns of type text, by operators of other names. Equal texts are those of text itself.
CREATE FUNCTION uca_text_compare(pg_catalog.text, pg_catalog.text) RETURNS integer AS 'MODULE_PATHNAME', 'uca_text_compare'
LANGUAGE C IMMUTABLE STRICT PARALLEL SAFE COST 10;
CREATE FUNCTION uca_text_less(pg_catalog.text, pg_catalog.text) RETURNS boolean AS 'MODULE_PATHNAME', 'uca_text_less'
LANGUAGE C IMMUTABLE STRICT PARALLEL SAFE COST 10;
CREATE FUNCTION uca_text_not_greater(pg_catalog.text, pg_catalog.text) RETURNS boolean AS 'MODULE_PATHNAME', 'uca_text_not_greater'
LANGUAGE C IMMUTABLE STRICT PARALLEL SAFE COST 10;
CREATE FUNCTION uca_text_not_less(pg_catalog.text, pg_catalog.text) RETURNS boolean AS 'MODULE_PATHNAME', 'uca_text_not_less'
LANGUAGE C IMMUTABLE STRICT PARALLEL SAFE COST 10;
CREATE FUNCTION uca_text_greater(pg_catalog.text, pg_catalog.text) RETURNS boolean AS 'MODULE_PATHNAME', 'uca_text_greater'
LANGUAGE C IMMUTABLE STRICT PARALLEL SAFE COST 10;
CREATE OPERATOR <~ (
    LEFTARG = pg_catalog.text, RIGHTARG = pg_catalog.text, FUNCTION = uca_text_less, COMMUTATOR = >~, NEGATOR = >=~,
    RESTRICT = pg_catalog.scalarltsel, JOIN = pg_catalog.scalarltjoinsel);
CREATE OPERATOR <=~ (
    LEFTARG = pg_catalog.text, RIGHTARG = pg_catalog.text, FUNCTION = uca_text_not_greater, COMMUTATOR = >=~, NEGATOR = >~,
    RESTRICT = pg_catalog.scalarlesel, JOIN = pg_catalog.scalarlejoinsel);
CREATE OPERATOR >=~ (
    LEFTARG = pg_catalog.text, RIGHTARG = pg_catalog.text, FUNCTION = uca_text_not_less, COMMUTATOR = <=~, NEGATOR = <~,
    RESTRICT = pg_catalog.scalargesel, JOIN = pg_catalog.scalargejoinsel);
CREATE OPERATOR >~ (
    LEFTARG = pg_catalog.text, RIGHTARG = pg_catalog.text, FUNCTION = uca_text_greater, COMMUTATOR = <~, NEGATOR = <=~,
    RESTRICT = pg_catalog.scalargtsel, JOIN = pg_catalog.scalargtjoinsel);
CREATE FUNCTION uca_text_compare(left_text pg_catalog.text, right_key pg_catalog.bytea) RETURNS integer AS 'MODULE_PATHNAME', 'uca_text_compare_key'
LANGUAGE C IMMUTABLE STRICT PARALLEL SAFE COST 10;
CREATE FUNCTION uca_text_less(left_text pg_catalog.text, right_key pg_catalog.bytea) RETURNS boolean AS 'MODULE_PATHNAME', 'uca_text_less_key'
LANGUAGE C IMMUTABLE STRICT PARALLEL SAFE COST 10;
CREATE FUNCTION uca_text_not_greater(left_text pg_catalog.text, right_key pg_catalog.bytea) RETURNS boolean AS 'MODULE_PATHNAME', 'uca_text_not_greater_key'
LANGUAGE C IMMUTABLE STRICT PARALLEL SAFE COST 10;
CREATE FUNCTION uca_text_not_less(left_text pg_catalog.text, right_key pg_catalog.bytea) RETURNS boolean AS 'MODULE_PATHNAME', 'uca_text_not_less_key'
LANGUAGE C IMMUTABLE STRICT PARALLEL SAFE COST 10;
CREATE FUNCTION uca_text_greater(left_text pg_catalog.text, right_key pg_catalog.bytea) RETURNS boolean AS 'MODULE_PATHNAME', 'uca_text_greater_key'
LANGUAGE C IMMUTABLE STRICT PARALLEL SAFE COST 10;
CREATE OPERATOR <~ (
    LEFTARG = pg_catalog.text, RIGHTARG = pg_catalog.bytea, FUNCTION = uca_text_less, NEGATOR = >=~,
    RESTRICT = pg_catalog.scalarltsel, JOIN = pg_catalog.scalarltjoinsel);
CREATE OPERATOR <=~ (
    LEFTARG = pg_catalog.text, RIGHTARG = pg_catalog.bytea, FUNCTION = uca_text_not_greater, NEGATOR = >~,
    RESTRICT = pg_catalog.scalarlesel, JOIN = pg_catalog.scalarlejoinsel);
CREATE OPERATOR >=~ (
    LEFTARG = pg_catalog.text, RIGHTARG = pg_catalog.bytea, FUNCTION = uca_text_not_less, NEGATOR = <~,
    RESTRICT = pg_catalog.scalargesel, JOIN = pg_catalog.scalargejoinsel);
CREATE OPERATOR >~ (
    LEFTARG = pg_catalog.text, RIGHTARG = pg_catalog.bytea, FUNCTION = uca_text_greater, NEGATOR = <=~,
    RESTRICT = pg_catalog.scalargtsel, JOIN = pg_catalog.scalargtjoinsel);
CREATE OPERATOR CLASS uca_ops FOR TYPE pg_catalog.text USING btree AS
    OPERATOR 1 <~, OPERATOR 2 <=~, OPERATOR 3 pg_catalog.=, OPERATOR 4 >=~, OPERATOR 5 >~,
    FUNCTION 1 uca_text_compare(pg_catalog.text, pg_catalog.text),
    FUNCTION 2 uca_text_sort_support(pg_catalog.internal), FUNCTION 4 pg_catalog.btequalimage(pg_catalog.oid),
    OPERATOR 1 <~ (pg_catalog.text, pg_catalog.bytea), OPERATOR 2 <=~ (pg_catalog.text, pg_catalog.bytea),
    OPERATOR 4 >=~ (pg_catalog.text, pg_catalog.bytea), OPERATOR 5 >~ (pg_catalog.text, pg_catalog.bytea),
    FUNCTION 1 (pg_catalog.text, pg_catalog.bytea) uca_text_compare(pg_catalog.text, pg_catalog.bytea);

CREATE FUNCTION uca_begins(pg_catalog.text, beginning pg_catalog.text) RETURNS boolean LANGUAGE sql IMMUTABLE PARALLEL SAFE
RETURN $1 >=~ uca_prefix_low($2) AND $1 <~ uca_prefix_high($2);

-- What keeps keys of functions that name no files, or depends on these, the statement that makes it again, and who owns it. The order is
-- that in which the statements run. Where it is NULL, no one statement does it. It finds objects that depend on these functions, and on
-- functions whose text names them without a fingerprint.
CREATE FUNCTION uca_dependents(OUT kind pg_catalog.text, OUT object pg_catalog.text, OUT statement pg_catalog.text, OUT owner pg_catalog.regrole)
RETURNS SETOF pg_catalog.record LANGUAGE sql STABLE
SET search_path = pg_catalog, pg_temp SET jit = off AS $$
    WITH RECURSIVE own(class, object) AS (
        SELECT d.classid, d.objid FROM pg_extension e JOIN pg_depend d ON d.refclassid = 'pg_extension'::regclass AND d.refobjid = e.oid AND d.deptype = 'e'
        WHERE e.extname = 'uca'
    ), holds(type) AS (
        -- uca_text, and what has its values: domains, arrays, rows and ranges
        SELECT oid FROM own JOIN pg_type ON class = 'pg_type'::regclass AND object = oid WHERE typname = 'uca_text'
        UNION
        SELECT t.oid FROM holds h JOIN pg_type t ON h.type IN (t.typbasetype, t.typelem)
            OR EXISTS (SELECT FROM pg_attribute a WHERE a.attrelid = t.typrelid AND a.atttypid = h.type)
            OR EXISTS (SELECT FROM pg_range r WHERE t.oid IN (r.rngtypid, r.rngmultitypid) AND r.rngsubtype = h.type)
    ), start AS (
        -- Functions of the extension that read the files are in C. Others may call them, or compare values of uca_text.
        SELECT oid FROM pg_proc
        WHERE prosrc ~* '\muca_(key|check|any_key|range_low|range_high|prefix_low|prefix_high|expand|compact)\M' AND prosrc !~ '[0-9a-f]{64}'
            OR prosrc ~* '\muca_(text|text_[a-z_]+|begins)\M' AND prolang <> (SELECT oid FROM pg_language WHERE lanname = 'c')
            OR proargtypes::oid[] && (SELECT array_agg(type) FROM holds)
                AND NOT EXISTS (SELECT FROM own WHERE class = 'pg_proc'::regclass AND object = pg_proc.oid)
        UNION
        SELECT p.oid FROM own JOIN pg_proc p ON class = 'pg_proc'::regclass AND object = p.oid
        WHERE p.prolang = (SELECT oid FROM pg_language WHERE lanname = 'c') AND p.provolatile = 'i' AND 'fingerprint' <> ALL (coalesce(p.proargnames, '{}'))
    ), found(class, object, part, depth) AS (
        (SELECT 'pg_proc'::regclass::oid, oid, 0, 0 FROM start
         UNION ALL
         -- Arrays, rows and ranges of uca_text are ordered by operators of PostgreSQL itself.
         SELECT 'pg_class'::regclass::oid, c.oid, 0, 0
         FROM pg_index i JOIN pg_class c ON c.oid = i.indexrelid JOIN pg_am m ON m.oid = c.relam AND m.amname <> 'hash'
             JOIN pg_attribute a ON a.attrelid = c.oid AND a.attnum <= i.indnkeyatts JOIN holds ON type = a.atttypid
         UNION ALL
         SELECT 'pg_class'::regclass::oid, p.partrelid, 0, 0
         FROM pg_partitioned_table p JOIN pg_attribute a ON a.attrelid = p.partrelid AND a.attnum = ANY (p.partattrs) AND p.partstrat <> 'h'
             JOIN holds ON type = a.atttypid)
        UNION
        -- What depends on it, and what it is a part of, as a rule is of its view; in place of a default, its column. The depth counts
        -- materialized views, since one is made after those that it reads. Paths are not kept, since views over views have too many.
        SELECT CASE WHEN a.oid IS NULL THEN n.class ELSE 'pg_class'::regclass::oid END, coalesce(a.adrelid, n.object), coalesce(a.adnum, n.part),
            f.depth + (f.class = 'pg_rewrite'::regclass AND m.oid IS NOT NULL)::integer
        FROM found f LEFT JOIN pg_class c ON f.class = 'pg_class'::regclass AND c.oid = f.object
            JOIN LATERAL (
                SELECT d.classid, d.objid, d.objsubid FROM pg_depend d
                WHERE d.refclassid = f.class AND d.refobjid = f.object AND (f.part = 0 OR d.refobjsubid = f.part)
                    AND NOT EXISTS (SELECT FROM pg_rewrite r WHERE d.classid = 'pg_rewrite'::regclass AND r.oid = d.objid AND r.ev_class = c.oid)
                    AND (c.oid IS NULL OR c.relkind IN ('v', 'm') OR f.part > 0 AND d.classid = 'pg_rewrite'::regclass)
                UNION ALL
                SELECT d.refclassid, d.refobjid, 0 FROM pg_depend d
                WHERE d.classid = f.class AND d.objid = f.object AND d.deptype = 'i' AND c.oid IS NULL
            ) n(class, object, part) ON true
            LEFT JOIN pg_attrdef a ON n.class = 'pg_attrdef'::regclass AND a.oid = n.object
            LEFT JOIN pg_class m ON n.class = 'pg_class'::regclass AND m.oid = n.object AND m.relkind = 'm'
        WHERE f.depth <= (SELECT count(*) FROM pg_class WHERE relkind = 'm')
    ), once AS (SELECT class, object, part, max(depth) AS depth FROM found GROUP BY class, object, part),
    listed(place, depth, kind, object, statement, owner) AS (
        SELECT 1, depth, 'index', object::regclass::text, format('REINDEX INDEX %s', object::regclass), relowner
        FROM once JOIN pg_class c ON class = 'pg_class'::regclass AND c.oid = object WHERE relkind = 'i'
        UNION ALL
        -- A range of uca_text has its lesser end first.
        SELECT 2, depth, CASE WHEN attgenerated = 's' THEN 'generated column' WHEN atthasdef THEN 'default' ELSE 'column of ranges' END,
            format('%s.%I', attrelid::regclass, attname),
            -- It is computed again where a column that it reads is written. A trigger or a rule could leave out rows. A foreign key could
            -- refer to another row afterwards, whose new key is the old one of its row.
            (SELECT format('UPDATE ONLY %s SET %I = %I', attrelid::regclass, b.attname, b.attname)
             FROM pg_attrdef JOIN pg_depend d ON d.classid = 'pg_attrdef'::regclass AND d.objid = pg_attrdef.oid AND d.refclassid = 'pg_class'::regclass
                 JOIN pg_attribute b ON b.attrelid = adrelid AND b.attnum = d.refobjsubid
             WHERE adrelid = a.attrelid AND adnum = a.attnum AND a.attgenerated = 's' AND b.attnum <> a.attnum AND b.attnum > 0
                 AND b.attidentity <> 'a' AND relkind <> 'f'
                 AND NOT EXISTS (SELECT FROM pg_trigger WHERE tgrelid = adrelid AND tgtype & 16 <> 0 AND tgenabled <> 'D' AND NOT tgisinternal)
                 AND NOT EXISTS (SELECT FROM pg_rewrite WHERE ev_class = adrelid AND ev_type = '2' AND ev_enabled <> 'D')
                 AND NOT EXISTS (SELECT FROM pg_constraint WHERE contype = 'f' AND confrelid = adrelid AND a.attnum = ANY (confkey))
             ORDER BY b.attnum LIMIT 1), relowner
        FROM once JOIN pg_attribute a ON class = 'pg_class'::regclass AND part > 0 AND attrelid = object AND attnum = part
            JOIN pg_class c ON c.oid = attrelid AND (relkind <> 'p' OR attgenerated = '') AND (relkind NOT IN ('v', 'm') OR atthasdef)
        UNION ALL
        SELECT 3, depth, 'check', format('%I on %s', conname, coalesce(nullif(conrelid, 0)::regclass::text, contypid::regtype::text)),
            -- One that a parent has too is kept and not tested again, while the parent's is dropped and added. Nor is one tested that is NOT
            -- VALID or of a foreign table.
            CASE WHEN coninhcount > 0 OR NOT convalidated OR relkind = 'f' THEN NULL WHEN contypid = 0
            THEN format('ALTER TABLE %s DROP CONSTRAINT %I, ADD CONSTRAINT %I %s', conrelid::regclass, conname, conname, pg_get_constraintdef(k.oid))
            ELSE format('ALTER DOMAIN %s DROP CONSTRAINT %I; ALTER DOMAIN %s ADD CONSTRAINT %I %s',
                        contypid::regtype, conname, contypid::regtype, conname, pg_get_constraintdef(k.oid)) END,
            coalesce(relowner, typowner)
        FROM once JOIN pg_constraint k ON class = 'pg_constraint'::regclass AND k.oid = object
            LEFT JOIN pg_class c ON c.oid = conrelid LEFT JOIN pg_type t ON t.oid = contypid
        WHERE contype = 'c' AND (coninhcount = 0 OR coninhcount + conislocal::integer > 1)
        UNION ALL
        SELECT 4, depth, 'partitioned table', object::regclass::text, NULL, relowner
        FROM once JOIN pg_class c ON class = 'pg_class'::regclass AND c.oid = object WHERE relkind = 'p' AND part = 0
        UNION ALL
        -- One that is deeper than there are such views reads itself, by a function, or reads one that does.
        SELECT 5, depth, 'materialized view', object::regclass::text,
            CASE WHEN depth <= (SELECT count(*) FROM pg_class WHERE relkind = 'm') THEN format('REFRESH MATERIALIZED VIEW %s', object::regclass) END,
            relowner
        FROM once JOIN pg_class c ON class = 'pg_class'::regclass AND c.oid = object WHERE relkind = 'm' AND part = 0 AND relispopulated
        UNION ALL
        SELECT 6, 0, 'prepared transaction', gid, NULL, NULL FROM pg_prepared_xacts WHERE database = current_database()
    )
    SELECT kind, object, statement, owner::regrole FROM listed ORDER BY place, depth, object
$$;

-- an error that shows this list, unless it is NULL
CREATE FUNCTION uca_need_no_dependents(list pg_catalog.text) RETURNS boolean AS 'MODULE_PATHNAME', 'uca_need_no_dependents' LANGUAGE C STABLE;

-- Runs a statement with the rights of its object's owner, and returns it. So it runs no function of this owner as the caller. The caller
-- has to be a member of the owner's role, as a superuser is of each. The statement names functions as uca_dependents() sees them, with
-- pg_catalog alone. So it is read in the same way, and not with a schema of the caller's in which another role may have better ones.
CREATE FUNCTION uca_run(statement pg_catalog.text, owner pg_catalog.regrole) RETURNS pg_catalog.text AS 'MODULE_PATHNAME', 'uca_run_statement'
LANGUAGE C STRICT SET search_path = pg_catalog, pg_temp;
REVOKE EXECUTE ON FUNCTION uca_run(pg_catalog.text, pg_catalog.regrole) FROM PUBLIC;

-- From now on keys are made by the files and settings that the server has. It is an error where uca_dependents() has rows. If all of them
-- have statements, `again` runs these, in place of the error. It returns how many it has run. It takes away only fingerprints that it
-- has seen, so one that comes meanwhile stays. If `again` is NULL, it is as false.
CREATE FUNCTION uca_use_files(again boolean DEFAULT false) RETURNS bigint LANGUAGE sql SET row_security = off
BEGIN ATOMIC
    WITH change AS MATERIALIZED (
        SELECT FROM (
            SELECT pg_catalog.count(*) OPERATOR(pg_catalog.>) 0::bigint
                AND pg_catalog.bool_and(f.fingerprint OPERATOR(pg_catalog.=) uca_fingerprint()) AS is_same
            FROM uca_files f) s
        WHERE CASE WHEN s.is_same THEN false ELSE uca_need_no_dependents((
            SELECT pg_catalog.string_agg(d.kind OPERATOR(pg_catalog.||) ' ' OPERATOR(pg_catalog.||) d.object, ', ')
            FROM (SELECT * FROM uca_dependents() e WHERE again IS NOT TRUE OR e.statement IS NULL LIMIT 10) d)) END
    ), gone AS (
        DELETE FROM uca_files WHERE EXISTS (SELECT FROM change)
    )
    INSERT INTO uca_files SELECT uca_fingerprint() FROM change;
    SELECT pg_catalog.count(uca_run(d.statement, d.owner)) FROM uca_dependents() d WHERE again;
END;
REVOKE EXECUTE ON FUNCTION uca_use_files(boolean) FROM PUBLIC;

-- an error, unless this is the tag of the server's language
CREATE FUNCTION uca_need_language(tag pg_catalog.text) RETURNS boolean AS 'MODULE_PATHNAME', 'uca_need_language' LANGUAGE C STABLE;
REVOKE EXECUTE ON FUNCTION uca_need_language(pg_catalog.text) FROM PUBLIC;

-- The same as uca_use_files, where the server has the language of this tag. Else it is an error that says how it gets it: no statement changes
-- the language of a server that runs.
CREATE FUNCTION uca_use_language(tag pg_catalog.text, again boolean DEFAULT false) RETURNS bigint LANGUAGE sql
RETURN CASE WHEN uca_need_language(tag) THEN uca_use_files(again) END;
REVOKE EXECUTE ON FUNCTION uca_use_language(pg_catalog.text, boolean) FROM PUBLIC;
