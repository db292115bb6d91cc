/* The extension of PostgreSQL: sort keys of texts, by the files of the language that the setting uca.language names, or by those that
   uca.table_file and uca.data_file name. Where uca.book_file names a book, keys are compact by it. The settings uca.weighting,
   uca.identical and uca.numeric say how texts are compared.

   The server reads these files once, when it starts, so no setting and no file changes an order while it runs. But keys that a
   database keeps may come from an earlier start or from another server. So uca_key(text) compares the fingerprints in the
   database's table uca_files with the server's, and uca_key(text, fingerprint) compares the fingerprint that it is given. Where
   one is not the server's, the call is an error.

   The server may have the next edition of these files beside them: uca.next_table_file and uca.next_data_file, and what `uca changes`
   made of the four, uca.changes_file and uca.certificate_file. They are read and audited when it starts. Then uca_key(text, fingerprint)
   takes the fingerprint of either edition, uca_affected says whether a key has to be made again, and uca_rekey makes the next
   edition's key of another one. Both take the fingerprints of both editions. All that names no fingerprint stays with the present edition. */
#include "postgres.h"

#include <fcntl.h>
#include <sys/stat.h>
#include <unistd.h>

#include "access/genam.h"
#include "access/htup_details.h"
#include "access/table.h"
#include "access/tableam.h"
#include "access/xact.h"
#include "catalog/dependency.h"
#include "catalog/pg_class.h"
#include "catalog/pg_depend.h"
#include "catalog/pg_extension.h"
#include "catalog/pg_proc.h"
#include "catalog/pg_type.h"
#include "executor/spi.h"
#include "executor/tuptable.h"
#include "fmgr.h"
#include "lib/stringinfo.h"
#include "mb/pg_wchar.h"
#include "miscadmin.h"
#include "storage/proc.h"
#include "utils/acl.h"
#include "utils/builtins.h"
#include "utils/fmgroids.h"
#include "utils/guc.h"
#include "utils/lsyscache.h"
#include "utils/memutils.h"
#include "utils/rel.h"
#include "utils/snapmgr.h"

#include "uca_postgresql.h"

PG_MODULE_MAGIC;

void _PG_init(void);

/* Room for the keys of most texts: so many bytes, and six for each byte of a text. */
#define SPARE 64

/* The bytes that a bytea can have. */
#define MOST_VALUE (MaxAllocSize - VARHDRSZ)

/* A table, a data file or a book with more bytes is rejected. */
#define MOST_FILE (64 * 1024 * 1024)

#define DIGEST 32

/* The names of the files of an edition. */
typedef struct {
    char *table, *data, *book;
} Names;

static Names names, next_names;
static char *language, *language_edition;
static char *changes_name, *certificate_name;
static int weighting = UCA_BY_TABLE;
static bool identical = false, by_value = false;

static const struct config_enum_entry WEIGHTINGS[] = {
    {"table", UCA_BY_TABLE, false}, {"non-ignorable", UCA_NON_IGNORABLE, false}, {"shifted", UCA_SHIFTED, false}, {NULL, 0, false}};

/* The names of uca_kind, of uca_condition and of uca_place, as in docs/FORMATS.md. */
static const char *const KINDS[] = {"", "Line", "Order", "CodePoint", "Weight", "DuplicateKey", "Range", "Limit", "Read", "Memory",
                                    "Map Empty", "Map NotRising", "Map OutOfRange", "Map Fixed"};
static const char *const CONDITIONS[] = {"", "OldIllFormed", "NewIllFormed", "RangeChanged", "Uncovered",
                                         "RowChanged", "RowMissing", "RowExtra", "PointChanged", "SettingChanged"};
static const char *const PLACES[] = {"", " old row %u", " new row %u", " code point %04X"};

/* An edition: what keys are made by, the fingerprint of its files and settings in hexadecimal digits, and why it is closed. */
typedef struct {
    uca_collator collator;
    char fingerprint[2 * DIGEST + 1];
    bool has_book;
    char reason[REASON];
} Edition;

static Edition present = {UCA_CLOSED_COLLATOR, "", false, "uca: the server has not read the files of uca.table_file and uca.data_file"};
static Edition next = {UCA_CLOSED_COLLATOR, "", false, "uca: the server has no next edition: name it in uca.next_table_file and the other settings"};

/* From the present edition to the next one. It is open where both are. */
static uca_upgrade upgrade = UCA_CLOSED_UPGRADE;

/* The bytes of an edition's files. */
typedef struct {
    StringInfoData table, data, book;
} Files;

/* The last snapshot in which this process has seen its database to be for these files: its transaction, the one inside it, and what
   differs between two snapshots of one transaction if another transaction has ended or a command of its own has written. So a statement
   that may see other rows of uca_files looks at them anew. */
typedef struct {
    LocalTransactionId transaction;
    SubTransactionId inside;
    TransactionId end;
    uint32 running;
    int32 running_inside;
    CommandId commands;
} Seen;

static Seen checked = {InvalidLocalTransactionId, InvalidSubTransactionId, InvalidTransactionId, 0, 0, 0};

/* The bytes of an open file, or false and the reason. */
static bool read_open_file(const char *setting, FILE *file, StringInfo bytes, char *reason)
{
    struct stat about;
    size_t count;

    if (fstat(fileno(file), &about) != 0 || !S_ISREG(about.st_mode)) {
        snprintf(reason, REASON, "uca: %s does not name a regular file", setting);
        return false;
    }
    do {
        enlargeStringInfo(bytes, 65536);
        count = fread(bytes->data + bytes->len, 1, 65536, file);
        bytes->len += count;
    } while (count > 0 && bytes->len <= MOST_FILE);
    if (ferror(file))
        snprintf(reason, REASON, "uca: the file of %s cannot be read", setting);
    else if (bytes->len > MOST_FILE)
        snprintf(reason, REASON, "uca: the file of %s has more than %d bytes", setting, MOST_FILE);
    return !ferror(file) && bytes->len <= MOST_FILE;
}

/* The bytes of the file that a setting names, or false and the reason. It does not wait for a writer of a named pipe. */
static bool read_file(const char *setting, const char *name, StringInfo bytes, char *reason)
{
    int number = open(name, O_RDONLY | O_NONBLOCK | O_CLOEXEC);
    FILE *file = number < 0 ? NULL : fdopen(number, "rb");
    bool is_read;

    if (!file) {
        snprintf(reason, REASON, "uca: the file of %s cannot be read: %s", setting, strerror(errno));
        if (number >= 0)
            close(number);
        return false;
    }
    is_read = read_open_file(setting, file, bytes, reason);
    fclose(file);
    return is_read;
}

/* A uca_depth: how far texts are compared, and how their numbers are. */
static uint32 depth_asked(void)
{
    return (identical ? UCA_IDENTICAL : UCA_WEIGHTS) | (by_value ? UCA_NUMERIC : 0);
}

/* Makes the fingerprint of an edition's files and settings. */
static uint32 make_fingerprint(Edition *edition, Files *files, uint32 depth, uca_error *error)
{
    uint8 whole[DIGEST], compact[DIGEST];
    uint32 status = uca_fingerprint((uint8 *) files->table.data, files->table.len, (uint8 *) files->data.data, files->data.len, weighting, depth,
                                    whole, error);

    if (status == UCA_OK && edition->has_book)
        uca_compact_fingerprint(whole, (uint8 *) files->book.data, files->book.len, compact);
    if (status == UCA_OK)
        hex_encode((char *) (edition->has_book ? compact : whole), DIGEST, edition->fingerprint);
    return status;
}

/* Says that numbers are to be ordered by value, and the table of this role does not order them. The row is 0 if a digit has none. */
static void tell_digits(char *reason, const char *role, uint32 row)
{
    if (row)
        snprintf(reason, REASON, "uca: %s row %u: Digits", role, row);
    else
        snprintf(reason, REASON, "uca: %s: Digits", role);
}

/* Opens the collator of an edition by its files, or says why not. */
static void open_files(Edition *edition, Files *files)
{
    uint32 depth = depth_asked(), status;
    uca_error error = {0, 0};

    status = make_fingerprint(edition, files, depth, &error);
    if (status == UCA_OK && edition->has_book)
        status = uca_open_compact(&edition->collator, (uint8 *) files->table.data, files->table.len, (uint8 *) files->data.data, files->data.len,
                                  (uint8 *) files->book.data, files->book.len, weighting, depth, &error);
    else if (status == UCA_OK)
        status = uca_open(&edition->collator, (uint8 *) files->table.data, files->table.len, (uint8 *) files->data.data, files->data.len, weighting,
                          depth, &error);
    if (status == UCA_TABLE || status == UCA_DATA || status == UCA_BOOK)
        snprintf(edition->reason, REASON, "uca: %s%s line %u: %s", edition == &next ? "next " : "",
                 status == UCA_TABLE ? "table" : status == UCA_DATA ? "data" : "book", error.line, error.kind < lengthof(KINDS) ? KINDS[error.kind] : "");
    else if (status == UCA_DIGITS)
        tell_digits(edition->reason, edition == &next ? "next table" : "table", error.line);
    else if (status != UCA_OK)
        strlcpy(edition->reason, "uca: out of memory", REASON);
}

/* Reads the files of an edition, and opens its collator. */
static void read_edition(Edition *edition, Files *files, const Names *its)
{
    bool is_next = edition == &next;

    edition->has_book = *its->book;
    if (read_file(is_next ? "uca.next_table_file" : *language ? "uca.language (table.txt)" : "uca.table_file", its->table, &files->table,
                  edition->reason) &&
        read_file(is_next ? "uca.next_data_file" : *language ? "uca.language (data.txt)" : "uca.data_file", its->data, &files->data,
                  edition->reason) &&
        (!edition->has_book || read_file(is_next ? "uca.next_book_file" : "uca.book_file", its->book, &files->book, edition->reason)))
        open_files(edition, files);
}

/* Says why no upgrade is opened. */
static void tell_upgrade_error(uint32 status, const uca_upgrade_error *error)
{
    static const char *const ROLES[] = {"", "table", "data", "next table", "next data", "changes", "certificate"};
    int length;

    if (status == UCA_FILE)
        snprintf(next.reason, REASON, "uca: %s line %u: %s", ROLES[error->file], error->line, error->kind < lengthof(KINDS) ? KINDS[error->kind] : "");
    else if (status == UCA_DIGITS)
        tell_digits(next.reason, ROLES[error->file], error->line);
    else if (status == UCA_NOT_MET) {
        length = snprintf(next.reason, REASON, "uca: the audit rejects the next edition: %s", CONDITIONS[error->condition]);
        snprintf(next.reason + length, REASON - length, PLACES[error->place], error->number);
    } else
        strlcpy(next.reason, "uca: out of memory", REASON);
}

/* Opens the upgrade by the files of both editions and by those of its own settings, or says why not. */
static void read_upgrade(Files *old, Files *new)
{
    StringInfoData changes, certificate;
    uca_upgrade_error error = {0};
    uint32 status;

    initStringInfo(&changes);
    initStringInfo(&certificate);
    if (read_file("uca.changes_file", changes_name, &changes, next.reason) &&
        read_file("uca.certificate_file", certificate_name, &certificate, next.reason)) {
        status = uca_open_upgrade(&upgrade, (uint8 *) old->table.data, old->table.len, (uint8 *) old->data.data, old->data.len,
                                  (uint8 *) new->table.data, new->table.len, (uint8 *) new->data.data, new->data.len, (uint8 *) changes.data,
                                  changes.len, (uint8 *) certificate.data, certificate.len, weighting, depth_asked(),
                                  &error);
        if (status != UCA_OK)
            tell_upgrade_error(status, &error);
    }
    pfree(changes.data);
    pfree(certificate.data);
}

static void init_files(Files *files)
{
    initStringInfo(&files->table);
    initStringInfo(&files->data);
    initStringInfo(&files->book);
}

static void free_files(Files *files)
{
    pfree(files->table.data);
    pfree(files->data.data);
    pfree(files->book.data);
}

static bool has_next(void)
{
    return *next_names.table || *next_names.data || *next_names.book || *changes_name || *certificate_name;
}

static bool has_names(void)
{
    return *names.table || *names.data || *names.book || *language || *language_edition || has_next();
}

/* The names of the present edition's files: those of the settings, or those of a language. Otherwise it is false, and there is a reason. */
static bool find_names(Names *found)
{
    static char table[MOST_PATH], data[MOST_PATH];

    *found = names;
    if (!*language && !*language_edition)
        return true;
    found->table = table;
    found->data = data;
    if (*language && !*names.table && !*names.data)
        return find_language(language, language_edition, table, data, present.reason);
    strlcpy(present.reason, *language ? "uca: uca.language is set, so uca.table_file and uca.data_file may not be set" :
            "uca: uca.edition is set without uca.language", REASON);
    return false;
}

/* Reads the present edition, and then the next one, if there is one. */
static void read_files(void)
{
    Files old, new;
    Names found;

    init_files(&old);
    init_files(&new);
    if (find_names(&found))
        read_edition(&present, &old, &found);
    if (present.collator.is_open && has_next())
        read_edition(&next, &new, &next_names);
    if (next.collator.is_open)
        read_upgrade(&old, &new);
    if (!upgrade.is_open)
        uca_close(&next.collator);
    free_files(&old);
    free_files(&new);
}

static void define_name(const char *setting, const char *what, char **name)
{
    DefineCustomStringVariable(setting, what, NULL, name, "", PGC_POSTMASTER, 0, NULL, NULL, NULL);
}

/* A setting that names a file. It is read when the server starts, and only some roles see it. */
static void define_file(const char *setting, const char *what, char **name)
{
    DefineCustomStringVariable(setting, what, NULL, name, "", PGC_POSTMASTER, GUC_SUPERUSER_ONLY, NULL, NULL, NULL);
}

static void define_settings(void)
{
    define_name("uca.language", "The tag of the language, in place of a table and a data file.", &language);
    define_name("uca.edition", "The edition of the language's files, where there are several.", &language_edition);
    define_file("uca.table_file", "The weight table, in the format of allkeys.txt.", &names.table);
    define_file("uca.data_file", "The data file: combining classes and Han ranges.", &names.data);
    define_file("uca.book_file", "The book, by which keys are compact. Keys are whole without one.", &names.book);
    define_file("uca.next_table_file", "The weight table of the next edition.", &next_names.table);
    define_file("uca.next_data_file", "The data file of the next edition.", &next_names.data);
    define_file("uca.next_book_file", "The book of the next edition.", &next_names.book);
    define_file("uca.changes_file", "The changes between both editions, as uca changes prints them.", &changes_name);
    define_file("uca.certificate_file", "The certificate that uca changes writes.", &certificate_name);
    DefineCustomEnumVariable("uca.weighting", "How spaces and punctuation are weighted.", NULL, &weighting, UCA_BY_TABLE, WEIGHTINGS,
                             PGC_POSTMASTER, 0, NULL, NULL, NULL);
    DefineCustomBoolVariable("uca.identical", "Whether texts that are equal by all weights are ordered by their code points.", NULL,
                             &identical, false, PGC_POSTMASTER, 0, NULL, NULL, NULL);
    DefineCustomBoolVariable("uca.numeric", "Whether numbers are ordered by their values: 9 before 10.", NULL,
                             &by_value, false, PGC_POSTMASTER, 0, NULL, NULL, NULL);
}

void _PG_init(void)
{
    bool has_old_names;

    if (!process_shared_preload_libraries_in_progress)
        ereport(ERROR, (errcode(ERRCODE_OBJECT_NOT_IN_PREREQUISITE_STATE), errmsg("uca has to be loaded when the server starts"),
                        errhint("Add uca to shared_preload_libraries.")));
    define_settings();
    has_old_names = GetConfigOption("uca.table", true, false) || GetConfigOption("uca.data", true, false);
    MarkGUCPrefixReserved("uca");
    if (has_old_names)
        strlcpy(present.reason, "uca: the settings uca.table and uca.data are now uca.table_file and uca.data_file", REASON);
    else if (has_names())
        read_files();
    start_texts();
    if (!present.collator.is_open && (has_old_names || has_names()))
        ereport(WARNING, (errmsg("%s", present.reason)));
    else if (has_next() && !upgrade.is_open)
        ereport(WARNING, (errmsg("%s", next.reason)));
}

static void need_open(void)
{
    if (!present.collator.is_open)
        ereport(ERROR, (errcode(ERRCODE_CONFIG_FILE_ERROR), errmsg("%s", present.reason)));
    if (GetDatabaseEncoding() != PG_UTF8)
        ereport(ERROR, (errcode(ERRCODE_FEATURE_NOT_SUPPORTED), errmsg("uca needs a database with the encoding UTF8")));
}

/* The table uca_files of the extension that has this function, or InvalidOid. It is found by numbers, whatever the schemas are. */
static Oid files_of(Oid function)
{
    Oid extension = getExtensionOfObject(ProcedureRelationId, function), found = InvalidOid;
    Relation depends = table_open(DependRelationId, AccessShareLock);
    ScanKeyData keys[2];
    SysScanDesc scan;
    HeapTuple row;

    ScanKeyInit(&keys[0], Anum_pg_depend_refclassid, BTEqualStrategyNumber, F_OIDEQ, ObjectIdGetDatum(ExtensionRelationId));
    ScanKeyInit(&keys[1], Anum_pg_depend_refobjid, BTEqualStrategyNumber, F_OIDEQ, ObjectIdGetDatum(extension));
    scan = systable_beginscan(depends, DependReferenceIndexId, true, NULL, 2, keys);
    while (!OidIsValid(found) && HeapTupleIsValid(row = systable_getnext(scan))) {
        Form_pg_depend it = (Form_pg_depend) GETSTRUCT(row);
        char *name = it->classid == RelationRelationId ? get_rel_name(it->objid) : NULL;

        if (name && strcmp(name, "uca_files") == 0)
            found = it->objid;
    }
    systable_endscan(scan);
    table_close(depends, AccessShareLock);
    return found;
}

/* Opens that table. Numbers that were found are kept, until their table is dropped. */
static Relation open_files_of(Oid function)
{
    static struct {
        Oid function, table;
    } kept[16];
    Oid *known_function = &kept[function % lengthof(kept)].function, *known_table = &kept[function % lengthof(kept)].table;
    Relation files = function == *known_function ? try_table_open(*known_table, AccessShareLock) : NULL;

    if (!files) {
        *known_table = files_of(function);
        *known_function = function;
        if (!OidIsValid(*known_table))
            ereport(ERROR, (errcode(ERRCODE_OBJECT_NOT_IN_PREREQUISITE_STATE), errmsg("uca: the extension has no table uca_files")));
        files = table_open(*known_table, AccessShareLock);
    }
    if (RelationGetDescr(files)->natts != 1 || TupleDescAttr(RelationGetDescr(files), 0)->atttypid != TEXTOID)
        ereport(ERROR, (errcode(ERRCODE_OBJECT_NOT_IN_PREREQUISITE_STATE),
                        errmsg("uca: this database has the extension of an earlier version"),
                        errhint("DROP EXTENSION uca CASCADE, then CREATE EXTENSION uca, and make all keys and indexes on keys again.")));
    return files;
}

static void need_upgrade(void)
{
    need_open();
    if (!upgrade.is_open)
        ereport(ERROR, (errcode(ERRCODE_CONFIG_FILE_ERROR), errmsg("%s", next.reason)));
}

/* Whether a text is the fingerprint of an open edition. */
static bool is_fingerprint(const text *given, const Edition *edition)
{
    return edition->collator.is_open && VARSIZE_ANY_EXHDR(given) == 2 * DIGEST &&
           memcmp(VARDATA_ANY(given), edition->fingerprint, 2 * DIGEST) == 0;
}

/* The first 100 bytes of a text, or one to three less, so that no character is cut. */
static char *beginning_of(const text *given)
{
    const char *bytes = VARDATA_ANY(given);

    return pnstrdup(bytes, pg_mbcliplen(bytes, VARSIZE_ANY_EXHDR(given), 100));
}

/* A fingerprint of uca_files that is not the server's, or NULL if there is none. It reads the table itself, not by a statement. So it
   needs no rights of the caller, and no plan. */
static char *other_fingerprint(Oid function, Snapshot now)
{
    Relation files = open_files_of(function);
    Snapshot snapshot = RegisterSnapshot(now);
    TupleTableSlot *slot = table_slot_create(files, NULL);
    TableScanDesc scan = table_beginscan(files, snapshot, 0, NULL);
    char *other = NULL;
    int64 rows = 0;

    while (!other && table_scan_getnextslot(scan, ForwardScanDirection, slot)) {
        bool is_null;
        Datum value = slot_getattr(slot, 1, &is_null);

        rows++;
        if (is_null || !is_fingerprint(DatumGetTextPP(value), &present))
            other = is_null ? "none" : beginning_of(DatumGetTextPP(value));
    }
    table_endscan(scan);
    ExecDropSingleTupleTableSlot(slot);
    UnregisterSnapshot(snapshot);
    table_close(files, AccessShareLock);
    return rows == 0 ? "none" : other;
}

/* A fingerprint of the database that is not the server's, or NULL: uca_files has rows, and each is the server's. */
static char *found_other(Oid function)
{
    Snapshot now = ActiveSnapshotSet() ? GetActiveSnapshot() : GetTransactionSnapshot();
    Seen seen = {MyProc->lxid, GetCurrentSubTransactionId(), now->xmax, now->xcnt, now->subxcnt, now->curcid};
    char *other;

    if (checked.transaction == seen.transaction && checked.inside == seen.inside && checked.end == seen.end &&
        checked.running == seen.running && checked.running_inside == seen.running_inside && checked.commands == seen.commands)
        return NULL;
    other = other_fingerprint(function, now);
    if (!other)
        checked = seen;
    return other;
}

void need_files(Oid function)
{
    char *other;

    need_open();
    other = found_other(function);
    if (other)
        ereport(ERROR, (errcode(ERRCODE_OBJECT_NOT_IN_PREREQUISITE_STATE),
                        errmsg("uca: the server has other files or settings than those by which this database's keys were made"),
                        errdetail("The database's fingerprint is %s. The server's is %s.", other, present.fingerprint),
                        errhint("Give the server the old files and settings. Or call uca_use_files(again => true), which makes "
                                "again what uca_dependents() lists.")));
}

bool has_its_files(Oid function)
{
    return present.collator.is_open && GetDatabaseEncoding() == PG_UTF8 && !found_other(function);
}

bool has_numbers_by_value(void)
{
    return by_value;
}

bool is_too_long(const struct varlena *given)
{
    const char *bytes = VARDATA_ANY(given);
    size_t length = VARSIZE_ANY_EXHDR(given), counted = length;

    if (by_value && length > MOST_TEXT)
        for (size_t i = 0; i < length; i++)
            counted -= bytes[i] == '0';
    return counted > MOST_TEXT;
}

uca_collator *present_collator(void)
{
    return &present.collator;
}

bool has_present_book(void)
{
    return present.has_book;
}

/* An argument that is a fingerprint, and not NULL. */
static text *fingerprint_argument(FunctionCallInfo fcinfo, int argument)
{
    if (PG_ARGISNULL(argument))
        ereport(ERROR, (errcode(ERRCODE_NULL_VALUE_NOT_ALLOWED), errmsg("uca: the fingerprint is NULL")));
    return PG_GETARG_TEXT_PP(argument);
}

static void others_named_error(const text *given)
{
    ereport(ERROR, (errcode(ERRCODE_OBJECT_NOT_IN_PREREQUISITE_STATE),
                    errmsg("uca: the server has other files or settings than those that are named"),
                    errdetail("The named fingerprint is %s. The server's is %s%s%s.", beginning_of(given), present.fingerprint,
                              next.collator.is_open ? ", and its next one is " : "", next.collator.is_open ? next.fingerprint : "")));
}

/* The edition that the second argument, a fingerprint, names. */
static Edition *named_edition(FunctionCallInfo fcinfo)
{
    text *given;
    Edition *edition;

    need_open();
    given = fingerprint_argument(fcinfo, 1);
    edition = is_fingerprint(given, &present) ? &present : is_fingerprint(given, &next) ? &next : NULL;
    if (!edition)
        others_named_error(given);
    return edition;
}

/* The second argument has to name the present edition, and the third one the next. */
static void need_both_editions(FunctionCallInfo fcinfo)
{
    need_upgrade();
    if (!is_fingerprint(fingerprint_argument(fcinfo, 1), &present))
        others_named_error(PG_GETARG_TEXT_PP(1));
    if (!is_fingerprint(fingerprint_argument(fcinfo, 2), &next))
        others_named_error(PG_GETARG_TEXT_PP(2));
}

/* A value with room for so many bytes. */
static bytea *new_value(size_t room)
{
    if (room > MOST_VALUE)
        ereport(ERROR, (errcode(ERRCODE_PROGRAM_LIMIT_EXCEEDED), errmsg("uca: the key has more bytes than a bytea can have")));
    return palloc(VARHDRSZ + room);
}

/* What a value is made of: a text, or a key. */
typedef enum { KEY, RANGE, COMPACT_KEY, EXPANDED_KEY, REKEYED } Made;

/* What is made, and by which edition. The range and its end are those of uca_range. */
typedef struct {
    Made made;
    uint32 range, end;
    Edition *edition;
} Request;

static uint32 try_make(const Request *asked, const uint8 *bytes, size_t length, uint8 *out, size_t room, size_t *needed)
{
    uca_collator *collator = &asked->edition->collator;

    switch (asked->made) {
    case KEY:
        return uca_key(collator, bytes, length, out, room, needed);
    case RANGE:
        return uca_range(collator, bytes, length, asked->range, asked->end, out, room, needed);
    case COMPACT_KEY:
        return uca_compact(collator, bytes, length, out, room, needed);
    case EXPANDED_KEY:
        return uca_expand(collator, bytes, length, out, room, needed);
    case REKEYED:
        return uca_rekey(&upgrade, bytes, length, out, room, needed);
    }
    return UCA_ARGUMENT;
}

/* Writes what is asked for after so many bytes of a new value, and returns its status. */
static uint32 write_value(const Request *asked, const struct varlena *given, size_t before, bytea **value)
{
    const uint8 *bytes = (const uint8 *) VARDATA_ANY(given);
    size_t length = VARSIZE_ANY_EXHDR(given), room = Min(6 * length + SPARE, MOST_VALUE - before), needed = 0;
    uint32 status;

    if (asked->made == KEY || asked->made == RANGE) {
        if (is_too_long(given))
            return UCA_TOO_LONG;
        room = 6 * Min(length, MOST_TEXT) + SPARE;
    }
    *value = new_value(before + room);
    status = try_make(asked, bytes, length, (uint8 *) VARDATA(*value) + before, room, &needed);
    if (status == UCA_SMALL) {
        pfree(*value);
        room = needed;
        *value = new_value(before + room);
        status = try_make(asked, bytes, length, (uint8 *) VARDATA(*value) + before, room, &needed);
    }
    if (status == UCA_MEMORY)
        ereport(ERROR, (errcode(ERRCODE_OUT_OF_MEMORY), errmsg("uca: out of memory")));
    SET_VARSIZE(*value, VARHDRSZ + before + needed);
    return status;
}

/* Whether a text is accepted, as a status, and the position of its error. */
static uint32 check_text(Edition *edition, const struct varlena *given, size_t *position)
{
    uint32 status = UCA_TOO_LONG;

    if (!is_too_long(given))
        status = uca_check_text(&edition->collator, (const uint8 *) VARDATA_ANY(given), VARSIZE_ANY_EXHDR(given), position);
    if (status == UCA_MEMORY)
        ereport(ERROR, (errcode(ERRCODE_OUT_OF_MEMORY), errmsg("uca: out of memory")));
    return status;
}

/* Why a text is rejected, and where if there is a position: "LongRun at 1". */
static char *why_rejected(uint32 status, size_t position)
{
    if (status == UCA_TOO_LONG)
        return pstrdup("TooLong");
    return psprintf("%s at %zu", status == UCA_UTF8 ? "Utf8" : "LongRun", position);
}

/* The error of a status of what was asked for of these bytes. */
static void value_error(const Request *asked, const struct varlena *given, uint32 status)
{
    Made made = asked->made;
    size_t position = 0;

    if (status == UCA_NO_BOOK)
        ereport(ERROR, (errcode(ERRCODE_OBJECT_NOT_IN_PREREQUISITE_STATE), errmsg("uca: the server has no book, so its keys are whole"),
                        errhint("Name a book in uca.book_file, or in uca.next_book_file for the next edition, and start the server again.")));
    if (status == UCA_NO_KEY || status == UCA_NO_IMAGE)
        ereport(ERROR, (errcode(ERRCODE_INVALID_BINARY_REPRESENTATION),
                        errmsg("uca: the bytes are rejected: %s", made == REKEYED ? "NoImage" : made == EXPANDED_KEY ? "NoCompactKey" : "OtherKey")));
    status = check_text(asked->edition, given, &position);
    ereport(ERROR, (errcode(ERRCODE_INVALID_TEXT_REPRESENTATION), errmsg("uca: the text is rejected: %s", why_rejected(status, position))));
}

/* What is asked for of some bytes. */
static bytea *value_of_bytes(const Request *asked, const struct varlena *given)
{
    bytea *value;
    uint32 status = write_value(asked, given, 0, &value);

    if (status != UCA_OK)
        value_error(asked, given, status);
    return value;
}

/* What is asked for of the first argument. */
static Datum value_of(FunctionCallInfo fcinfo, Request asked)
{
    struct varlena *given = PG_DETOAST_DATUM_PACKED(PG_GETARG_DATUM(0));
    bytea *value = value_of_bytes(&asked, given);

    PG_FREE_IF_COPY(given, 0);
    PG_RETURN_BYTEA_P(value);
}

static Datum any_key_of(FunctionCallInfo fcinfo, Edition *edition)
{
    Request asked = {KEY, 0, 0, edition};
    text *given = PG_GETARG_TEXT_PP(0);
    size_t length = VARSIZE_ANY_EXHDR(given);
    bytea *value;

    if (write_value(&asked, given, 1, &value) == UCA_OK)
        *VARDATA(value) = 0;
    else {
        value = new_value(1 + length);
        SET_VARSIZE(value, VARHDRSZ + 1 + length);
        *VARDATA(value) = 1;
        memcpy(VARDATA(value) + 1, VARDATA_ANY(given), length);
    }
    PG_FREE_IF_COPY(given, 0);
    PG_RETURN_BYTEA_P(value);
}

/* Why the first argument is rejected, or NULL. */
static Datum check_of(FunctionCallInfo fcinfo, Edition *edition)
{
    text *given = PG_GETARG_TEXT_PP(0);
    size_t position = 0;
    uint32 status = check_text(edition, given, &position);

    PG_FREE_IF_COPY(given, 0);
    if (status == UCA_OK)
        PG_RETURN_NULL();
    PG_RETURN_TEXT_P(cstring_to_text(why_rejected(status, position)));
}

/* The next edition's key of a key of the present one. Each is compact where its edition has a book. */
static Datum rekeyed_of(FunctionCallInfo fcinfo)
{
    Request expanded = {EXPANDED_KEY, 0, 0, &present}, rekeyed = {REKEYED, 0, 0, &present}, compact = {COMPACT_KEY, 0, 0, &next};
    struct varlena *given = PG_DETOAST_DATUM_PACKED(PG_GETARG_DATUM(0));
    struct varlena *whole = present.has_book ? value_of_bytes(&expanded, given) : given;
    bytea *value = value_of_bytes(&rekeyed, whole);

    if (next.has_book) {
        bytea *before = value;

        value = value_of_bytes(&compact, before);
        pfree(before);
    }
    if (whole != given)
        pfree(whole);
    PG_FREE_IF_COPY(given, 0);
    PG_RETURN_BYTEA_P(value);
}

/* Whether the key of a text has to be made again. A text that is rejected has no key, as uca_key says then. */
static Datum affected_of(FunctionCallInfo fcinfo)
{
    text *given = PG_GETARG_TEXT_PP(0);
    size_t length = VARSIZE_ANY_EXHDR(given);
    uint32 affected = 1, status = UCA_TOO_LONG;

    if (!is_too_long(given))
        status = uca_affected(&upgrade, (const uint8 *) VARDATA_ANY(given), length, &affected);
    if (status == UCA_MEMORY)
        ereport(ERROR, (errcode(ERRCODE_OUT_OF_MEMORY), errmsg("uca: out of memory")));
    PG_FREE_IF_COPY(given, 0);
    PG_RETURN_BOOL(status != UCA_OK || affected);
}

/* An end of the range of keys with the first levels of a text. This argument is how many. */
static Request levels_request(FunctionCallInfo fcinfo, int argument, uint32 end, Edition *edition)
{
    int32 levels = PG_GETARG_INT32(argument);
    Request asked = {RANGE, levels == 1 ? UCA_SAME_LETTERS : UCA_SAME_ACCENTS, end, edition};

    if (levels != 1 && levels != 2)
        ereport(ERROR, (errcode(ERRCODE_INVALID_PARAMETER_VALUE), errmsg("uca: the number of levels is %d, and not 1 or 2", levels)));
    return asked;
}

/* By the files of the database, which are those of the present edition. The function is STRICT. */
static Datum value_by_files(FunctionCallInfo fcinfo, Made made, uint32 range, uint32 end)
{
    Request asked = {made, range, end, &present};

    need_files(fcinfo->flinfo->fn_oid);
    return value_of(fcinfo, asked);
}

static Datum levels_by_files(FunctionCallInfo fcinfo, uint32 end)
{
    need_files(fcinfo->flinfo->fn_oid);
    return value_of(fcinfo, levels_request(fcinfo, 1, end, &present));
}

/* By the files that the fingerprint names. A fingerprint that is NULL is an error, and another argument that is NULL makes NULL. */
static Datum value_by_fingerprint(FunctionCallInfo fcinfo, Made made, uint32 range, uint32 end)
{
    Request asked = {made, range, end, named_edition(fcinfo)};

    if (PG_ARGISNULL(0))
        PG_RETURN_NULL();
    return value_of(fcinfo, asked);
}

static Datum levels_by_fingerprint(FunctionCallInfo fcinfo, uint32 end)
{
    Edition *edition = named_edition(fcinfo);

    if (PG_ARGISNULL(0) || PG_ARGISNULL(2))
        PG_RETURN_NULL();
    return value_of(fcinfo, levels_request(fcinfo, 2, end, edition));
}

#define FUNCTION(name, value)   \
    PG_FUNCTION_INFO_V1(name);  \
    Datum name(PG_FUNCTION_ARGS) \
    {                           \
        return value;           \
    }

/* uca_key(text) and uca_key(text, fingerprint) return bytea: the sort key. A text that is rejected is an error. */
FUNCTION(uca_key_of_text, value_by_files(fcinfo, KEY, 0, 0))
FUNCTION(uca_key_by_fingerprint, value_by_fingerprint(fcinfo, KEY, 0, 0))

/* uca_range_low(text, levels) and uca_range_high(text, levels) return bytea: both ends of the keys with as many first levels as the text
   has. uca_key(text, levels) is the low end. A fingerprint may come before the levels. */
FUNCTION(uca_range_low_of_text, levels_by_files(fcinfo, UCA_LOW))
FUNCTION(uca_range_high_of_text, levels_by_files(fcinfo, UCA_HIGH))
FUNCTION(uca_range_low_by_fingerprint, levels_by_fingerprint(fcinfo, UCA_LOW))
FUNCTION(uca_range_high_by_fingerprint, levels_by_fingerprint(fcinfo, UCA_HIGH))

/* uca_prefix_low(text) and uca_prefix_high(text) return bytea: both ends of the keys whose level 1 begins with the letters of the text. A
   fingerprint may come after the text. */
FUNCTION(uca_prefix_low_of_text, value_by_files(fcinfo, RANGE, UCA_BEGINS, UCA_LOW))
FUNCTION(uca_prefix_high_of_text, value_by_files(fcinfo, RANGE, UCA_BEGINS, UCA_HIGH))
FUNCTION(uca_prefix_low_by_fingerprint, value_by_fingerprint(fcinfo, RANGE, UCA_BEGINS, UCA_LOW))
FUNCTION(uca_prefix_high_by_fingerprint, value_by_fingerprint(fcinfo, RANGE, UCA_BEGINS, UCA_HIGH))

/* uca_expand(bytea) returns bytea: the whole key of a compact key. uca_compact(bytea) makes that compact again. A fingerprint may come
   after the key. */
FUNCTION(uca_expand_key, value_by_files(fcinfo, EXPANDED_KEY, 0, 0))
FUNCTION(uca_compact_key, value_by_files(fcinfo, COMPACT_KEY, 0, 0))
FUNCTION(uca_expand_by_fingerprint, value_by_fingerprint(fcinfo, EXPANDED_KEY, 0, 0))
FUNCTION(uca_compact_by_fingerprint, value_by_fingerprint(fcinfo, COMPACT_KEY, 0, 0))

/* uca_any_key(text) and uca_any_key(text, fingerprint) return bytea: a byte 0 and the sort key, or a byte 1 and the bytes of a text that is
   rejected. */
PG_FUNCTION_INFO_V1(uca_any_key_of_text);
Datum uca_any_key_of_text(PG_FUNCTION_ARGS)
{
    need_files(fcinfo->flinfo->fn_oid);
    return any_key_of(fcinfo, &present);
}

PG_FUNCTION_INFO_V1(uca_any_key_by_fingerprint);
Datum uca_any_key_by_fingerprint(PG_FUNCTION_ARGS)
{
    Edition *edition = named_edition(fcinfo);

    if (PG_ARGISNULL(0))
        PG_RETURN_NULL();
    return any_key_of(fcinfo, edition);
}

/* uca_check(text) and uca_check(text, fingerprint) return text: why a text is rejected, and where, or NULL. */
PG_FUNCTION_INFO_V1(uca_check_of_text);
Datum uca_check_of_text(PG_FUNCTION_ARGS)
{
    need_files(fcinfo->flinfo->fn_oid);
    return check_of(fcinfo, &present);
}

PG_FUNCTION_INFO_V1(uca_check_by_fingerprint);
Datum uca_check_by_fingerprint(PG_FUNCTION_ARGS)
{
    Edition *edition = named_edition(fcinfo);

    if (PG_ARGISNULL(0))
        PG_RETURN_NULL();
    return check_of(fcinfo, edition);
}

/* uca_affected(text, fingerprint, next_fingerprint) returns boolean: whether the key of the text has to be made again for the next edition.
   uca_rekey(bytea, fingerprint, next_fingerprint) returns bytea: the next edition's key of the key of another text. */
PG_FUNCTION_INFO_V1(uca_affected_by_fingerprints);
Datum uca_affected_by_fingerprints(PG_FUNCTION_ARGS)
{
    need_both_editions(fcinfo);
    if (PG_ARGISNULL(0))
        PG_RETURN_NULL();
    return affected_of(fcinfo);
}

PG_FUNCTION_INFO_V1(uca_rekey_by_fingerprints);
Datum uca_rekey_by_fingerprints(PG_FUNCTION_ARGS)
{
    need_both_editions(fcinfo);
    if (PG_ARGISNULL(0))
        PG_RETURN_NULL();
    return rekeyed_of(fcinfo);
}

/* uca_next_fingerprint() returns text: that of the next edition, which the server has read and audited. */
PG_FUNCTION_INFO_V1(uca_fingerprint_of_next_files);
Datum uca_fingerprint_of_next_files(PG_FUNCTION_ARGS)
{
    need_upgrade();
    PG_RETURN_TEXT_P(cstring_to_text(next.fingerprint));
}

/* uca_fingerprint() returns text: that of the files and settings that the server has read. */
PG_FUNCTION_INFO_V1(uca_fingerprint_of_files);
Datum uca_fingerprint_of_files(PG_FUNCTION_ARGS)
{
    need_open();
    PG_RETURN_TEXT_P(cstring_to_text(present.fingerprint));
}

/* uca_need_no_dependents(text) returns boolean: true for NULL. Otherwise it is an error, which shows this list of dependents. */
PG_FUNCTION_INFO_V1(uca_need_no_dependents);
Datum uca_need_no_dependents(PG_FUNCTION_ARGS)
{
    if (!PG_ARGISNULL(0))
        ereport(ERROR, (errcode(ERRCODE_DEPENDENT_OBJECTS_STILL_EXIST),
                        errmsg("uca: this database keeps keys of other files or settings than the server's"),
                        errdetail("%s", text_to_cstring(PG_GETARG_TEXT_PP(0))),
                        errhint("Drop what uca_dependents() lists, call uca_use_files(), and make it again, in one transaction. Where each of its "
                                "rows has a statement, uca_use_files(again => true) runs them.")));
    PG_RETURN_BOOL(true);
}

/* The error that the server has another language than this one, or none. It has what an administrator runs before the next start, and why
   that start would find no files of this language, if it would not. */
static void other_language_error(const char *tag)
{
    char table[MOST_PATH], data[MOST_PATH], reason[REASON];
    bool has_files = find_language(tag, language_edition, table, data, reason);
    const char *unnamed = *names.table || *names.data ? "ALTER SYSTEM SET uca.table_file = ''; ALTER SYSTEM SET uca.data_file = ''; " : "";

    ereport(ERROR, (errcode(ERRCODE_OBJECT_NOT_IN_PREREQUISITE_STATE),
                    *language ? errmsg("uca: the server's language is %s, and not %s", language, tag)
                              : errmsg("uca: the server has no language in uca.language, and so not %s", tag),
                    has_files ? 0 : errdetail("%s", reason + strlen("uca: ")),
                    errhint("%sALTER SYSTEM SET uca.language = %s; then start the server again, and repeat this statement.", unnamed,
                            quote_literal_cstr(tag))));
}

/* uca_need_language(text) returns boolean: true for the tag of the server's language. Another one, or NULL, is an error. */
PG_FUNCTION_INFO_V1(uca_need_language);
Datum uca_need_language(PG_FUNCTION_ARGS)
{
    char *tag;

    if (PG_ARGISNULL(0))
        ereport(ERROR, (errcode(ERRCODE_NULL_VALUE_NOT_ALLOWED), errmsg("uca: the language is NULL")));
    tag = text_to_cstring(PG_GETARG_TEXT_PP(0));
    if (!is_language(tag))
        ereport(ERROR, (errcode(ERRCODE_INVALID_PARAMETER_VALUE),
                        errmsg("uca: the language is not letters and digits with single hyphens between them")));
    if (strcmp(tag, language) != 0)
        other_language_error(tag);
    PG_RETURN_BOOL(true);
}

/* uca_run(text, regrole) returns text: it runs this statement as this role, and returns it. What the statement sets ends with it. After
   an error, PostgreSQL restores all of this. */
PG_FUNCTION_INFO_V1(uca_run_statement);
Datum uca_run_statement(PG_FUNCTION_ARGS)
{
    char *statement = text_to_cstring(PG_GETARG_TEXT_PP(0));
    Oid owner = PG_GETARG_OID(1), caller;
    int context, level;

    check_is_member_of_role(GetUserId(), owner);
    GetUserIdAndSecContext(&caller, &context);
    SetUserIdAndSecContext(owner, context | SECURITY_RESTRICTED_OPERATION);
    level = NewGUCNestLevel();
    if (SPI_connect() != SPI_OK_CONNECT || SPI_execute(statement, false, 0) < 0 || SPI_finish() != SPI_OK_FINISH)
        elog(ERROR, "uca: the statement cannot be run: %s", statement);
    AtEOXact_GUC(false, level);
    SetUserIdAndSecContext(caller, context);
    PG_RETURN_DATUM(PG_GETARG_DATUM(0));
}
