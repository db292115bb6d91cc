/* Each allocation of SQLite and of the extension fails in turn, alone and with all after it.

     memory EXTENSION TABLE DATA FINGERPRINT BOOK FINGERPRINT EDITIONS FINGERPRINT

   The folder beside the extension has the same table as two editions of Polish. The files are those of examples/. The fingerprints are theirs, shifted, without the book and with it, and that of the table and the data
   file in the folder EDITIONS. Each statement is right then, or has an error, and the
   connection can be closed. Where one allocation failed, the connection can load all again, and each stored key is right. Where one
   failed in a comparison, no index is damaged, no row is lost, and a later transaction is committed. Prints a line for each check that
   fails, and how many runs there were. The status is 1 if one failed. */
#define _GNU_SOURCE
#include <dlfcn.h>
#include <errno.h>
#include <sqlite3.h>
#include <stdio.h>
#include <string.h>

#define ROOM 2048
#define OF_LANGUAGE "SELECT uca_use_language('pl', '16.0.0-cldr46', 'shifted')"
#define OF_NO_EDITION "SELECT uca_use_language('pl')"
#define CHECK(fact) check((fact), __LINE__, #fact)

static long asked, first_failing, last_failing, failed;
static int is_short;
static char load[ROOM], table[ROOM], word_index[ROOM], order[ROOM], wrong_keys[ROOM], rows[ROOM];
static char check_texts[ROOM], rejected[ROOM];
static char load_book[ROOM], is_made_again[ROOM], is_found[ROOM], *by_book; /* by_book is a fingerprint */
static char load_upgrade[ROOM], is_mended[ROOM], *next_edition;             /* and so is next_edition */
static unsigned char image[64 << 10]; /* of a database with these rows */
static sqlite3_int64 image_size;

/* A statement that compares, between two others, and how many rows they add. */
static const struct { const char *first, *statement, *last; int added; } COMPARISONS[] = {
    {"", "INSERT INTO rows VALUES ('bb')", "", 1},
    {"", "INSERT OR REPLACE INTO unique_rows VALUES ('bb')", "", 1},
    {"", "INSERT OR IGNORE INTO unique_rows VALUES ('bb')", "", 1},
    {"BEGIN", "INSERT INTO rows VALUES ('bb')", "COMMIT", 1},
    {"SAVEPOINT s", "INSERT OR REPLACE INTO unique_rows VALUES ('bb')", "RELEASE s", 1},
    {"BEGIN", "INSERT INTO rows VALUES ('bb')", "ROLLBACK", 0},
    {"", "SELECT count(*) FROM rows WHERE word > 'bb'", "", 0},
    {"BEGIN", "SELECT count(*) FROM rows WHERE word > 'bb'", "COMMIT", 0},
};

static int fails(void)
{
    asked++;
    int is_failing = is_short && first_failing <= asked && asked <= last_failing;
    if (is_failing) {
        errno = ENOMEM; /* as scandir reads it */
    }
    return is_failing;
}

void *malloc(size_t size)
{
    static void *(*next)(size_t);
    if (!next) {
        next = (void *(*)(size_t))dlsym(RTLD_NEXT, "malloc");
    }
    return fails() ? NULL : next(size);
}

void *realloc(void *block, size_t size)
{
    static void *(*next)(void *, size_t);
    if (!next) {
        next = (void *(*)(void *, size_t))dlsym(RTLD_NEXT, "realloc");
    }
    return fails() ? NULL : next(block, size);
}

static void check(int holds, int line, const char *what)
{
    if (!holds) {
        failed++;
        printf("memory.c:%d: %s, where allocations %ld to %ld fail\n", line, what, first_failing, last_failing);
    }
}

/* Compares what a statement prints with what is wanted. */
static int is_wanted(void *wanted, int count, char **values, char **names)
{
    (void)names;
    CHECK(count == 1 && values[0] && !strcmp(values[0], wanted));
    return 0;
}

/* Keeps the last value that a statement prints. */
static int keep(void *kept, int count, char **values, char **names)
{
    (void)count, (void)names;
    snprintf(kept, ROOM, "%s", values[0]);
    return 0;
}

static sqlite3 *open_database(void)
{
    sqlite3 *database;
    CHECK(sqlite3_open(":memory:", &database) == SQLITE_OK);
    CHECK(sqlite3_db_config(database, SQLITE_DBCONFIG_ENABLE_LOAD_EXTENSION, 1, NULL) == SQLITE_OK);
    return database;
}

static void close_database(sqlite3 *database)
{
    CHECK(sqlite3_close(database) == SQLITE_OK);
    CHECK(sqlite3_memory_used() == 0);
}

static void use(sqlite3 *database, const char *extension, char *fingerprint)
{
    if (sqlite3_load_extension(database, extension, NULL, NULL) == SQLITE_OK) {
        sqlite3_exec(database, load, is_wanted, fingerprint, NULL);
        sqlite3_exec(database, table, NULL, NULL, NULL);
        sqlite3_exec(database, "INSERT INTO words(word) VALUES ('bz'), ('bh'), ('b')", NULL, NULL, NULL);
        sqlite3_exec(database, word_index, NULL, NULL, NULL);
        sqlite3_exec(database, load_book, is_wanted, by_book, NULL);
        sqlite3_exec(database, is_made_again, is_wanted, "yes", NULL);
        sqlite3_exec(database, is_found, is_wanted, "yes", NULL);
        sqlite3_exec(database, load_upgrade, is_wanted, next_edition, NULL);
        sqlite3_exec(database, is_mended, is_wanted, "yes", NULL);
        sqlite3_exec(database, check_texts, is_wanted, "none Utf8 at 1", NULL);
        sqlite3_exec(database, rejected, is_wanted, "an error", NULL);
        sqlite3_exec(database, "SELECT uca_load('none', 'none')", is_wanted, "an error", NULL);
        sqlite3_exec(database, OF_LANGUAGE, is_wanted, fingerprint, NULL);
        sqlite3_exec(database, OF_NO_EDITION, is_wanted, "an error", NULL);
        sqlite3_exec(database, "SELECT uca_key('a', '')", is_wanted, "an error", NULL);
    }
}

/* The connection is used once more, with memory. */
static void use_again(sqlite3 *database, const char *extension, char *fingerprint)
{
    use(database, extension, fingerprint);
    CHECK(sqlite3_exec(database, "DELETE FROM words WHERE rowid > 3", NULL, NULL, NULL) == SQLITE_OK);
    CHECK(sqlite3_exec(database, order, is_wanted, "b bh bz", NULL) == SQLITE_OK);
    CHECK(sqlite3_exec(database, wrong_keys, is_wanted, "0", NULL) == SQLITE_OK);
    CHECK(sqlite3_exec(database, load_book, is_wanted, by_book, NULL) == SQLITE_OK);
    CHECK(sqlite3_exec(database, is_made_again, is_wanted, "yes", NULL) == SQLITE_OK);
    CHECK(sqlite3_exec(database, is_found, is_wanted, "yes", NULL) == SQLITE_OK);
    CHECK(sqlite3_exec(database, load_upgrade, is_wanted, next_edition, NULL) == SQLITE_OK);
    CHECK(sqlite3_exec(database, is_mended, is_wanted, "yes", NULL) == SQLITE_OK);
    CHECK(sqlite3_exec(database, check_texts, is_wanted, "none Utf8 at 1", NULL) == SQLITE_OK);
    CHECK(sqlite3_exec(database, rejected, is_wanted, "an error", NULL) == SQLITE_ERROR && !strcmp(sqlite3_errmsg(database), "uca_key: Utf8 at 1"));
    CHECK(sqlite3_exec(database, OF_LANGUAGE, is_wanted, fingerprint, NULL) == SQLITE_OK);
    CHECK(sqlite3_exec(database, OF_NO_EDITION, is_wanted, "an error", NULL) == SQLITE_ERROR && strstr(sqlite3_errmsg(database), "several editions"));
    CHECK(sqlite3_exec(database, "PRAGMA integrity_check", is_wanted, "ok", NULL) == SQLITE_OK);
}

/* A use in which these allocations fail. It returns how many there were. */
static long run(const char *extension, char *fingerprint, long first, long last)
{
    sqlite3 *database = open_database();
    asked = 0;
    first_failing = first;
    last_failing = last;
    is_short = 1;
    use(database, extension, fingerprint);
    is_short = 0;
    long count = asked;
    if (first == last) {
        use_again(database, extension, fingerprint);
    }
    close_database(database);
    return count;
}

static void make_image(const char *extension)
{
    sqlite3 *database = open_database();
    CHECK(sqlite3_load_extension(database, extension, NULL, NULL) == SQLITE_OK);
    CHECK(sqlite3_exec(database, load, NULL, NULL, NULL) == SQLITE_OK);
    CHECK(sqlite3_exec(database, rows, NULL, NULL, NULL) == SQLITE_OK);
    unsigned char *bytes = sqlite3_serialize(database, "main", &image_size, 0);
    CHECK(bytes && image_size <= (sqlite3_int64)sizeof image);
    memcpy(image, bytes, (size_t)image_size);
    sqlite3_free(bytes);
    close_database(database);
}

/* A connection that has compared nothing yet, with these rows. */
static sqlite3 *open_image(const char *extension, char *fingerprint)
{
    sqlite3 *database = open_database();
    unsigned char *bytes = sqlite3_malloc64((sqlite3_uint64)image_size);
    memcpy(bytes, image, (size_t)image_size);
    int flags = SQLITE_DESERIALIZE_FREEONCLOSE | SQLITE_DESERIALIZE_RESIZEABLE;
    CHECK(sqlite3_deserialize(database, "main", bytes, image_size, image_size, flags) == SQLITE_OK);
    CHECK(sqlite3_load_extension(database, extension, NULL, NULL) == SQLITE_OK);
    CHECK(sqlite3_exec(database, load, is_wanted, fingerprint, NULL) == SQLITE_OK);
    return database;
}

/* The statements of COMPARISONS at this position, where the allocations fail in the second one. It returns how many there were. After
   an error the rows are as they were, and the next row is added. */
static long compare(const char *extension, char *fingerprint, int at, long first, long last)
{
    sqlite3 *database = open_image(extension, fingerprint);
    char found[ROOM] = "4";
    int status = sqlite3_exec(database, COMPARISONS[at].first, NULL, NULL, NULL);
    asked = 0;
    first_failing = first;
    last_failing = last;
    is_short = 1;
    status |= sqlite3_exec(database, COMPARISONS[at].statement, keep, found, NULL);
    is_short = 0;
    CHECK(status || !strcmp(found, "4"));
    status |= sqlite3_exec(database, COMPARISONS[at].last, NULL, NULL, NULL);
    char *wanted = !status && COMPARISONS[at].added ? "13" : "12";
    if (!sqlite3_get_autocommit(database)) {
        CHECK(sqlite3_exec(database, "ROLLBACK", NULL, NULL, NULL) == SQLITE_OK);
    }
    CHECK(sqlite3_exec(database, "SELECT (SELECT count(*) FROM rows) + (SELECT count(*) FROM unique_rows)", is_wanted, wanted, NULL) == SQLITE_OK);
    CHECK(sqlite3_exec(database, "INSERT INTO rows VALUES ('bc')", NULL, NULL, NULL) == SQLITE_OK);
    CHECK(sqlite3_exec(database, "INSERT INTO unique_rows VALUES ('bc')", NULL, NULL, NULL) == SQLITE_OK);
    CHECK(sqlite3_exec(database, "PRAGMA integrity_check", is_wanted, "ok", NULL) == SQLITE_OK);
    close_database(database);
    return asked;
}

int main(int count, char **words)
{
    if (count != 9) {
        return 2;
    }
    char *extension = words[1], *used = words[4], *book = by_book = words[6];
    snprintf(load_book, ROOM, "SELECT uca_load('%s', '%s', 'shifted', '', '%s', '%s')", words[2], words[3], book, words[5]);
    snprintf(is_made_again, ROOM, "SELECT iif(uca_compact(uca_expand(uca_key('b-A', '%s'), '%s'), '%s') = uca_key('b-A', '%s'), 'yes', 'no')",
             book, book, book, book);
    snprintf(is_found, ROOM, "SELECT iif(uca_key('ab', '%s', 1) = uca_key('A-b', '%s', 1) AND uca_key('ab', '%s') >= uca_prefix_low('A', '%s')"
             " AND uca_key('ab', '%s') < uca_range_high('A-b', '%s', 2), 'yes', 'no')", book, book, book, book, book, book);
    next_edition = words[8];
    snprintf(load_upgrade, ROOM, "SELECT uca_load_upgrade('%s', '%s', '%s/table.txt', '%s/data.txt', '%s/changes.txt', '%s/certificate.txt', 'shifted', '', '%s')",
             words[2], words[3], words[7], words[7], words[7], words[7], used);
    snprintf(is_mended, ROOM, "SELECT iif(uca_affected('bach', '%s', '%s') AND NOT uca_affected('b', '%s', '%s')"
             " AND uca_rekey(uca_key('b', '%s'), '%s', '%s') = x'1C6100000020000000020000FFFF', 'yes', 'no')",
             used, next_edition, book, next_edition, book, book, next_edition);
    snprintf(check_texts, ROOM, "SELECT coalesce(uca_check('a', '%s'), 'none') || ' ' || uca_check(CAST(x'61FF' AS TEXT), '%s')", used, used);
    snprintf(rejected, ROOM, "SELECT uca_key(CAST(x'61FF' AS TEXT), '%s')", used);
    snprintf(load, ROOM, "SELECT uca_load('%s', '%s', 'shifted', '', '%s')", words[2], words[3], used);
    snprintf(table, ROOM, "CREATE TABLE IF NOT EXISTS words(word TEXT, key BLOB AS (uca_key(word, '%s')) STORED)", used);
    snprintf(word_index, ROOM, "CREATE INDEX IF NOT EXISTS by_word ON words(word COLLATE uca_%s)", used);
    snprintf(order, ROOM, "SELECT group_concat(word, ' ') FROM (SELECT word FROM words ORDER BY word COLLATE uca_%s)", used);
    snprintf(wrong_keys, ROOM, "SELECT count(*) FROM words WHERE key IS NOT uca_key(word, '%s')", used);
    snprintf(rows, ROOM, "CREATE TABLE rows(word TEXT COLLATE uca_%s); CREATE INDEX by_rows ON rows(word);"
             "CREATE TABLE unique_rows(word TEXT COLLATE uca_%s UNIQUE);"
             "INSERT INTO rows VALUES ('a'), ('b'), ('bh'), ('bz'), ('c'), ('d'); INSERT INTO unique_rows SELECT * FROM rows", used, used);
    long allocations = run(extension, used, 0, 0), runs = 2 * allocations;
    for (long n = 1; n <= allocations; n++) {
        run(extension, used, n, n);
        run(extension, used, n, n + 1000000);
    }
    make_image(extension);
    for (int at = 0; at < (int)(sizeof COMPARISONS / sizeof *COMPARISONS); at++) {
        long count = compare(extension, used, at, 0, 0);
        for (long n = 1; n <= count; n++) {
            compare(extension, used, at, n, n);
            compare(extension, used, at, n, n + 1000000);
        }
        runs += 2 * count;
    }
    printf("%ld runs, %ld checks failed\n", runs, failed);
    return failed != 0 || allocations == 0;
}
