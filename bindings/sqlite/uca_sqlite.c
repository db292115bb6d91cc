/* A loadable extension of SQLite.

     SELECT uca_load('table.txt', 'data.txt' [, weighting [, depth [, fingerprint [, book]]]]);

   reads the files for this connection, and returns their fingerprint: 64 hexadecimal digits of what uca_fingerprint in uca.h makes,
   or uca_compact_fingerprint where there is a book. The weighting is 'shifted' or 'non-ignorable', and else that of the table. The
   depth is 'weights', 'identical', 'numeric' or 'identical numeric'. With 'numeric', numbers are ordered by their
   values: 'file 9' comes before 'file 10'. A book is a file too, and keys are compact by it. An empty text or NULL in
   place of one of these is as if it were not there. Where a fingerprint is given, the files and settings have to have
   it. 'unchecked' is none. Say the fingerprint is e7f5..:

     uca_key(text, 'e7f5..')                  the sort key, a blob; NULL for NULL; an error for a blob, for a real number, and for a text
                                              that is rejected, with the position: uca_key: LongRun at 1
     uca_key(text, 'e7f5..', levels)          the key through 1 or 2 levels: of letters, or of letters and accents
     uca_range_low(text, 'e7f5..', levels)    where the keys begin whose first levels are those of the text, as many as for uca_key
     uca_range_high(text, 'e7f5..', levels)   where they end: these keys are from the low end up to, and without, the high end
     uca_prefix_low(text, 'e7f5..')           where the keys begin whose level 1 begins with the letters of the text
     uca_prefix_high(text, 'e7f5..')          where they end
     uca_check(text, 'e7f5..')                NULL where uca_key takes it, as for NULL; else a text that says why not, and where: Utf8 at 0,
                                              LongRun at 1, TooLong; a blob, not a text; a real number, not a text
     uca_expand(key, 'e7f5..')                the whole key of a compact key; uca_compact(key, 'e7f5..') makes that compact again
     COLLATE uca_e7f5..                       the order of uca_order: texts in their order, and after them all that is no text or is
                                              rejected, by its bytes

   Each use says by which files. So an index, a generated column or a CHECK keeps the fingerprint in the schema, and where these
   files are not loaded, it is an error. No name means "the files that are loaded". A connection may load several, and keeps all.

     SELECT uca_use_language('de-u-co-phonebk' [, edition [, weighting [, depth [, fingerprint [, 'book']]]]]);

   does so with the files of a language, which uca_language.c finds in the folders that an administrator has filled. An edition is named
   where there are several. With 'book', keys are compact by the book of the language.

     SELECT uca_load_upgrade('old.txt', 'old_data.txt', 'new.txt', 'new_data.txt', 'changes', 'certificate'
                             [, weighting [, depth [, fingerprint]]]);

   reads the six files of an upgrade of stored keys for this connection, and audits them. It returns the fingerprint of the new table
   and data file. The weighting, the depth and the fingerprint are those of the stored keys, so the fingerprint is that of the old
   table and data file. Say they are e7f5.. and d8c5..:

     uca_affected(text, 'e7f5..', 'd8c5..')   1 where the key has to be made again, by uca_key(text, 'd8c5..'), as for a text that is
                                              rejected; else 0; NULL for NULL; an error for a blob and for a real number
     uca_rekey(key, 'e7f5..', 'd8c5..')       the new key of the old key of a text that is not affected; NULL for NULL

   A fingerprint may also be that of compact keys, where uca_load has loaded it. Then uca_rekey takes or makes these. Where no such
   upgrade is loaded, both are an error. One that is loaded stays: another one of the same fingerprints does not take its place.

   A collation cannot return an error. Where memory runs out in a comparison, the statement is interrupted. An INSERT of one row may
   end before that, so hooks reject the commit of a transaction that has written. */
#define _POSIX_C_SOURCE 200809L
#include "uca.h"
#include "uca_language.h"

#include <errno.h>
#include <fcntl.h>
#include <pthread.h>
#include <sqlite3ext.h>
#include <string.h>
#include <sys/stat.h>
#include <unistd.h>
SQLITE_EXTENSION_INIT1

#define DIGITS 64
#define DIGEST 32
#define MOST_BYTES (64 << 20) /* of a file: 64 MiB */

/* stands for no fingerprint */
#define UNCHECKED "unchecked"

#define KEY_FLAGS (SQLITE_UTF8 | SQLITE_DETERMINISTIC | SQLITE_INNOCUOUS)
/* What two upgrades of the same fingerprints make of an affected text, or of its key, may differ. So no index and no generated column may
   have it. */
#define UPGRADE_FLAGS (SQLITE_UTF8 | SQLITE_INNOCUOUS)
/* No schema may read files. SQLite lets a DIRECTONLY function into a CHECK, unless it is DETERMINISTIC. */
#define LOAD_FLAGS (SQLITE_UTF8 | SQLITE_DETERMINISTIC | SQLITE_DIRECTONLY)

/* The collators of some files and their settings, which share a table. A collator is in one call at a time. So the thread that loaded
   the files has one of its own, which needs no lock, and all other threads have one under the lock of the connection. These are threads
   in which SQLite sorts after PRAGMA threads, or those that the connection has moved to. The id of a thread is a number on Linux, and
   two threads that run have different ones. A thread that has the id of one that has ended may take its collator: SQLite joins the
   threads in which it sorts, and the user of a connection orders its calls. */
typedef struct loaded {
    uca_collator collator; /* of the owner */
    uca_collator other;    /* of all other threads */
    pthread_t owner;
    char fingerprint[DIGITS + 1];
    char whole[DIGITS + 1]; /* that of whole keys, which is another one where there is a book */
    struct connection *connection;
    struct loaded *next;
} loaded;

/* An upgrade, and the fingerprints of whole keys from which and to which it goes. */
typedef struct upgrade {
    uca_upgrade upgrade;
    char from[DIGITS + 1], to[DIGITS + 1];
    struct upgrade *next;
} upgrade;

/* Memory for a key. */
typedef struct room {
    uint8_t *bytes;
    size_t size, length; /* the length is that of the key */
} room;

/* What a connection has loaded, and memory for keys. Its functions and collations share it, and the last of them frees it. */
typedef struct connection {
    sqlite3 *database;
    loaded *first;
    upgrade *first_upgrade;
    room rooms[2];
    int users;
    int is_lost; /* a comparison in the transaction that writes had no memory */
    int has_hooks;
    pthread_mutex_t lock; /* of the collators that several threads use */
    struct connection *next;
} connection;

/* The connections that have all functions, and their lock. */
static connection *first_connection;
static pthread_mutex_t connections_lock = PTHREAD_MUTEX_INITIALIZER;

typedef struct file {
    uint8_t *bytes; /* NULL for no file */
    size_t length;
} file;

/* What a collator is opened by. */
typedef struct files {
    const char *name; /* of the function that reads them */
    file table, data, book;
    uint32_t weighting, depth;
} files;

/* The files of an upgrade, in the order of uca_open_upgrade. */
enum { UPGRADE_FILES = 6 };

/* What a function makes of its first argument. */
typedef enum made { KEY, RANGE, COMPACT_KEY, EXPANDED_KEY, REKEYED } made;

typedef struct request {
    const char *name; /* of the function */
    made made;
    uint32_t range, end; /* those of uca_range */
} request;

/* What a key is made by: an upgrade where it is put through one, else a collator. */
typedef struct maker {
    loaded *loaded;
    upgrade *upgrade;
} maker;

/* How a stored key becomes a new one. The collators are NULL unless they have books. */
typedef struct way {
    loaded *from, *to;
    upgrade *upgrade;
} way;

static void remember(connection *here)
{
    pthread_mutex_lock(&connections_lock);
    here->next = first_connection;
    first_connection = here;
    pthread_mutex_unlock(&connections_lock);
}

static int is_remembered(const sqlite3 *database)
{
    pthread_mutex_lock(&connections_lock);
    const connection *it = first_connection;
    while (it && it->database != database) {
        it = it->next;
    }
    pthread_mutex_unlock(&connections_lock);
    return it != NULL;
}

/* Takes a connection out, if it is among them. */
static void forget(const connection *here)
{
    pthread_mutex_lock(&connections_lock);
    connection **it = &first_connection;
    while (*it && *it != here) {
        it = &(*it)->next;
    }
    if (*it) {
        *it = here->next;
    }
    pthread_mutex_unlock(&connections_lock);
}

static void free_loaded(loaded *it)
{
    uca_close(&it->collator);
    uca_close(&it->other);
    sqlite3_free(it);
}

static void let_go(void *data)
{
    connection *here = data;
    if (--here->users > 0) {
        return;
    }
    forget(here);
    while (here->first) {
        loaded *it = here->first;
        here->first = it->next;
        free_loaded(it);
    }
    while (here->first_upgrade) {
        upgrade *it = here->first_upgrade;
        here->first_upgrade = it->next;
        uca_close_upgrade(&it->upgrade);
        sqlite3_free(it);
    }
    if (here->has_hooks) {
        sqlite3_commit_hook(here->database, NULL, NULL);
        sqlite3_rollback_hook(here->database, NULL, NULL);
    }
    sqlite3_free(here->rooms[0].bytes);
    sqlite3_free(here->rooms[1].bytes);
    sqlite3_free(here);
}

static void let_go_of_collation(void *data)
{
    let_go(((loaded *)data)->connection);
}

/* Ends a call with an error, whose text it frees. */
static void give_error(sqlite3_context *context, char *text)
{
    if (text) {
        sqlite3_result_error(context, text, -1);
    } else {
        sqlite3_result_error_nomem(context);
    }
    sqlite3_free(text);
}

static const uint8_t *bytes_at(const void *at)
{
    return at ? at : (const uint8_t *)"";
}

/* A hook of the commit. SQLite rolls back what it rejects. */
static int reject_lost(void *data)
{
    connection *here = data;
    int is_lost = here->is_lost;
    here->is_lost = 0;
    return is_lost;
}

/* A hook of the rollback. */
static void forget_lost(void *data)
{
    ((connection *)data)->is_lost = 0;
}

/* After a comparison without memory. Where the transaction has written nothing, no hook is called at its end, and none is needed.
   A thread that only sorts does not get the mutex. It sorts many rows, so the statement meets the interrupt. */
static void lose(connection *here)
{
    sqlite3_mutex *mutex = sqlite3_db_mutex(here->database);
    sqlite3_interrupt(here->database);
    if (sqlite3_mutex_try(mutex) != SQLITE_OK) {
        return;
    }
    if (sqlite3_txn_state(here->database, NULL) == SQLITE_TXN_WRITE) {
        here->is_lost = here->has_hooks = 1;
        sqlite3_commit_hook(here->database, reject_lost, here);
        sqlite3_rollback_hook(here->database, forget_lost, here);
    }
    sqlite3_mutex_leave(mutex);
}

/* A collator for a call of this thread. */
static inline uca_collator *take(loaded *it)
{
    if (pthread_equal(it->owner, pthread_self())) {
        return &it->collator;
    }
    pthread_mutex_lock(&it->connection->lock);
    return &it->other;
}

static inline void give_back(loaded *it, const uca_collator *taken)
{
    if (taken == &it->other) {
        pthread_mutex_unlock(&it->connection->lock);
    }
}

static int collate(void *data, int left_length, const void *left, int right_length, const void *right)
{
    loaded *it = data;
    int32_t order;
    uca_collator *taken = take(it);
    uint32_t status = uca_order(taken, bytes_at(left), (size_t)left_length, bytes_at(right), (size_t)right_length, &order);
    give_back(it, taken);
    if (status != UCA_OK) {
        lose(it->connection);
    }
    return order;
}

static int is_fingerprint(const char *text, size_t length)
{
    return length == DIGITS && strspn(text, "0123456789abcdef") == DIGITS;
}

static loaded *find(const connection *here, const char *fingerprint)
{
    loaded *it = here->first;
    while (it && strcmp(it->fingerprint, fingerprint)) {
        it = it->next;
    }
    return it;
}

static void not_loaded_error(sqlite3_context *context, const char *name, const char *fingerprint)
{
    const connection *here = sqlite3_user_data(context);
    char *text = sqlite3_mprintf("%s: the files of fingerprint %s are not loaded; loaded:%s", name, fingerprint, here->first ? "" : " none");
    for (const loaded *it = here->first; it && text; it = it->next) {
        text = sqlite3_mprintf("%z %s", text, it->fingerprint);
    }
    give_error(context, text);
}

/* The text of an argument that has to be a fingerprint, or NULL after an error. `which` names the argument. */
static const char *fingerprint_of(sqlite3_context *context, const char *name, const char *which, sqlite3_value *value)
{
    const char *fingerprint = sqlite3_value_type(value) == SQLITE_TEXT ? (const char *)sqlite3_value_text(value) : "";
    if (!fingerprint) {
        sqlite3_result_error_nomem(context);
    } else if (!is_fingerprint(fingerprint, (size_t)sqlite3_value_bytes(value))) {
        give_error(context, sqlite3_mprintf("%s: the %s argument is no fingerprint of 64 lower-case hexadecimal digits", name, which));
        fingerprint = NULL;
    }
    return fingerprint;
}

/* What is loaded by this fingerprint, or NULL after an error. */
static loaded *find_value(sqlite3_context *context, const char *name, sqlite3_value *value)
{
    const char *fingerprint = fingerprint_of(context, name, "second", value);
    loaded *it = fingerprint ? find(sqlite3_user_data(context), fingerprint) : NULL;
    if (fingerprint && !it) {
        not_loaded_error(context, name, fingerprint);
    }
    return it;
}

static int is_text_error(uint32_t status)
{
    return status == UCA_UTF8 || status == UCA_TOO_LONG || status == UCA_LONG_RUN;
}

/* Whether a text is accepted, as a status, and the position of its error. */
static uint32_t check_text(loaded *it, const uint8_t *bytes, size_t length, size_t *position)
{
    uca_collator *taken = take(it);
    uint32_t status = uca_check_text(taken, bytes, length, position);
    give_back(it, taken);
    return status;
}

/* Why a text is rejected, and where if there is a position: "LongRun at 1". It is NULL if memory runs out, and the caller frees it. */
static char *why_rejected(uint32_t status, size_t position)
{
    if (status == UCA_TOO_LONG) {
        return sqlite3_mprintf("TooLong");
    }
    return sqlite3_mprintf("%s at %llu", status == UCA_UTF8 ? "Utf8" : "LongRun", (unsigned long long)position);
}

/* Ends a call with the error of a status. The bytes are what the call was given. */
static void status_error(sqlite3_context *context, const request *asked, loaded *it, uint32_t status, const uint8_t *bytes, size_t length)
{
    size_t position;
    if (is_text_error(status)) {
        status = check_text(it, bytes, length, &position); /* the same, or out of memory */
        char *why = is_text_error(status) ? why_rejected(status, position) : NULL;
        give_error(context, why ? sqlite3_mprintf("%s: %z", asked->name, why) : NULL);
    } else if (status == UCA_NO_IMAGE) {
        give_error(context, sqlite3_mprintf("%s: NoImage", asked->name));
    } else if (status == UCA_NO_KEY) {
        give_error(context, sqlite3_mprintf("%s: %s", asked->name, asked->made == EXPANDED_KEY ? "NoCompactKey" : "OtherKey"));
    } else if (status == UCA_NO_BOOK) {
        give_error(context, sqlite3_mprintf("%s: the files of fingerprint %s have no book", asked->name, it->fingerprint));
    } else {
        sqlite3_result_error_nomem(context);
    }
}

static uint32_t make_by(uca_collator *collator, const request *asked, const uint8_t *bytes, size_t length, room *out)
{
    switch (asked->made) {
    case KEY: return uca_key(collator, bytes, length, out->bytes, out->size, &out->length);
    case RANGE: return uca_range(collator, bytes, length, asked->range, asked->end, out->bytes, out->size, &out->length);
    case COMPACT_KEY: return uca_compact(collator, bytes, length, out->bytes, out->size, &out->length);
    case EXPANDED_KEY: return uca_expand(collator, bytes, length, out->bytes, out->size, &out->length);
    case REKEYED: break; /* needs an upgrade */
    }
    return UCA_ARGUMENT;
}

/* A connection calls one function at a time, and nothing else has an upgrade. So that needs no lock. */
static uint32_t try_make(maker by, const request *asked, const uint8_t *bytes, size_t length, room *out)
{
    if (asked->made == REKEYED) {
        return uca_rekey(&by.upgrade->upgrade, bytes, length, out->bytes, out->size, &out->length);
    }
    uca_collator *taken = take(by.loaded);
    uint32_t status = make_by(taken, asked, bytes, length, out);
    give_back(by.loaded, taken);
    return status;
}

/* Makes what is asked for of these bytes, in a room that has to be another one. It returns 0 after an error. */
static int fill(sqlite3_context *context, maker by, const request *asked, const uint8_t *bytes, size_t length, room *out)
{
    uint32_t status = try_make(by, asked, bytes, length, out);
    if (status == UCA_SMALL) {
        size_t size = 2 * out->length;
        uint8_t *more = sqlite3_realloc64(out->bytes, size);
        if (!more) {
            sqlite3_result_error_nomem(context);
            return 0;
        }
        out->bytes = more;
        out->size = size;
        status = try_make(by, asked, bytes, length, out);
    }
    if (status != UCA_OK) {
        status_error(context, asked, by.loaded, status, bytes, length);
    }
    return status == UCA_OK;
}

/* What a value of this type is in place of a key, or NULL for a blob. */
static const char *what_is_no_key(int type)
{
    return type == SQLITE_BLOB ? NULL : "no blob, so it is no key";
}

/* What a value of this type is in place of a text, or NULL. Which text a blob is depends on the encoding of the database, and which
   digits a real number has depends on the version of SQLite. */
static const char *what_is_no_text(int type)
{
    return type == SQLITE_BLOB ? "a blob, not a text" : type == SQLITE_FLOAT ? "a real number, not a text" : NULL;
}

/* The bytes of a text or of a key, and how many. They are NULL after an error, and for NULL. */
static const uint8_t *bytes_of(sqlite3_context *context, const char *name, sqlite3_value *value, int is_key, size_t *length)
{
    int type = sqlite3_value_type(value);
    const char *what = type == SQLITE_NULL ? NULL : is_key ? what_is_no_key(type) : what_is_no_text(type);
    if (what) {
        give_error(context, sqlite3_mprintf("%s: the first argument is %s", name, what));
    }
    if (what || type == SQLITE_NULL) {
        return NULL;
    }
    const uint8_t *bytes = is_key ? sqlite3_value_blob(value) : sqlite3_value_text(value);
    *length = (size_t)sqlite3_value_bytes(value);
    if (!bytes && (!is_key || *length > 0)) {
        sqlite3_result_error_nomem(context);
        return NULL;
    }
    return bytes_at(bytes);
}

/* Returns what a function makes of a value by a fingerprint. */
static void make(sqlite3_context *context, sqlite3_value *value, sqlite3_value *fingerprint, const request *asked)
{
    connection *here = sqlite3_user_data(context);
    room *out = &here->rooms[0];
    size_t length;
    loaded *it = find_value(context, asked->name, fingerprint);
    const uint8_t *bytes = it ? bytes_of(context, asked->name, value, asked->made == COMPACT_KEY || asked->made == EXPANDED_KEY, &length) : NULL;
    if (bytes && fill(context, (maker){it, NULL}, asked, bytes, length, out)) {
        sqlite3_result_blob64(context, out->bytes, out->length, SQLITE_TRANSIENT);
    }
}

/* Returns an end of the range of keys with the first levels of a text. The last value is how many. */
static void make_levels(sqlite3_context *context, sqlite3_value **values, const char *name, uint32_t end)
{
    sqlite3_int64 levels = sqlite3_value_type(values[2]) == SQLITE_INTEGER ? sqlite3_value_int64(values[2]) : 0;
    if (levels == 1 || levels == 2) {
        make(context, values[0], values[1], &(request){name, RANGE, levels == 1 ? UCA_SAME_LETTERS : UCA_SAME_ACCENTS, end});
    } else {
        give_error(context, sqlite3_mprintf("%s: the third argument is not 1 or 2, as a number of levels is", name));
    }
}

static void make_key(sqlite3_context *context, int count, sqlite3_value **values)
{
    if (count == 3) {
        make_levels(context, values, "uca_key", UCA_LOW);
    } else {
        make(context, values[0], values[1], &(request){"uca_key", KEY, 0, 0});
    }
}

/* Returns why uca_key does not take a value, and where, or NULL. */
static void make_check(sqlite3_context *context, int count, sqlite3_value **values)
{
    size_t length, position;
    (void)count;
    loaded *it = find_value(context, "uca_check", values[1]);
    const char *what = what_is_no_text(sqlite3_value_type(values[0]));
    if (it && what) {
        sqlite3_result_text(context, what, -1, SQLITE_STATIC);
        return;
    }
    const uint8_t *bytes = it ? bytes_of(context, "uca_check", values[0], 0, &length) : NULL;
    uint32_t status = bytes ? check_text(it, bytes, length, &position) : UCA_OK;
    char *why = is_text_error(status) ? why_rejected(status, position) : NULL;
    if (why) {
        sqlite3_result_text(context, why, -1, sqlite3_free);
    } else if (status != UCA_OK) {
        sqlite3_result_error_nomem(context);
    }
}

static void make_range_low(sqlite3_context *context, int count, sqlite3_value **values)
{
    (void)count;
    make_levels(context, values, "uca_range_low", UCA_LOW);
}

static void make_range_high(sqlite3_context *context, int count, sqlite3_value **values)
{
    (void)count;
    make_levels(context, values, "uca_range_high", UCA_HIGH);
}

static void make_prefix_low(sqlite3_context *context, int count, sqlite3_value **values)
{
    (void)count;
    make(context, values[0], values[1], &(request){"uca_prefix_low", RANGE, UCA_BEGINS, UCA_LOW});
}

static void make_prefix_high(sqlite3_context *context, int count, sqlite3_value **values)
{
    (void)count;
    make(context, values[0], values[1], &(request){"uca_prefix_high", RANGE, UCA_BEGINS, UCA_HIGH});
}

static void make_compact(sqlite3_context *context, int count, sqlite3_value **values)
{
    (void)count;
    make(context, values[0], values[1], &(request){"uca_compact", COMPACT_KEY, 0, 0});
}

static void make_expanded(sqlite3_context *context, int count, sqlite3_value **values)
{
    (void)count;
    make(context, values[0], values[1], &(request){"uca_expand", EXPANDED_KEY, 0, 0});
}

/* What is loaded by this fingerprint, if keys are compact by it. */
static loaded *with_book(const connection *here, const char *fingerprint)
{
    loaded *it = find(here, fingerprint);
    return it && strcmp(it->fingerprint, it->whole) ? it : NULL;
}

static upgrade *find_upgrade(const connection *here, const char *from, const char *to)
{
    upgrade *it = here->first_upgrade;
    while (it && (strcmp(it->from, from) || strcmp(it->to, to))) {
        it = it->next;
    }
    return it;
}

/* The way from the keys of one fingerprint to those of another one, the last two arguments. It returns 0 after an error. */
static int find_way(sqlite3_context *context, const char *name, sqlite3_value **values, way *found)
{
    const connection *here = sqlite3_user_data(context);
    const char *from = fingerprint_of(context, name, "second", values[1]);
    const char *to = from ? fingerprint_of(context, name, "third", values[2]) : NULL;
    if (!to) {
        return 0;
    }
    found->from = with_book(here, from);
    found->to = with_book(here, to);
    found->upgrade = find_upgrade(here, found->from ? found->from->whole : from, found->to ? found->to->whole : to);
    if (!found->upgrade) {
        char *text = sqlite3_mprintf("%s: no upgrade from the fingerprint %s to %s is loaded; loaded:%s", name, from, to, here->first_upgrade ? "" : " none");
        for (const upgrade *it = here->first_upgrade; it && text; it = it->next) {
            text = sqlite3_mprintf("%z %s to %s", text, it->from, it->to);
        }
        give_error(context, text);
    }
    return found->upgrade != NULL;
}

/* Returns whether the key of a text has to be made again. A text that is rejected has no key, as uca_key says then. */
static void make_affected(sqlite3_context *context, int count, sqlite3_value **values)
{
    way by;
    size_t length;
    uint32_t affected;
    (void)count;
    const uint8_t *bytes = find_way(context, "uca_affected", values, &by) ? bytes_of(context, "uca_affected", values[0], 0, &length) : NULL;
    if (!bytes) {
        return;
    }
    uint32_t status = uca_affected(&by.upgrade->upgrade, bytes, length, &affected);
    if (status == UCA_OK) {
        sqlite3_result_int(context, (int)affected);
    } else if (is_text_error(status)) {
        sqlite3_result_int(context, 1);
    } else {
        sqlite3_result_error_nomem(context);
    }
}

/* Returns the new key of an old one. A compact key is made whole before, and one of a book is made compact after. */
static void make_rekeyed(sqlite3_context *context, int count, sqlite3_value **values)
{
    static const request FIRST = {"uca_rekey", EXPANDED_KEY, 0, 0}, THEN = {"uca_rekey", REKEYED, 0, 0}, LAST = {"uca_rekey", COMPACT_KEY, 0, 0};
    connection *here = sqlite3_user_data(context);
    room *whole = &here->rooms[0], *rekeyed = &here->rooms[1], *out = rekeyed;
    way by;
    size_t length;
    (void)count;
    const uint8_t *bytes = find_way(context, "uca_rekey", values, &by) ? bytes_of(context, "uca_rekey", values[0], 1, &length) : NULL;
    if (!bytes) {
        return;
    }
    if (by.from) {
        if (!fill(context, (maker){by.from, NULL}, &FIRST, bytes, length, whole)) {
            return;
        }
        bytes = whole->bytes;
        length = whole->length;
    }
    if (!fill(context, (maker){NULL, by.upgrade}, &THEN, bytes, length, rekeyed)) {
        return;
    }
    if (by.to) {
        out = whole;
        if (!fill(context, (maker){by.to, NULL}, &LAST, rekeyed->bytes, rekeyed->length, out)) {
            return;
        }
    }
    sqlite3_result_blob64(context, out->bytes, out->length, SQLITE_TRANSIENT);
}

/* Reads the bytes of an open file of this size, and returns NULL, or why not. There is room for one byte more. */
static const char *read_bytes(int number, uint8_t *bytes, size_t size)
{
    size_t length = 0;
    ssize_t count;
    while ((count = read(number, bytes + length, size + 1 - length)) > 0) {
        length += (size_t)count;
    }
    return count < 0 ? "it cannot be read" : length != size ? "it changed while it was read" : NULL;
}

/* The bytes of a file, which the caller frees, or NULL after an error. A pipe or a device is not read, and nothing waits for it. */
static file read_file(sqlite3_context *context, const char *name, const char *role, const char *path)
{
    file it = {NULL, 0};
    struct stat about;
    int number = open(path, O_RDONLY | O_NONBLOCK | O_NOCTTY | O_CLOEXEC);
    const char *why = number >= 0 ? NULL : errno == ENOENT || errno == ENOTDIR ? "it is not found" : "it cannot be opened";
    if (!why && fstat(number, &about)) {
        why = "it cannot be read";
    } else if (!why && !S_ISREG(about.st_mode)) {
        why = "it is not a regular file";
    } else if (!why && about.st_size > MOST_BYTES) {
        why = "it is too large: more than 64 MiB";
    } else if (!why && (it.bytes = sqlite3_malloc64((sqlite3_uint64)about.st_size + 1))) {
        it.length = (size_t)about.st_size;
        why = read_bytes(number, it.bytes, it.length);
    }
    if (number >= 0) {
        close(number);
    }
    if (why) {
        sqlite3_free(it.bytes);
        it.bytes = NULL;
        give_error(context, sqlite3_mprintf("%s: the %s %!.200Q: %s", name, role, path, why));
    } else if (!it.bytes) {
        sqlite3_result_error_nomem(context);
    }
    return it;
}

/* The names of uca_kind and of uca_upgrade_file, as docs/FORMATS.md has them. */
static const char *const KINDS[] = {"", "Line", "Order", "CodePoint", "Weight", "DuplicateKey", "Range", "Limit", "Read", "Memory",
                                    "Map Empty", "Map NotRising", "Map OutOfRange", "Map Fixed"};
static const char *const ROLES[] = {"", "old table", "old data file", "new table", "new data file", "file of changes", "certificate"};

/* Numbers are to be ordered by value, and the table of this role does not order them. The row is 0 if a digit has none. */
static void digits_error(sqlite3_context *context, const char *name, const char *role, uint32_t row)
{
    give_error(context, row ? sqlite3_mprintf("%s: the %s: row %u: Digits", name, role, row) : sqlite3_mprintf("%s: the %s: Digits", name, role));
}

static void open_error(sqlite3_context *context, const char *name, uint32_t status, const uca_error *error)
{
    const char *role = status == UCA_TABLE ? "table" : status == UCA_DATA ? "data file" : status == UCA_BOOK ? "book" : NULL;
    if (role && error->kind != UCA_KIND_MEMORY) {
        give_error(context, sqlite3_mprintf("%s: the %s: line %u: %s", name, role, error->line, KINDS[error->kind]));
    } else if (status == UCA_DIGITS) {
        digits_error(context, name, "table", error->line);
    } else {
        sqlite3_result_error_nomem(context);
    }
}

static uint32_t open_collator(uca_collator *collator, const files *by, uca_error *error)
{
    const file *table = &by->table, *data = &by->data, *book = &by->book;
    if (!book->bytes) {
        return uca_open(collator, table->bytes, table->length, data->bytes, data->length, by->weighting, by->depth, error);
    }
    return uca_open_compact(collator, table->bytes, table->length, data->bytes, data->length, book->bytes, book->length, by->weighting,
                            by->depth, error);
}

/* Adds a collator of the files and its collation. It returns 0 after an error. */
static int add(sqlite3_context *context, const files *by, const char *fingerprint, const char *whole)
{
    connection *here = sqlite3_user_data(context);
    char name[sizeof "uca_" + DIGITS];
    uca_error error;
    loaded *it = sqlite3_malloc64(sizeof *it);
    if (!it) {
        sqlite3_result_error_nomem(context);
        return 0;
    }
    *it = (loaded){.owner = pthread_self(), .connection = here, .next = here->first};
    memcpy(it->fingerprint, fingerprint, sizeof it->fingerprint);
    memcpy(it->whole, whole, sizeof it->whole);
    sqlite3_snprintf(sizeof name, name, "uca_%s", fingerprint);
    uint32_t status = open_collator(&it->collator, by, &error);
    if (status == UCA_OK) {
        status = uca_share(&it->collator, &it->other);
    }
    if (status != UCA_OK) {
        open_error(context, by->name, status, &error);
    } else if (sqlite3_create_collation_v2(here->database, name, SQLITE_UTF8, it, collate, let_go_of_collation)) {
        give_error(context, sqlite3_mprintf("%s: %s", by->name, sqlite3_errmsg(here->database)));
    } else {
        here->users++;
        here->first = it;
        return 1;
    }
    free_loaded(it);
    return 0;
}

static void write_digits(const uint8_t *digest, char *digits)
{
    for (int i = 0; i < DIGEST; i++) {
        sqlite3_snprintf(3, digits + 2 * i, "%02x", digest[i]);
    }
}

/* Writes the fingerprint of the files and settings, and that of their whole keys, in digits. */
static uint32_t write_fingerprints(const files *by, char *fingerprint, char *whole, uca_error *error)
{
    const file *table = &by->table, *data = &by->data;
    uint8_t digest[DIGEST], compact[DIGEST];
    uint32_t status = uca_fingerprint(table->bytes, table->length, data->bytes, data->length, by->weighting, by->depth, digest, error);
    if (status != UCA_OK) {
        return status;
    }
    if (by->book.bytes) {
        uca_compact_fingerprint(digest, by->book.bytes, by->book.length, compact);
    }
    write_digits(digest, whole);
    write_digits(by->book.bytes ? compact : digest, fingerprint);
    return UCA_OK;
}

static void load_files(sqlite3_context *context, const files *by, const char *wanted)
{
    char fingerprint[DIGITS + 1], whole[DIGITS + 1];
    uca_error error;
    uint32_t status = write_fingerprints(by, fingerprint, whole, &error);
    if (status != UCA_OK) {
        open_error(context, by->name, status, &error);
    } else if (strcmp(wanted, UNCHECKED) && strcmp(wanted, fingerprint)) {
        give_error(context, sqlite3_mprintf("%s: the files and settings have the fingerprint %s, and %s is wanted", by->name, fingerprint, wanted));
    } else if (find(sqlite3_user_data(context), fingerprint) || add(context, by, fingerprint, whole)) {
        sqlite3_result_text(context, fingerprint, DIGITS, SQLITE_TRANSIENT);
    }
}

/* Reads the files of these paths, and loads them. The path of no book is empty. */
static void load_paths(sqlite3_context *context, const char *const *paths, const char *book, files *by, const char *wanted)
{
    by->table = read_file(context, by->name, "table", paths[0]);
    if (by->table.bytes) {
        by->data = read_file(context, by->name, "data file", paths[1]);
    }
    if (by->data.bytes && *book) {
        by->book = read_file(context, by->name, "book", book);
    }
    if (by->data.bytes && (by->book.bytes || !*book)) {
        load_files(context, by, wanted);
    }
    sqlite3_free(by->table.bytes);
    sqlite3_free(by->data.bytes);
    sqlite3_free(by->book.bytes);
}

/* The position of a name among the names of a setting. It is 0 for the empty name, and `count` for another one. */
static uint32_t number_of(const char *name, const char *const *names, uint32_t count)
{
    uint32_t number = 0;
    while (*name && number < count && strcmp(name, names[number])) {
        number++;
    }
    return number;
}

/* The texts of the arguments, "" for NULL. It returns 0 after an error. */
static int read_arguments(sqlite3_context *context, const char *name, int count, sqlite3_value **values, const char **texts)
{
    for (int i = 0; i < count; i++) {
        texts[i] = sqlite3_value_type(values[i]) == SQLITE_NULL ? "" : (const char *)sqlite3_value_text(values[i]);
        if (!texts[i]) {
            sqlite3_result_error_nomem(context);
            return 0;
        }
        if (strlen(texts[i]) != (size_t)sqlite3_value_bytes(values[i])) {
            give_error(context, sqlite3_mprintf("%s: argument %d has a zero byte", name, i + 1));
            return 0;
        }
    }
    return 1;
}

/* The numbers of three texts: a weighting, a depth, and a fingerprint, which is argument `which`. It returns 0 after an error. */
static int read_settings(sqlite3_context *context, const char *name, const char *which, const char *const *texts, uint32_t *weighting, uint32_t *depth)
{
    static const char *const WEIGHTINGS[] = {"", "non-ignorable", "shifted"};
    static const char *const DEPTHS[] = {[UCA_WEIGHTS] = "weights",
                                         [UCA_IDENTICAL] = "identical",
                                         [UCA_NUMERIC] = "numeric",
                                         [UCA_IDENTICAL | UCA_NUMERIC] = "identical numeric"};
    *weighting = number_of(texts[0], WEIGHTINGS, 3);
    *depth = number_of(texts[1], DEPTHS, 4);
    if (*weighting == 3) {
        give_error(context, sqlite3_mprintf("%s: the weighting is %!.60Q, not 'shifted' or 'non-ignorable'", name, texts[0]));
    } else if (*depth == 4) {
        const char *error = "%s: the depth is %!.60Q, not 'weights', 'identical', 'numeric' or 'identical numeric'";
        give_error(context, sqlite3_mprintf(error, name, texts[1]));
    } else if (strcmp(texts[2], UNCHECKED) && !is_fingerprint(texts[2], strlen(texts[2]))) {
        give_error(context, sqlite3_mprintf("%s: the %s argument is no fingerprint of 64 lower-case hexadecimal digits, and not 'unchecked'", name, which));
    } else {
        return 1;
    }
    return 0;
}

/* On a shared cache, SQLite compares by bytes for a connection that has not loaded the files. Only the name of a file shows it. */
static int is_shared(sqlite3 *database)
{
    const char *cache = sqlite3_uri_parameter(sqlite3_db_filename(database, "main"), "cache");
    return cache && !strcmp(cache, "shared");
}

/* The texts of six arguments at most, of which the last four are a weighting, a depth, a fingerprint and a book. It returns 0 after an error. */
static int read_load(sqlite3_context *context, int count, int least, sqlite3_value **values, const char **texts, files *by)
{
    if (count < least || count > 6) {
        give_error(context, sqlite3_mprintf("%s: it takes %d to 6 arguments", by->name, least));
    } else if (is_shared(sqlite3_context_db_handle(context))) {
        give_error(context, sqlite3_mprintf("%s: the database has a shared cache, which is no place for a collation", by->name));
    } else {
        return read_arguments(context, by->name, count, values, texts) &&
               read_settings(context, by->name, "fifth", &texts[2], &by->weighting, &by->depth);
    }
    return 0;
}

static void load(sqlite3_context *context, int count, sqlite3_value **values)
{
    const char *texts[] = {"", "", "", "", UNCHECKED, ""};
    files by = {.name = "uca_load"};
    if (read_load(context, count, 2, values, texts, &by)) {
        load_paths(context, texts, texts[5], &by, texts[4]);
    }
}

/* Loads the files of this folder of a language. */
static void load_folder(sqlite3_context *context, const char *folder, int has_book, files *by, const char *wanted)
{
    char *table = sqlite3_mprintf("%s/table.txt", folder), *data = sqlite3_mprintf("%s/data.txt", folder);
    char *book = has_book ? sqlite3_mprintf("%s/book.txt", folder) : sqlite3_mprintf("");
    if (table && data && book) {
        load_paths(context, (const char *[]){table, data}, book, by, wanted);
    } else {
        sqlite3_result_error_nomem(context);
    }
    sqlite3_free(table);
    sqlite3_free(data);
    sqlite3_free(book);
}

static void use_language(sqlite3_context *context, int count, sqlite3_value **values)
{
    const char *texts[] = {"", "", "", "", UNCHECKED, ""};
    files by = {.name = "uca_use_language"};
    char *folder, *error;
    if (!read_load(context, count, 1, values, texts, &by)) {
        return;
    }
    if (*texts[5] && strcmp(texts[5], "book")) {
        give_error(context, sqlite3_mprintf("%s: the sixth argument is %!.60Q, not 'book'", by.name, texts[5]));
        return;
    }
    folder = find_language(texts[0], texts[1], &error);
    if (folder) {
        load_folder(context, folder, *texts[5], &by, texts[4]);
    } else {
        give_error(context, error ? sqlite3_mprintf("%s: %z", by.name, error) : NULL);
    }
    sqlite3_free(folder);
}

static void upgrade_error(sqlite3_context *context, uint32_t status, const uca_upgrade_error *error)
{
    static const char *const CONDITIONS[] = {"", "OldIllFormed", "NewIllFormed", "RangeChanged", "Uncovered",
                                             "RowChanged", "RowMissing", "RowExtra", "PointChanged", "SettingChanged"};
    static const char *const PLACES[] = {"", " old row %u", " new row %u", " code point %04X"};
    if (status == UCA_FILE && error->kind != UCA_KIND_MEMORY) {
        give_error(context, sqlite3_mprintf("uca_load_upgrade: the %s: line %u: %s", ROLES[error->file], error->line, KINDS[error->kind]));
    } else if (status == UCA_DIGITS) {
        digits_error(context, "uca_load_upgrade", ROLES[error->file], error->line);
    } else if (status == UCA_NOT_MET) {
        char *place = sqlite3_mprintf(PLACES[error->place], error->number);
        give_error(context, place ? sqlite3_mprintf("uca_load_upgrade: the audit rejects the files: %s%s", CONDITIONS[error->condition], place) : NULL);
        sqlite3_free(place);
    } else {
        sqlite3_result_error_nomem(context);
    }
}

/* Opens an upgrade by the files, and writes its fingerprints. It returns 0 after an error. */
static int open_upgrade(sqlite3_context *context, upgrade *it, const file *by, uint32_t weighting, uint32_t depth)
{
    uint8_t from[DIGEST], to[DIGEST];
    uca_upgrade_error error;
    uint32_t status = uca_open_upgrade(&it->upgrade, by[0].bytes, by[0].length, by[1].bytes, by[1].length, by[2].bytes, by[2].length, by[3].bytes,
                                       by[3].length, by[4].bytes, by[4].length, by[5].bytes, by[5].length, weighting, depth, &error);
    if (status != UCA_OK) {
        upgrade_error(context, status, &error);
        return 0;
    }
    uca_upgrade_fingerprints(&it->upgrade, from, to);
    write_digits(from, it->from);
    write_digits(to, it->to);
    return 1;
}

/* Adds an upgrade by the files, unless there is one of its fingerprints. `wanted` is the fingerprint of the old files. */
static void add_upgrade(sqlite3_context *context, const file *by, uint32_t weighting, uint32_t depth, const char *wanted)
{
    connection *here = sqlite3_user_data(context);
    upgrade *it = sqlite3_malloc64(sizeof *it);
    if (!it) {
        sqlite3_result_error_nomem(context);
        return;
    }
    *it = (upgrade){UCA_CLOSED_UPGRADE, "", "", here->first_upgrade};
    if (open_upgrade(context, it, by, weighting, depth)) {
        if (strcmp(wanted, UNCHECKED) && strcmp(wanted, it->from)) {
            give_error(context, sqlite3_mprintf("uca_load_upgrade: the old files and settings have the fingerprint %s, and %s is wanted", it->from, wanted));
        } else {
            sqlite3_result_text(context, it->to, DIGITS, SQLITE_TRANSIENT);
            if (!find_upgrade(here, it->from, it->to)) {
                here->first_upgrade = it;
                return;
            }
        }
    }
    uca_close_upgrade(&it->upgrade);
    sqlite3_free(it);
}

static void load_upgrade(sqlite3_context *context, int count, sqlite3_value **values)
{
    const char *texts[] = {"", "", "", "", "", "", "", "", UNCHECKED};
    file by[UPGRADE_FILES] = {{NULL, 0}};
    uint32_t weighting, depth;
    int read = 0;
    if (count < UPGRADE_FILES || count > 9) {
        sqlite3_result_error(context, "uca_load_upgrade: it takes 6 to 9 arguments", -1);
        return;
    }
    if (!read_arguments(context, "uca_load_upgrade", count, values, texts) ||
        !read_settings(context, "uca_load_upgrade", "ninth", &texts[UPGRADE_FILES], &weighting, &depth)) {
        return;
    }
    while (read < UPGRADE_FILES && (by[read] = read_file(context, "uca_load_upgrade", ROLES[read + 1], texts[read])).bytes) {
        read++;
    }
    if (read == UPGRADE_FILES) {
        add_upgrade(context, by, weighting, depth, texts[8]);
    }
    for (int i = 0; i < UPGRADE_FILES; i++) {
        sqlite3_free(by[i].bytes);
    }
}

/* Whether this connection has the extension already. An authorizer may deny the statement, which is for another file with the extension:
   uca_load comes last. */
static int is_here(sqlite3 *database)
{
    if (is_remembered(database)) {
        return 1;
    }
    sqlite3_stmt *statement;
    int status = sqlite3_prepare_v2(database, "SELECT uca_load('', '')", -1, &statement, NULL);
    sqlite3_finalize(statement);
    return status == SQLITE_OK;
}

/* The functions, with their numbers of arguments. uca_load comes last. */
static const struct {
    const char *name;
    int count, flags;
    void (*call)(sqlite3_context *context, int count, sqlite3_value **values);
} FUNCTIONS[] = {
    {"uca_key", 2, KEY_FLAGS, make_key},
    {"uca_key", 3, KEY_FLAGS, make_key},
    {"uca_range_low", 3, KEY_FLAGS, make_range_low},
    {"uca_range_high", 3, KEY_FLAGS, make_range_high},
    {"uca_prefix_low", 2, KEY_FLAGS, make_prefix_low},
    {"uca_prefix_high", 2, KEY_FLAGS, make_prefix_high},
    {"uca_check", 2, KEY_FLAGS, make_check},
    {"uca_compact", 2, KEY_FLAGS, make_compact},
    {"uca_expand", 2, KEY_FLAGS, make_expanded},
    {"uca_affected", 3, UPGRADE_FLAGS, make_affected},
    {"uca_rekey", 3, UPGRADE_FLAGS, make_rekeyed},
    {"uca_load_upgrade", -1, LOAD_FLAGS, load_upgrade},
    {"uca_use_language", -1, LOAD_FLAGS, use_language},
    {"uca_load", -1, LOAD_FLAGS, load},
};

__attribute__((visibility("default"))) int sqlite3_uca_init(sqlite3 *database, char **message, const sqlite3_api_routines *api)
{
    SQLITE_EXTENSION_INIT2(api);
    if (sqlite3_libversion_number() < 3034000) { /* an earlier one has no sqlite3_txn_state */
        *message = sqlite3_mprintf("uca: it needs SQLite 3.34 or a later one");
        return SQLITE_ERROR;
    }
    if (is_here(database)) {
        return SQLITE_OK;
    }
    connection *here = sqlite3_malloc64(sizeof *here);
    if (!here) {
        return SQLITE_NOMEM;
    }
    *here = (connection){.database = database, .users = 1, .lock = PTHREAD_MUTEX_INITIALIZER};
    int failed = SQLITE_OK;
    for (int i = 0; i < 2; i++) {
        here->rooms[i] = (room){sqlite3_malloc64(1024), 1024, 0};
        failed = here->rooms[i].bytes ? failed : SQLITE_NOMEM;
    }
    for (size_t i = 0; !failed && i < sizeof FUNCTIONS / sizeof *FUNCTIONS; i++) {
        here->users++; /* where a registration fails, SQLite lets go too */
        failed = sqlite3_create_function_v2(database, FUNCTIONS[i].name, FUNCTIONS[i].count, FUNCTIONS[i].flags, here, FUNCTIONS[i].call, NULL, NULL, let_go);
    }
    if (!failed) {
        remember(here);
    }
    let_go(here);
    return failed;
}
