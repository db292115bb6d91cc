/* An extension of SQLite for measuring: the collation `icu` and the function `icu_key`, by ICU4C's root collation. Normalization is on, variable
   elements are non-ignorable, and there are three levels. It compares the UTF-8 that SQLite has, which takes less time than UTF-16. */
#include <sqlite3ext.h>
#include <stdlib.h>
#include <unicode/ucol.h>
#include <unicode/ustring.h>
SQLITE_EXTENSION_INIT1

enum { ROOM = 1 << 20 };

static UCollator *icu;
static UChar wide[ROOM];
static uint8_t key[ROOM];

int sqlite3_icu_init(sqlite3 *connection, char **error, const sqlite3_api_routines *api);

static int collate(void *data, int left_length, const void *left, int right_length, const void *right)
{
    UErrorCode status = U_ZERO_ERROR;
    (void)data;
    return ucol_strcollUTF8(icu, left, left_length, right, right_length, &status);
}

static void make_key(sqlite3_context *context, int count, sqlite3_value **values)
{
    UErrorCode status = U_ZERO_ERROR;
    int32_t length;
    (void)count;
    u_strFromUTF8(wide, ROOM, &length, (const char *)sqlite3_value_text(values[0]), sqlite3_value_bytes(values[0]), &status);
    sqlite3_result_blob(context, key, ucol_getSortKey(icu, wide, length, key, ROOM), SQLITE_TRANSIENT);
}

int sqlite3_icu_init(sqlite3 *connection, char **error, const sqlite3_api_routines *api)
{
    UErrorCode status = U_ZERO_ERROR;
    (void)error;
    SQLITE_EXTENSION_INIT2(api);
    icu = ucol_open("root", &status);
    ucol_setAttribute(icu, UCOL_ALTERNATE_HANDLING, UCOL_NON_IGNORABLE, &status);
    ucol_setAttribute(icu, UCOL_NORMALIZATION_MODE, UCOL_ON, &status);
    if (U_FAILURE(status)) {
        return SQLITE_ERROR;
    }
    sqlite3_create_function(connection, "icu_key", 1, SQLITE_UTF8 | SQLITE_DETERMINISTIC, NULL, make_key, NULL, NULL);
    return sqlite3_create_collation(connection, "icu", SQLITE_UTF8, NULL, collate);
}
