/* The extension is loaded again on a connection that has it, while an authorizer denies what the extension would ask.

     authorizers EXTENSION COPY TABLE DATA

   COPY is the extension in another file. What the connection has loaded stays. Prints a line for each check that fails. The status is 1 if one failed. */
#include <sqlite3.h>
#include <stdio.h>
#include <string.h>

static int failed;

static void check(int fact, const char *what, const char *denied)
{
    if (!fact) {
        printf("%s, where %s is denied\n", what, denied);
        failed = 1;
    }
}

/* An authorizer. It denies this function, "everything" or "nothing". */
static int judge(void *denied, int action, const char *first, const char *second, const char *database, const char *inside)
{
    (void)first;
    (void)database;
    (void)inside;
    int is_denied = !strcmp(denied, "everything") || (action == SQLITE_FUNCTION && !strcmp(second, denied));
    return is_denied ? SQLITE_DENY : SQLITE_OK;
}

/* Loads the extension while something is denied. */
static int load(sqlite3 *connection, const char *extension, const char *denied)
{
    sqlite3_set_authorizer(connection, judge, (void *)denied);
    int status = sqlite3_load_extension(connection, extension, NULL, NULL);
    sqlite3_set_authorizer(connection, NULL, NULL);
    return status == SQLITE_OK;
}

static int keep(void *kept, int count, char **values, char **names)
{
    (void)count;
    (void)names;
    sqlite3_snprintf(65, kept, "%s", values[0] ? values[0] : "");
    return 0;
}

/* Writes the first value of a statement. It returns 0 after an error. */
static int ask(sqlite3 *connection, const char *statement, char *value)
{
    *value = 0;
    return sqlite3_exec(connection, statement, keep, value, NULL) == SQLITE_OK;
}

/* Loads the extension twice and the files between. */
static void try(char **given, const char *second, const char *denied)
{
    sqlite3 *connection;
    char files[1024], uses[1024], fingerprint[65], found[65];
    sqlite3_snprintf(sizeof files, files, "SELECT uca_load(%Q, %Q)", given[2], given[3]);
    if (sqlite3_open(":memory:", &connection) || sqlite3_enable_load_extension(connection, 1)) {
        check(0, "a connection is opened", denied);
        return;
    }
    check(load(connection, given[0], denied), "the extension is loaded", denied);
    check(ask(connection, files, fingerprint) && strlen(fingerprint) == 64, "files are loaded", denied);
    check(load(connection, second, denied), "the extension is loaded again", denied);
    sqlite3_snprintf(sizeof uses, uses, "SELECT uca_key('a', '%s') IS NOT NULL AND 'a' < 'b' COLLATE uca_%s", fingerprint, fingerprint);
    check(ask(connection, uses, found) && !strcmp(found, "1"), "the files are used after it", denied);
    check(ask(connection, files, found) && !strcmp(found, fingerprint), "the files are loaded again", denied);
    check(sqlite3_close(connection) == SQLITE_OK, "the connection is closed", denied);
}

/* A connection that is opened after another one is closed may be at the same address, and has nothing. */
int main(int count, char **arguments)
{
    if (count != 5) {
        return 2;
    }
    try(&arguments[1], arguments[1], "nothing");
    try(&arguments[1], arguments[1], "uca_load");
    try(&arguments[1], arguments[1], "everything");
    try(&arguments[1], arguments[2], "nothing");
    return failed;
}
