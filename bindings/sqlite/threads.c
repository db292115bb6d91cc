/* One connection in several threads: in the one that loaded the files, in another one that has it next, and in those in which SQLite sorts.

     threads TABLE DATA FINGERPRINT DATABASE

   The fingerprint is that of the files with the table's weighting. The extension is part of this program. Both threads make keys in the order
   of the collation, while SQLite sorts in four threads more. For each it prints how many keys there are, and how many of them are out of
   order. */
#include <pthread.h>
#include <sqlite3.h>
#include <stdio.h>
#include <stdlib.h>

struct sqlite3_api_routines;
int sqlite3_uca_init(sqlite3 *connection, char **error, const struct sqlite3_api_routines *api);

static sqlite3 *connection;
static char statement[1024];

static int print(void *data, int count, char **values, char **names)
{
    (void)data;
    (void)names;
    for (int i = 0; i < count; i++) {
        printf("%s%c", values[i], i + 1 < count ? ' ' : '\n');
    }
    return 0;
}

static void run(int (*each)(void *, int, char **, char **))
{
    char *error;
    if (sqlite3_exec(connection, statement, each, NULL, &error)) {
        fprintf(stderr, "%s\n", error);
        exit(1);
    }
}

static void *sort(void *fingerprint)
{
    const char *by = fingerprint;
    sqlite3_snprintf(sizeof statement, statement,
                     "DROP TABLE IF EXISTS keys; CREATE TABLE keys AS SELECT uca_key(word, '%s') AS key FROM words ORDER BY word COLLATE uca_%s;", by, by);
    run(NULL);
    sqlite3_snprintf(sizeof statement, statement,
                     "SELECT count(*), sum(is_wrong) FROM (SELECT key < lag(key) OVER (ORDER BY rowid) AS is_wrong FROM keys);");
    run(print);
    return NULL;
}

int main(int count, char **arguments)
{
    pthread_t other;
    char *error;
    if (count != 5 || sqlite3_open(arguments[4], &connection) || sqlite3_uca_init(connection, &error, NULL)) {
        return 2;
    }
    sqlite3_snprintf(sizeof statement, statement, "SELECT uca_load('%s', '%s');", arguments[1], arguments[2]);
    run(NULL);
    sqlite3_snprintf(sizeof statement, statement,
                     "PRAGMA threads = 4; PRAGMA cache_size = -200; CREATE TABLE words(word TEXT);"
                     "WITH RECURSIVE n(i) AS (SELECT 1 UNION ALL SELECT i + 1 FROM n WHERE i < 100000)"
                     "INSERT INTO words SELECT char(97 + i * 7919 %% 26, 97 + i * 104729 %% 26, 256 + i * 31 %% 20000) || i FROM n;");
    run(NULL);
    sort(arguments[3]);
    if (pthread_create(&other, NULL, sort, arguments[3]) || pthread_join(other, NULL)) {
        return 1;
    }
    return sqlite3_close(connection);
}
