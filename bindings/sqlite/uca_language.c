/* Where the files of a language are: in FOLDER/EDITION/TAG, as `uca-files --into FOLDER TAG` makes them. FOLDER is

   - the folder `uca` beside the file of this extension,
   - /usr/local/share/uca,
   - /usr/share/uca.

   The first one that has a table of the language is taken. A statement names the tag and the edition, and nothing else of this path. Both
   are ASCII letters and digits, in parts: with one hyphen between two of them, and in an edition also a dot. So they are no path, and name
   no folder above. No program is run, and no variable of the environment is read. */
#define _GNU_SOURCE /* dladdr */
#include "uca_language.h"

#include <dirent.h>
#include <dlfcn.h>
#include <errno.h>
#include <limits.h>
#include <sqlite3ext.h>
#include <stdlib.h>
#include <string.h>
#include <sys/stat.h>
SQLITE_EXTENSION_INIT3

#define MOST_NAME 100 /* bytes of a tag or an edition */
#define BESIDE "/uca"

/* The folder beside the extension. It is empty if it is not known. */
static char own_folder[PATH_MAX];

static const char *const FOLDERS[] = {own_folder, "/usr/local/share/uca", "/usr/share/uca"};
enum { FOLDER_COUNT = sizeof FOLDERS / sizeof *FOLDERS };

/* The editions of a language in one folder. */
typedef struct editions {
    int count;
    char *first; /* NULL if there is none */
    char *names; /* all of them */
} editions;

/* The path of the extension may be relative. So this runs when it is loaded, before the program can change to another folder. */
__attribute__((constructor)) static void find_own_folder(void)
{
    Dl_info about;
    char path[PATH_MAX];
    char *end = dladdr(own_folder, &about) && realpath(about.dli_fname, path) ? strrchr(path, '/') : NULL;
    if (end && (size_t)(end - path) + sizeof BESIDE <= sizeof own_folder) {
        memcpy(own_folder, path, (size_t)(end - path));
        memcpy(own_folder + (end - path), BESIDE, sizeof BESIDE);
    }
}

/* Whether a name is ASCII letters and digits, in parts between which is one of these signs. */
static int is_name(const char *name, const char *signs)
{
    int is_in_part = 0;
    for (const char *it = name; *it; it++) {
        int is_letter = (*it >= 'a' && *it <= 'z') || (*it >= 'A' && *it <= 'Z') || (*it >= '0' && *it <= '9');
        if (!is_letter && !(is_in_part && strchr(signs, *it))) {
            return 0;
        }
        is_in_part = is_letter;
    }
    return is_in_part && strlen(name) <= MOST_NAME;
}

/* Whether the last call has found that there is no such file or folder. Another error is told when it is read. */
static int is_missing(void)
{
    return errno == ENOENT || errno == ENOTDIR;
}

/* Adds an edition if the folder has the table of the language in it. It returns 0 if memory runs out. */
static int add_edition(const char *folder, const char *edition, const char *tag, editions *found)
{
    struct stat about;
    char *table = sqlite3_mprintf("%s/%s/%s/table.txt", folder, edition, tag);
    int has = table && (stat(table, &about) == 0 || !is_missing());
    sqlite3_free(table);
    if (!table || !has) {
        return table != NULL;
    }
    found->names = found->count++ ? sqlite3_mprintf("%z, %s", found->names, edition) : sqlite3_mprintf("%s", edition);
    if (!found->first) {
        found->first = sqlite3_mprintf("%s", edition);
    }
    return found->names && found->first;
}

/* Adds all editions of the language in a folder, in order. It returns 0 if memory runs out, or the folder cannot be read. */
static int add_editions(const char *folder, const char *tag, editions *found, char **error)
{
    struct dirent **entries;
    int count = scandir(folder, &entries, NULL, alphasort), is_added = 1;
    if (count < 0 && is_missing()) {
        return 1;
    }
    if (count < 0) {
        *error = errno == ENOMEM ? NULL : sqlite3_mprintf("the folder %s cannot be read", folder);
        return 0;
    }
    for (int i = 0; i < count; i++) {
        if (is_added && is_name(entries[i]->d_name, "-.")) {
            is_added = add_edition(folder, entries[i]->d_name, tag, found);
        }
        free(entries[i]);
    }
    free(entries);
    return is_added;
}

static char *not_kept(const char *tag, const char *edition)
{
    return sqlite3_mprintf("no folder has files of the language %s%s%s; an administrator makes them by: uca-files --into %s %s",
                           tag, *edition ? ", edition " : "", edition, FOLDERS[1], tag);
}

/* The folder of the only edition, or an error. */
static char *folder_of(const char *folder, const char *tag, const editions *found, char **error)
{
    if (found->count == 1) {
        return sqlite3_mprintf("%s/%s/%s", folder, found->first, tag);
    }
    *error = sqlite3_mprintf("%s has several editions of the language %s: %s; name one as the second argument", folder, tag, found->names);
    return NULL;
}

char *find_language(const char *tag, const char *edition, char **error)
{
    editions found = {0, NULL, NULL};
    char *path = NULL;
    int number = 0, is_added = 1;
    *error = NULL;
    if (!is_name(tag, "-") || (*edition && !is_name(edition, "-."))) {
        *error = sqlite3_mprintf("the tag of a language has letters, digits, and single hyphens between them; the name of an edition may also have dots");
        return NULL;
    }
    while (is_added && found.count == 0 && number < FOLDER_COUNT) {
        const char *folder = FOLDERS[number++];
        is_added = !*folder || (*edition ? add_edition(folder, edition, tag, &found) : add_editions(folder, tag, &found, error));
    }
    if (is_added && found.count == 0) {
        *error = not_kept(tag, edition);
    } else if (is_added) {
        path = folder_of(FOLDERS[number - 1], tag, &found, error);
    }
    sqlite3_free(found.first);
    sqlite3_free(found.names);
    return path;
}
