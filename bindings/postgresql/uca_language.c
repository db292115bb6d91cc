/* Where the files of the setting uca.language are: in FOLDER/EDITION/TAG, as `uca-files --into FOLDER TAG` makes them. FOLDER is

   - the folder `uca` of the server's shared files, which `pg_config --sharedir` prints,
   - /usr/local/share/uca,
   - /usr/share/uca.

   The first one that has a table of the language is taken. The settings name the tag and the edition, and nothing else of this path. Both are
   ASCII letters and digits, in parts: with one hyphen between two of them, and in an edition also a dot. So they are no path, and name no
   folder above. No program is run, and no variable of the environment is read.

   This runs while the server starts, and where uca_use_language is an error. So it raises no error itself, which would end the server, but
   leaves a reason. */
#include "uca_postgresql.h"

#include <dirent.h>
#include <sys/stat.h>

#include "miscadmin.h"
#include "port.h"

/* The bytes that a tag, or the name of an edition, has at most. */
#define MOST_NAME 100

#define FOLDER_COUNT 3

/* Whether a name is ASCII letters and digits, in parts between which is one of these signs. */
static bool is_name(const char *name, const char *signs)
{
    bool is_in_part = false;

    for (const char *it = name; *it; it++) {
        bool is_letter = (*it >= 'a' && *it <= 'z') || (*it >= 'A' && *it <= 'Z') || (*it >= '0' && *it <= '9');

        if (!is_letter && !(is_in_part && strchr(signs, *it)))
            return false;
        is_in_part = is_letter;
    }
    return is_in_part && strlen(name) <= MOST_NAME;
}

static void name_folder(int number, char *folder)
{
    char share[MAXPGPATH];

    get_share_path(my_exec_path, share);
    if (number == 0)
        snprintf(folder, MOST_PATH, "%s/uca", share);
    else
        strlcpy(folder, number == 1 ? "/usr/local/share/uca" : "/usr/share/uca", MOST_PATH);
}

/* Whether the last call has found that there is no such file or folder. Another error is told when it is read. */
static bool is_missing(void)
{
    return errno == ENOENT || errno == ENOTDIR;
}

/* The path of a file of a language. It always has room, since the folder is at most a path of PostgreSQL and "/uca". */
static void name_file(char *path, const char *folder, const char *edition, const char *tag, const char *file)
{
    snprintf(path, MOST_PATH, "%s/%s/%s/%s", folder, edition, tag, file);
}

static bool has_table(const char *folder, const char *edition, const char *tag)
{
    struct stat about;
    char path[MOST_PATH];

    name_file(path, folder, edition, tag, "table.txt");
    return stat(path, &about) == 0 || !is_missing();
}

/* The next entry of a folder, or NULL. errno is 0 then, unless the folder cannot be read. */
static struct dirent *next_entry(DIR *opened)
{
    errno = 0;
    return readdir(opened);
}

/* The first edition of a language in a folder that comes after this one, by bytes. It is "" if there is none, or if the folder cannot be
   read: then there is a reason. It takes no memory for a list. */
static void find_next(const char *folder, const char *tag, const char *after, char *found, char *reason)
{
    DIR *opened = opendir(folder);
    struct dirent *it;

    *found = '\0';
    if (!opened && is_missing())
        return;
    while (opened && (it = next_entry(opened)) != NULL)
        if (is_name(it->d_name, "-.") && strcmp(it->d_name, after) > 0 && (!*found || strcmp(it->d_name, found) < 0) &&
            has_table(folder, it->d_name, tag))
            strlcpy(found, it->d_name, MOST_NAME + 1);
    if (errno) {
        snprintf(reason, REASON, "uca: a folder of languages cannot be read: %s: %s", strerror(errno), folder);
        *found = '\0';
    }
    if (opened)
        closedir(opened);
}

/* The only edition of a language in a folder, or "". If there are several, they are named in the reason. */
static void find_only(const char *folder, const char *tag, char *edition, char *reason)
{
    char another[MOST_NAME + 1] = "";

    find_next(folder, tag, "", edition, reason);
    if (*edition)
        find_next(folder, tag, edition, another, reason);
    if (!*another)
        return;
    snprintf(reason, REASON, "uca: there are several editions of the language %s, and uca.edition names none of them: %s", tag, edition);
    for (; *another; find_next(folder, tag, edition, another, reason)) {
        strlcat(reason, ", ", REASON);
        strlcat(reason, another, REASON);
        strlcpy(edition, another, MOST_NAME + 1);
    }
}

bool is_language(const char *tag)
{
    return is_name(tag, "-");
}

bool find_language(const char *tag, const char *asked, char *table, char *data, char *reason)
{
    char folder[MOST_PATH], edition[MOST_NAME + 1] = "";

    *reason = '\0';
    if (!is_language(tag))
        strlcpy(reason, "uca: uca.language is not letters and digits with single hyphens between them", REASON);
    else if (*asked && !is_name(asked, "-."))
        strlcpy(reason, "uca: uca.edition is not letters and digits with single hyphens or dots between them", REASON);
    for (int number = 0; !*reason && !*edition && number < FOLDER_COUNT; number++) {
        name_folder(number, folder);
        if (!*asked)
            find_only(folder, tag, edition, reason);
        else if (has_table(folder, asked, tag))
            strlcpy(edition, asked, sizeof edition);
    }
    if (!*reason && !*edition)
        snprintf(reason, REASON, "uca: no folder has files of the language %s%s%s; an administrator makes them by: uca-files --into /usr/local/share/uca %s",
                 tag, *asked ? ", edition " : "", asked, tag);
    if (*reason)
        return false;
    name_file(table, folder, edition, tag, "table.txt");
    name_file(data, folder, edition, tag, "data.txt");
    return true;
}
