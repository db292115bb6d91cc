/* The sort keys of ICU4C, over the lines of the input: a line of hexadecimal digits for each.

     icu_lines TAG own non-ignorable|shifted < LINES           the collation that ICU has for a language tag
     icu_lines TAG RULES non-ignorable|shifted < LINES         that of a file of rules in UTF-8, with the settings of the tag

   The first line has ICU's version, and the locale whose rules were taken. Texts are normalized, and under shifted four levels count, as in uca. */
#include <stdio.h>
#include <stdlib.h>
#include <string.h>
#include <unicode/ucol.h>
#include <unicode/uloc.h>
#include <unicode/ustring.h>

enum { ROOM = 1 << 22 };

static UChar wide[ROOM];

static void stop_at(UErrorCode status, const char *what)
{
    if (U_FAILURE(status)) {
        fprintf(stderr, "%s: %s\n", what, u_errorName(status));
        exit(1);
    }
}

/* The text of a file, in `wide`, and its length. */
static int32_t read_rules(const char *path)
{
    static char bytes[ROOM];
    UErrorCode status = U_ZERO_ERROR;
    int32_t length;
    FILE *file = fopen(path, "rb");
    if (!file) {
        fprintf(stderr, "%s cannot be opened\n", path);
        exit(1);
    }
    size_t size = fread(bytes, 1, ROOM, file);
    fclose(file);
    u_strFromUTF8(wide, ROOM, &length, bytes, (int32_t)size, &status);
    stop_at(status, path);
    return length;
}

static UCollator *opened(const char *tag, const char *rules, const char *weighting)
{
    char locale[ULOC_FULLNAME_CAPACITY];
    UErrorCode status = U_ZERO_ERROR;
    UParseError where;
    int is_shifted = strcmp(weighting, "shifted") == 0;
    uloc_forLanguageTag(tag, locale, sizeof locale, NULL, &status);
    stop_at(status, tag);
    UCollator *icu = strcmp(rules, "own") == 0
        ? ucol_open(locale, &status)
        : ucol_openRules(wide, read_rules(rules), UCOL_DEFAULT, UCOL_DEFAULT_STRENGTH, &where, &status);
    stop_at(status, rules);
    ucol_setAttribute(icu, UCOL_NORMALIZATION_MODE, UCOL_ON, &status);
    ucol_setAttribute(icu, UCOL_ALTERNATE_HANDLING, is_shifted ? UCOL_SHIFTED : UCOL_NON_IGNORABLE, &status);
    ucol_setAttribute(icu, UCOL_STRENGTH, is_shifted ? UCOL_QUATERNARY : UCOL_TERTIARY, &status);
    stop_at(status, tag);
    return icu;
}

static void print_key(UCollator *icu, const char *line, size_t length)
{
    static uint8_t key[ROOM];
    UErrorCode status = U_ZERO_ERROR;
    int32_t count;
    u_strFromUTF8(wide, ROOM, &count, line, (int32_t)length, &status);
    stop_at(status, line);
    int32_t size = ucol_getSortKey(icu, wide, count, key, ROOM);
    for (int32_t at = 0; at < size && size <= ROOM; at++)
        printf("%02x", key[at]);
    printf("\n");
}

int main(int count, char **words)
{
    if (count != 4) {
        fprintf(stderr, "icu_lines TAG own|RULES non-ignorable|shifted < LINES\n");
        return 2;
    }
    UErrorCode status = U_ZERO_ERROR;
    UCollator *icu = opened(words[1], words[2], words[3]);
    const char *actual = ucol_getLocaleByType(icu, ULOC_ACTUAL_LOCALE, &status);
    printf("%s %s\n", U_ICU_VERSION, actual && *actual ? actual : "rules");
    char *line = NULL;
    size_t room = 0;
    for (ssize_t length; (length = getline(&line, &room, stdin)) > 0;)
        print_key(icu, line, (size_t)length - (line[length - 1] == '\n'));
    free(line);
    ucol_close(icu);
    return 0;
}
