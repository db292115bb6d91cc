/* How many bytes the keys of ICU4C have, over the lines of the input.

     icu_keys non-ignorable|shifted < LINES
     icu_keys non-ignorable|shifted keys < LINES

   The first prints the mean, and the longest. The second prints each key as upper-case hexadecimal digits. The collation is that of the root, with
   normalization, and with four levels under shifted, as uca has them. The last byte of each key, which is 00, is neither counted nor printed. */
#include <stdio.h>
#include <stdlib.h>
#include <string.h>
#include <unicode/ucol.h>
#include <unicode/ustring.h>

enum { ROOM = 1 << 22 };

static UCollator *opened(const char *weighting)
{
    UErrorCode status = U_ZERO_ERROR;
    UCollator *icu = ucol_open("root", &status);
    int is_shifted = strcmp(weighting, "shifted") == 0;
    ucol_setAttribute(icu, UCOL_NORMALIZATION_MODE, UCOL_ON, &status);
    ucol_setAttribute(icu, UCOL_ALTERNATE_HANDLING, is_shifted ? UCOL_SHIFTED : UCOL_NON_IGNORABLE, &status);
    ucol_setAttribute(icu, UCOL_STRENGTH, is_shifted ? UCOL_QUATERNARY : UCOL_TERTIARY, &status);
    if (U_FAILURE(status)) {
        fprintf(stderr, "%s\n", u_errorName(status));
        exit(1);
    }
    return icu;
}

/* Makes the key of a line, and returns how many bytes it has. */
static long make_key(UCollator *icu, const char *line, size_t length, uint8_t *key)
{
    static UChar wide[ROOM];
    UErrorCode status = U_ZERO_ERROR;
    int32_t count;
    u_strFromUTF8(wide, ROOM, &count, line, (int32_t)length, &status);
    int32_t size = ucol_getSortKey(icu, wide, count, key, ROOM);
    if (U_FAILURE(status) || size <= 0 || size > ROOM) {
        fprintf(stderr, "a line has no key\n");
        exit(1);
    }
    return size - 1;
}

static void print_key(const uint8_t *key, long size)
{
    for (long at = 0; at < size; at++) {
        printf("%02X", key[at]);
    }
    putchar('\n');
}

int main(int count, char **words)
{
    static uint8_t key[ROOM];
    int prints = count == 3 && strcmp(words[2], "keys") == 0;
    if (count != 2 && !prints) {
        fprintf(stderr, "icu_keys non-ignorable|shifted [keys] < LINES\n");
        return 2;
    }
    UCollator *icu = opened(words[1]);
    char *line = NULL;
    size_t room = 0;
    long lines = 0, sum = 0, longest = 0;
    for (ssize_t length; (length = getline(&line, &room, stdin)) > 0; lines++) {
        long size = make_key(icu, line, (size_t)length - (line[length - 1] == '\n'), key);
        if (prints) {
            print_key(key, size);
        }
        sum += size;
        longest = size > longest ? size : longest;
    }
    if (!prints) {
        printf("%.1f %ld\n", lines ? (double)sum / lines : 0.0, longest);
    }
    free(line);
    ucol_close(icu);
    return 0;
}
