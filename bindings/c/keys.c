/* keys TABLE DATA [non-ignorable|shifted [identical] [numeric]]: prints the sort key of each line of standard input, as
   `uca keys` does. */
#ifndef _POSIX_C_SOURCE
#define _POSIX_C_SOURCE 200809L
#endif
#include "uca.h"

#include <stdio.h>
#include <stdlib.h>
#include <string.h>

typedef struct bytes {
    uint8_t *at;
    size_t length;
} bytes;

static bytes read_file(const char *path)
{
    FILE *file = fopen(path, "rb");
    size_t room = 1 << 16;
    bytes read = {malloc(room), 0};
    if (!file || !read.at) {
        perror(path);
        exit(2);
    }
    for (size_t count; (count = fread(read.at + read.length, 1, room - read.length, file)) > 0;) {
        read.length += count;
        if (read.length == room && !(read.at = realloc(read.at, room *= 2))) {
            perror(path);
            exit(2);
        }
    }
    if (ferror(file)) {
        perror(path);
        exit(2);
    }
    fclose(file);
    return read;
}

static void print_groups(const uint8_t *key, size_t from, size_t end)
{
    for (size_t i = from; i < end; i += 2) {
        printf("%s%02X%02X", i == 0 ? "" : " ", key[i], key[i + 1]);
    }
}

/* Where the levels of weights end: before the last separator, after which a code point has three bytes. */
static size_t weights_end(const uint8_t *key, size_t length, uint32_t depth, int levels)
{
    size_t i = 0;
    for (int separators = 0; (depth & UCA_IDENTICAL) && i < length; i += 2) {
        separators += key[i] == 0 && key[i + 1] == 0;
        if (separators == levels) {
            return i + 2;
        }
    }
    return length;
}

static void print_key(const uint8_t *key, size_t length, uint32_t depth, int levels)
{
    size_t end = weights_end(key, length, depth, levels);
    print_groups(key, 0, end);
    for (size_t i = end; i < length; i += 3) {
        printf(" %02X%02X%02X", key[i], key[i + 1], key[i + 2]);
    }
    putchar('\n');
}

/* Prints the key of each line of standard input, up to the first one that has none, and returns the status. */
static uint32_t print_keys(uca_collator *collator, uint32_t depth, int levels)
{
    char *line = NULL;
    size_t line_room = 0, room = 1024, needed;
    uint8_t *key = malloc(room);
    uint32_t status = key ? UCA_OK : UCA_MEMORY;
    for (ssize_t length; status == UCA_OK && (length = getline(&line, &line_room, stdin)) >= 0;) {
        length -= length > 0 && line[length - 1] == '\n';
        status = uca_key(collator, (const uint8_t *)line, (size_t)length, key, room, &needed);
        if (status == UCA_SMALL) {
            free(key);
            key = malloc(room = needed);
            status = key ? uca_key(collator, (const uint8_t *)line, (size_t)length, key, room, &needed) : UCA_MEMORY;
        }
        if (status == UCA_OK) {
            print_key(key, needed, depth, levels);
        }
    }
    free(key);
    free(line);
    return status;
}

static uint32_t depth_of(int count, char **words)
{
    uint32_t depth = UCA_WEIGHTS;
    for (int i = 0; i < count; i++) {
        depth |= !strcmp(words[i], "identical") ? UCA_IDENTICAL : !strcmp(words[i], "numeric") ? UCA_NUMERIC : 0;
    }
    return depth;
}

int main(int count, char **words)
{
    const char *asked = count > 3 ? words[3] : "";
    uint32_t weighting = !strcmp(asked, "non-ignorable") ? UCA_NON_IGNORABLE : !strcmp(asked, "shifted") ? UCA_SHIFTED : UCA_BY_TABLE;
    uint32_t depth = count > 4 ? depth_of(count - 4, words + 4) : UCA_WEIGHTS;
    if (count < 3) {
        fputs("usage: keys TABLE DATA [non-ignorable|shifted [identical] [numeric]]\n", stderr);
        return 2;
    }
    bytes table = read_file(words[1]), data = read_file(words[2]);
    uca_collator collator = UCA_CLOSED_COLLATOR;
    uca_error error;
    uint32_t status = uca_open(&collator, table.at, table.length, data.at, data.length, weighting, depth, &error);
    free(table.at);
    free(data.at);
    if (status != UCA_OK) {
        fprintf(stderr, "uca_open: status %u, line %u, kind %u\n", status, error.line, error.kind);
        return 1;
    }
    status = print_keys(&collator, depth, weighting == UCA_NON_IGNORABLE ? 3 : 4);
    uca_close(&collator);
    if (status != UCA_OK) {
        fprintf(stderr, "uca_key: status %u\n", status);
    }
    return status != UCA_OK;
}
