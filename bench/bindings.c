/* Times of calls of the library for C, beside ICU4C, over the lines of a file.

     bindings TABLE DATA BOOK LINES

   The lines are sorted. Each round goes over all lines, or over pairs of them: neighbours, or lines that are far from each
   other. The latter are the first and the second half of the sorted lines, so one pair begins mostly as the pair before it.
   Or pairs with other first letters come in any order, as in a search or a sort. It prints a line for each kind: its name,
   and the nanoseconds of a call of uca and of ICU, each in its fastest round of five. Compact keys stand beside ICU's sort
   keys. The times are of the processor. With threads they are of the clock: each thread makes the keys of all lines.
   Collators of uca share their table, and ICU's is one. Variable elements are non-ignorable, and there are three levels. */
#include "uca.h"

#include <pthread.h>
#include <stdio.h>
#include <stdlib.h>
#include <string.h>
#include <time.h>
#include <unicode/ucol.h>
#include <unicode/ustring.h>
#include <unistd.h>

enum { ROUNDS = 5, ROOM = 1 << 20 };

typedef struct text {
    const char *bytes;
    size_t length;
} text;

typedef struct bench {
    uca_collator uca, compact; /* the second has a book */
    UCollator *icu;
    text *lines, *copies; /* the copies are elsewhere in memory */
    size_t count;
    uint8_t *key;
    UChar *wide;
    volatile long sum;
} bench;

typedef void (*call)(bench *it, const text *left, const text *right);

static double now(clockid_t clock)
{
    struct timespec time;
    clock_gettime(clock, &time);
    return time.tv_sec * 1e9 + time.tv_nsec;
}

static char *read_file(const char *path, size_t *length)
{
    FILE *file = fopen(path, "rb");
    if (!file || fseek(file, 0, SEEK_END)) {
        perror(path);
        exit(1);
    }
    *length = (size_t)ftell(file);
    rewind(file);
    char *bytes = malloc(*length + 1);
    if (!bytes || fread(bytes, 1, *length, file) != *length) {
        perror(path);
        exit(1);
    }
    fclose(file);
    return bytes;
}

static text *lines_of(const char *path, size_t *count)
{
    size_t length;
    char *bytes = read_file(path, &length), *end = bytes + length;
    text *lines = malloc((length + 1) * sizeof *lines);
    if (!lines) {
        exit(1);
    }
    *count = 0;
    for (char *at = bytes, *next; at < end && (next = memchr(at, '\n', (size_t)(end - at))); at = next + 1) {
        lines[(*count)++] = (text){at, (size_t)(next - at)};
    }
    return lines;
}

static void read_lines(bench *it, const char *path)
{
    it->lines = lines_of(path, &it->count);
    it->copies = lines_of(path, &it->count);
}

static void open_uca(bench *it, const char *table_path, const char *data_path, const char *book_path)
{
    size_t table_length, data_length, book_length;
    uint8_t *table = (uint8_t *)read_file(table_path, &table_length), *data = (uint8_t *)read_file(data_path, &data_length);
    uint8_t *book = (uint8_t *)read_file(book_path, &book_length);
    uca_error error;
    if (uca_open(&it->uca, table, table_length, data, data_length, UCA_NON_IGNORABLE, UCA_WEIGHTS, &error) != UCA_OK
        || uca_open_compact(&it->compact, table, table_length, data, data_length, book, book_length, UCA_NON_IGNORABLE, UCA_WEIGHTS, &error) != UCA_OK) {
        exit(1);
    }
    free(table);
    free(data);
    free(book);
}

static void open_icu(bench *it)
{
    UErrorCode status = U_ZERO_ERROR;
    it->icu = ucol_open("root", &status);
    ucol_setAttribute(it->icu, UCOL_ALTERNATE_HANDLING, UCOL_NON_IGNORABLE, &status);
    ucol_setAttribute(it->icu, UCOL_NORMALIZATION_MODE, UCOL_ON, &status);
    if (U_FAILURE(status)) {
        exit(1);
    }
}

static void uca_keys(bench *it, const text *left, const text *right)
{
    size_t needed;
    (void)right;
    uca_key(&it->uca, (const uint8_t *)left->bytes, left->length, it->key, ROOM, &needed);
    it->sum += (long)needed;
}

static void uca_compact_keys(bench *it, const text *left, const text *right)
{
    size_t needed;
    (void)right;
    uca_key(&it->compact, (const uint8_t *)left->bytes, left->length, it->key, ROOM, &needed);
    it->sum += (long)needed;
}

static void icu_keys(bench *it, const text *left, const text *right)
{
    UErrorCode status = U_ZERO_ERROR;
    int32_t length;
    (void)right;
    u_strFromUTF8(it->wide, ROOM, &length, left->bytes, (int32_t)left->length, &status);
    it->sum += ucol_getSortKey(it->icu, it->wide, length, it->key, ROOM);
}

static void uca_comparison_of(bench *it, const text *left, const text *right)
{
    uca_comparison found;
    uca_compare(&it->uca, (const uint8_t *)left->bytes, left->length, (const uint8_t *)right->bytes, right->length, &found);
    it->sum += found.order;
}

static void icu_comparison_of(bench *it, const text *left, const text *right)
{
    UErrorCode status = U_ZERO_ERROR;
    it->sum += ucol_strcollUTF8(it->icu, left->bytes, (int32_t)left->length, right->bytes, (int32_t)right->length, &status);
}

/* The nanoseconds of a call, over so many pairs of a line and the right text beside it. */
static double time_of(bench *it, call make, const text *rights, size_t pairs)
{
    double best = 0;
    for (int round = 0; round < ROUNDS; round++) {
        double begun = now(CLOCK_PROCESS_CPUTIME_ID);
        for (size_t i = 0; i < pairs; i++) {
            make(it, &it->lines[i], &rights[i]);
        }
        double spent = (now(CLOCK_PROCESS_CPUTIME_ID) - begun) / (double)pairs;
        best = round == 0 || spent < best ? spent : best;
    }
    return best;
}

static void report(bench *it, const char *name, call uca, call icu, const text *rights, size_t pairs)
{
    printf("%s %.1f %.1f\n", name, time_of(it, uca, rights, pairs), time_of(it, icu, rights, pairs));
}

/* The first code point of a line. */
static text first_letter(const text *line)
{
    size_t length = line->length > 0;
    while (length < line->length && (line->bytes[length] & 0xC0) == 0x80) {
        length++;
    }
    return (text){line->bytes, length};
}

static int differ_at_first(bench *it, const text *left, const text *right)
{
    text one = first_letter(left), other = first_letter(right);
    uca_comparison found;
    return uca_compare(&it->uca, (const uint8_t *)one.bytes, one.length, (const uint8_t *)other.bytes, other.length, &found) == UCA_OK
        && found.level == 1;
}

/* Puts the lines into a mixed order, always the same one. Then it keeps pairs whose first letters differ at level 1, and
   says how many. The right texts begin in the middle. */
static size_t mix(bench *it)
{
    uint64_t random = 1;
    for (size_t i = it->count; i > 1; i--) {
        random = random * 6364136223846793005u + 1442695040888963407u;
        size_t other = (size_t)(random >> 33) % i;
        text kept = it->lines[i - 1];
        it->lines[i - 1] = it->lines[other];
        it->lines[other] = kept;
    }
    size_t pairs = 0, half = it->count / 2;
    for (size_t i = 0; i < half; i++) {
        if (differ_at_first(it, &it->lines[i], &it->lines[i + half])) {
            it->lines[pairs] = it->lines[i];
            it->lines[pairs + half] = it->lines[i + half];
            pairs++;
        }
    }
    return pairs;
}

static void report_mixed(bench *it, const char *path)
{
    text *sorted = it->lines;
    it->lines = lines_of(path, &it->count);
    size_t pairs = mix(it);
    report(it, "other first letters, in any order", uca_comparison_of, icu_comparison_of, it->lines + it->count / 2, pairs);
    it->lines = sorted;
}

enum { MOST_THREADS = 64, APART = 128 };

/* A thread, with a collator and memory of its own over the same lines. A call writes its collator. So no two workers have a
   line of the cache in common, nor two lines that are fetched together. */
typedef struct worker {
    _Alignas(APART) pthread_t thread;
    bench own;
    call make;
} worker;

static void *work(void *given)
{
    worker *it = given;
    for (size_t i = 0; i < it->own.count; i++) {
        it->make(&it->own, &it->own.lines[i], NULL);
    }
    return NULL;
}

/* The nanoseconds on the clock of a call, where so many threads make calls at once. */
static double time_in_threads(worker *workers, int threads, call make)
{
    double best = 0;
    for (int round = 0; round < ROUNDS; round++) {
        double begun = now(CLOCK_MONOTONIC);
        for (int i = 0; i < threads; i++) {
            workers[i].make = make;
            if (pthread_create(&workers[i].thread, NULL, work, &workers[i])) {
                exit(1);
            }
        }
        for (int i = 0; i < threads; i++) {
            pthread_join(workers[i].thread, NULL);
        }
        double spent = (now(CLOCK_MONOTONIC) - begun) / ((double)workers->own.count * threads);
        best = round == 0 || spent < best ? spent : best;
    }
    return best;
}

static void report_threads(bench *it)
{
    static worker workers[MOST_THREADS];
    long most = sysconf(_SC_NPROCESSORS_ONLN);
    for (int i = 0; i < most && i < MOST_THREADS; i++) {
        bench *own = &workers[i].own;
        *own = (bench){.uca = UCA_CLOSED_COLLATOR, .icu = it->icu, .lines = it->lines, .count = it->count};
        own->key = malloc(ROOM);
        own->wide = malloc(ROOM * sizeof(UChar));
        if (!own->key || !own->wide || uca_share(&it->uca, &own->uca) != UCA_OK) {
            exit(1);
        }
    }
    for (int threads = 1; threads <= most && threads <= MOST_THREADS; threads *= 2) {
        printf("keys, %d threads %.0f %.0f\n", threads, time_in_threads(workers, threads, uca_keys), time_in_threads(workers, threads, icu_keys));
    }
}

int main(int count, char **arguments)
{
    bench it = {.uca = UCA_CLOSED_COLLATOR, .compact = UCA_CLOSED_COLLATOR, .key = malloc(ROOM), .wide = malloc(ROOM * sizeof(UChar))};
    if (count != 5 || !it.key || !it.wide) {
        return 2;
    }
    open_uca(&it, arguments[1], arguments[2], arguments[3]);
    open_icu(&it);
    read_lines(&it, arguments[4]);
    report(&it, "keys", uca_keys, icu_keys, it.lines, it.count);
    report(&it, "compact keys", uca_compact_keys, icu_keys, it.lines, it.count);
    report(&it, "neighbours", uca_comparison_of, icu_comparison_of, it.lines + 1, it.count - 1);
    report(&it, "far from each other", uca_comparison_of, icu_comparison_of, it.lines + it.count / 2, it.count / 2);
    report_mixed(&it, arguments[4]);
    report(&it, "a line and itself", uca_comparison_of, icu_comparison_of, it.lines, it.count);
    report(&it, "a line and a copy", uca_comparison_of, icu_comparison_of, it.copies, it.count);
    report_threads(&it);
    return 0;
}
