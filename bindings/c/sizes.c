/* Calls of uca.h over texts, digits, tables and letters in many numbers: around powers of two, around round numbers,
   and random ones. There is memory to spare, so no call may say UCA_MEMORY. Prints a line for each check that fails,
   and how many passed; its status is 1 if one failed. */
#include "uca.h"

#include <stdio.h>
#include <stdlib.h>
#include <string.h>

static const char TABLE[] = "@version 1\n"
                            "0061 ; [.1C47.0020.0002]\n"
                            "0062 ; [.1C60.0020.0002]\n"
                            "0301 ; [.0000.0024.0002]\n";
static const char DATA[] = "@data 1\nccc 0300..0314 230\n";
static const char BOOK[] = "@book 1\n1 1C47\n1 1C48\n";
static const char HEAD[] = "@version 1\n";

/* The greatest size, how many sizes are random below each power of two, and how many bytes a row has. */
#define MOST 131073
#define RANDOM 20
#define ROW 26
#define FIRST 0x30000

#define BYTES(text) (const uint8_t *)(text), sizeof(text) - 1

static int passed, failed;

static void check(bool holds, const char *what, size_t size)
{
    if (holds) {
        passed++;
    } else {
        failed++;
        printf("%s: %zu\n", what, size);
    }
}

static void *memory(size_t size)
{
    void *made = malloc(size ? size : 1);
    if (!made) {
        puts("out of memory");
        exit(1);
    }
    return made;
}

static size_t sizes[1024], count;

static void around(size_t size)
{
    for (size_t near = size - 1; near <= size + 1; near++) {
        if (near <= MOST) {
            sizes[count++] = near;
        }
    }
}

static void choose_sizes(void)
{
    uint64_t state = 59;
    for (size_t power = 1; power <= MOST; power *= 2) {
        around(power);
    }
    for (size_t power = 1; power <= MOST; power *= 10) {
        for (size_t digit = 1; digit < 10; digit++) {
            around(digit * power);
        }
    }
    for (size_t below = 2; below <= MOST; below *= 2) {
        for (size_t i = 0; i < RANDOM; i++) {
            state = state * 0x5851F42D4C957F2D + 0x14057B7EF767814F;
            sizes[count++] = (state >> 33) % below;
        }
    }
}

/* Bytes that come again and again. */
static uint8_t *put(uint8_t *at, const char *bytes, size_t length, size_t times)
{
    for (size_t i = 0; i < times; i++) {
        memcpy(at, bytes, length);
        at += length;
    }
    return at;
}

/* A text that comes again and again, and its weights at levels 2 and 3. At level 1 it has 1C47. */
typedef struct part {
    const char *text, *secondary, *tertiary;
    size_t length, secondary_length, tertiary_length;
} part;

#define PART(text, secondary, tertiary) \
    {text, secondary, tertiary, sizeof(text) - 1, sizeof(secondary) - 1, sizeof(tertiary) - 1}

static const part PARTS[] = {PART("a", "\0\x20", "\0\x02"), PART("\xC3\xA1", "\0\x20\0\x24", "\0\x02\0\x02")};

static void check_text(uca_collator *whole, uca_collator *compact, const part *it, size_t times)
{
    size_t length = it->length * times, first_length = 2 * times + 2 + it->secondary_length * times, needed;
    size_t key_length = first_length + 2 + it->tertiary_length * times, room = 2 * key_length + 64, compact_length;
    uint8_t *text = memory(length + 1), *key = memory(key_length), *out = memory(room), *short_key = memory(room);
    uca_comparison found;
    int32_t order;
    put(put(text, it->text, it->length, times), "b", 1, 1);
    uint8_t *at = put(put(key, "\x1C\x47", 2, times), "\0\0", 2, 1);
    at = put(put(at, it->secondary, it->secondary_length, times), "\0\0", 2, 1);
    put(at, it->tertiary, it->tertiary_length, times);
    uint32_t status = uca_key(whole, text, length, out, key_length, &needed);
    check(status == UCA_OK && needed == key_length && !memcmp(out, key, needed), "uca_key", length);
    status = uca_range(whole, text, length, UCA_SAME_ACCENTS, UCA_LOW, out, room, &needed);
    check(status == UCA_OK && needed == first_length && !memcmp(out, key, needed), "uca_range", length);
    status = uca_compare(whole, text, length, text, length + 1, &found);
    check(status == UCA_OK && found.order == -1 && found.level == 1, "uca_compare", length);
    status = uca_compare(whole, text, length, text, length, &found);
    check(status == UCA_OK && found.order == 0 && found.level == 0, "uca_compare with itself", length);
    status = uca_order(whole, text, length + 1, text, length, &order);
    check(status == UCA_OK && order == 1, "uca_order", length);
    status = uca_key(compact, text, length, short_key, room, &compact_length);
    check(status == UCA_OK, "uca_key with a book", length);
    status = uca_compact(compact, key, key_length, out, room, &needed);
    check(status == UCA_OK && needed == compact_length && !memcmp(out, short_key, needed), "uca_compact", length);
    status = uca_expand(compact, short_key, compact_length, out, room, &needed);
    check(status == UCA_OK && needed == key_length && !memcmp(out, key, needed), "uca_expand", length);
    for (uint32_t range = UCA_SAME_LETTERS; range <= UCA_BEGINS; range++) {
        status = uca_range(compact, text, length, range, UCA_HIGH, out, room, &needed);
        check(status == UCA_OK, "uca_range with a book", length);
    }
    free(short_key);
    free(out);
    free(key);
    free(text);
}

static void check_texts(void)
{
    uca_collator whole = UCA_CLOSED_COLLATOR, compact = UCA_CLOSED_COLLATOR;
    uca_error error;
    uint32_t status = uca_open(&whole, BYTES(TABLE), BYTES(DATA), UCA_NON_IGNORABLE, UCA_WEIGHTS, &error);
    check(status == UCA_OK, "uca_open", 0);
    status = uca_open_compact(&compact, BYTES(TABLE), BYTES(DATA), BYTES(BOOK), UCA_NON_IGNORABLE, UCA_WEIGHTS, &error);
    check(status == UCA_OK, "uca_open_compact", 0);
    for (size_t i = 0; i < count; i++) {
        check_text(&whole, &compact, &PARTS[0], sizes[i]);
        check_text(&whole, &compact, &PARTS[1], sizes[i]);
    }
    uca_close(&compact);
    uca_close(&whole);
}

/* The key of a letter has this weight at level 1, or the implicit weights (UTS #10, section 10.1.3) of a letter without
   a row. */
static void check_letter(uca_collator *it, uint32_t code, uint32_t weight, size_t size)
{
    const uint8_t low = 0x80 | (code & 0x3F), middle = 0x80 | (code >> 6 & 0x3F), high = 0x80 | (code >> 12 & 0x3F);
    const uint8_t text[] = {0xF0 | code >> 18, high, middle, low};
    uint32_t lead = weight ? weight : 0xFBC0 + (code >> 15), after = 0x8000 | (code & 0x7FFF);
    const uint8_t front[] = {lead >> 8, lead & 0xFF, after >> 8, after & 0xFF};
    uint8_t wanted[12], out[12];
    uint8_t *end = put(put(wanted, (const char *)front, weight ? 2 : 4, 1), "\0\0\0\x20\0\0\0\x02", 8, 1);
    size_t needed, length = (size_t)(end - wanted);
    uint32_t status = uca_key(it, text, 4, out, sizeof out, &needed);
    check(status == UCA_OK && needed == length && !memcmp(out, wanted, length), "the key of a letter", size);
}

/* One letter of each 256 code points, from plane 3 on. A collator keeps what it knows of code points by such pages. */
static void check_pages(void)
{
    uca_collator it = UCA_CLOSED_COLLATOR;
    uca_error error;
    uint32_t status = uca_open(&it, BYTES(TABLE), BYTES(DATA), UCA_NON_IGNORABLE, UCA_WEIGHTS, &error);
    check(status == UCA_OK, "uca_open", 0);
    for (uint32_t page = 0x300; page < 0x1100; page++) {
        check_letter(&it, page * 256 + 1, 0, page);
    }
    uca_close(&it);
}

/* A number of so many digits 7 is read after its length: 1 to 8, 91 to 98, 991 to 998 and so on. */
static void check_number(uca_collator *it, size_t digits)
{
    size_t nines = (digits - 1) / 8, points = nines + 1 + digits, length = 6 * points + 4, needed;
    const char last[] = {0x20, (char)('1' + (digits - 1) % 8)};
    uint8_t *text = memory(digits), *key = memory(length), *out = memory(length);
    memset(text, '7', digits);
    uint8_t *at = put(put(put(key, "\x20\x39", 2, nines), last, 2, 1), "\x20\x37", 2, digits);
    at = put(put(at, "\0\0", 2, 1), "\0\x20", 2, points);
    put(put(at, "\0\0", 2, 1), "\0\x02", 2, points);
    uint32_t status = uca_key(it, text, digits, out, length, &needed);
    check(status == UCA_OK && needed == length && !memcmp(out, key, length), "the key of a number", digits);
    free(out);
    free(key);
    free(text);
}

/* Each digit has the weight 2000 and its code point. */
static void check_numbers(void)
{
    char table[512];
    size_t length = (size_t)sprintf(table, "%s", HEAD);
    for (int digit = '0'; digit <= '9'; digit++) {
        length += (size_t)sprintf(table + length, "%04X ; [.20%02X.0020.0002]\n", digit, digit);
    }
    uca_collator it = UCA_CLOSED_COLLATOR;
    uca_error error;
    uint32_t weighting = UCA_NON_IGNORABLE, status;
    status = uca_open(&it, (const uint8_t *)table, length, BYTES(DATA), weighting, UCA_NUMERIC, &error);
    check(status == UCA_OK, "uca_open with numbers by value", 0);
    for (size_t i = 0; i < count; i++) {
        check_number(&it, sizes[i] + 1);
    }
    uca_close(&it);
}

static uint32_t weight_of(size_t number)
{
    return 0x1000 + number % 0x8000;
}

static void check_rows(const uint8_t *table, size_t rows)
{
    size_t length = sizeof(HEAD) - 1 + ROW * rows;
    uca_collator it = UCA_CLOSED_COLLATOR;
    uca_error error;
    uint8_t digest[32];
    uint32_t weighting = UCA_NON_IGNORABLE, status;
    status = uca_open_compact(&it, table, length, BYTES(DATA), BYTES(BOOK), weighting, UCA_WEIGHTS, &error);
    check(status == UCA_OK, "uca_open_compact", rows);
    uca_close(&it);
    status = uca_fingerprint(table, length, BYTES(DATA), weighting, UCA_WEIGHTS, digest, &error);
    check(status == UCA_OK, "uca_fingerprint", rows);
    status = uca_open(&it, table, length, BYTES(DATA), weighting, UCA_WEIGHTS, &error);
    check(status == UCA_OK, "uca_open", rows);
    if (rows) {
        check_letter(&it, FIRST, weight_of(0), rows);
        check_letter(&it, FIRST + (uint32_t)rows - 1, weight_of(rows - 1), rows);
    }
    check_letter(&it, FIRST + (uint32_t)rows, 0, rows);
    uca_close(&it);
}

static void check_tables(void)
{
    uint8_t *table = memory(sizeof(HEAD) + ROW * MOST), *at = put(table, HEAD, sizeof(HEAD) - 1, 1);
    for (size_t number = 0; number < MOST; number++) {
        at += sprintf((char *)at, "%05zX ; [.%04X.0020.0002]\n", FIRST + number, (unsigned)weight_of(number));
    }
    for (size_t i = 0; i < count; i++) {
        check_rows(table, sizes[i]);
    }
    free(table);
}

int main(void)
{
    choose_sizes();
    check_texts();
    check_numbers();
    check_pages();
    check_tables();
    printf("%d passed, %d failed\n", passed, failed);
    return failed != 0;
}
