/* Each allocation of a whole use fails in turn, alone and with all after it. It is linked with --wrap=malloc, --wrap=realloc and --wrap=free, so
   that the library's allocations come here. Prints a line for each check that fails, and how many runs there were; its status is
   1 if one failed. */
#include "uca.h"

#include <stdio.h>
#include <stdlib.h>
#include <string.h>

void *__real_malloc(size_t size);
void *__real_realloc(void *block, size_t size);
void __real_free(void *block);
void *__wrap_malloc(size_t size);
void *__wrap_realloc(void *block, size_t size);
void __wrap_free(void *block);

static long asked, first_failing, last_failing, held, failed;

static bool fails(void)
{
    asked++;
    return first_failing <= asked && asked <= last_failing;
}

void *__wrap_malloc(size_t size)
{
    void *block = fails() ? NULL : __real_malloc(size);
    held += block != NULL;
    return block;
}

void *__wrap_realloc(void *block, size_t size)
{
    void *moved = fails() ? NULL : __real_realloc(block, size);
    held += moved != NULL && block == NULL;
    return moved;
}

void __wrap_free(void *block)
{
    held -= block != NULL;
    __real_free(block);
}

static const char TABLE[] = "@version 1\n@implicitweights 17000..18AFF; FB00\n0061 ; [.1C47.0020.0002]\n0062 0061 ; [.1C60.0020.0002][.1C61.0020.0002]\n"
                            "0301 ; [.0000.0024.0002]\n";
static const char DATA[] = "@data 1\nccc 0301..0301 230\ncore 4E00..9FFF\n";
static const uint8_t KEY[] = {0x1C, 0x47, 0, 0, 0, 0x20, 0, 0x24, 0, 0, 0, 2, 0, 2};

/* What sha256sum prints of the text that uca.h states, for this table, this data file, the weighting non-ignorable and weights. */
static const uint8_t FINGERPRINT[] = {0x1A, 0xFD, 0xE2, 0x19, 0x3C, 0x58, 0xB8, 0x0A, 0x69, 0x87, 0x60, 0x37, 0x0F, 0xBE, 0x01, 0x1A,
                                      0x15, 0x56, 0x69, 0xFF, 0x00, 0xD6, 0x44, 0x0C, 0xF0, 0x61, 0x69, 0x34, 0xA1, 0x6B, 0xA9, 0xE2};

#define BYTES(text) (const uint8_t *)(text), sizeof(text) - 1
#define CHECK(fact) check((fact), __LINE__, #fact)

static void check(bool holds, int line, const char *what)
{
    if (!holds) {
        failed++;
        printf("memory.c:%d: %s, where allocations %ld to %ld fail\n", line, what, first_failing, last_failing);
    }
}

static bool is_memory(uint32_t status, const uca_error *error)
{
    return status == UCA_MEMORY || ((status == UCA_TABLE || status == UCA_DATA) && error->kind == UCA_KIND_MEMORY && error->line > 0);
}

static bool can_fail(void)
{
    return asked >= first_failing && first_failing > 0;
}

/* Whether the fingerprint is made. Else memory ran out, and nothing is written. */
static bool has_fingerprint(void)
{
    uca_error error = {7, 7};
    uint8_t sum[32] = {0xEE};
    uint32_t status = uca_fingerprint(BYTES(TABLE), BYTES(DATA), UCA_NON_IGNORABLE, UCA_WEIGHTS, sum, &error);
    CHECK(status == UCA_OK ? memcmp(sum, FINGERPRINT, sizeof sum) == 0 && error.line == 0 && error.kind == 0
                           : can_fail() && is_memory(status, &error) && sum[0] == 0xEE && sum[31] == 0);
    return status == UCA_OK;
}

static const char BOOK[] = "@book 1\n1 1C47\n1 1C48\n";
static const uint8_t COMPACT_KEY[] = {8, 4, 99, 103, 1};

/* Whether bytes are made: these. Else memory ran out, and nothing is written. */
static bool is_made(uint32_t status, const uint8_t *out, size_t needed, const uint8_t *bytes, size_t length)
{
    CHECK(status == UCA_OK ? needed == length && memcmp(out, bytes, length) == 0 : can_fail() && status == UCA_MEMORY && needed == 0 && out[0] == 0xEE);
    return status == UCA_OK;
}

/* What is opened in a use. */
typedef struct opened {
    uca_collator collator;
    uca_upgrade upgrade;
} opened;

static const opened CLOSED = {UCA_CLOSED_COLLATOR, UCA_CLOSED_UPGRADE};

/* Opens with a book, makes a key, both forms of it, and ends of ranges. Returns whether nothing failed. */
static bool use_compact(opened *opened)
{
    uca_collator *it = &opened->collator;
    uca_error error = {7, 7};
    if (!it->is_open) {
        uint32_t status = uca_open_compact(it, BYTES(TABLE), BYTES(DATA), BYTES(BOOK), UCA_NON_IGNORABLE, UCA_WEIGHTS, &error);
        CHECK(status == UCA_OK ? it->is_open
                               : can_fail() && !it->is_open && (is_memory(status, &error) || (status == UCA_BOOK && error.kind == UCA_KIND_MEMORY)));
        if (status != UCA_OK) {
            return false;
        }
    }
    uint8_t key[64] = {0xEE}, compact[64] = {0xEE}, whole[64] = {0xEE}, low[64] = {0xEE}, high[64] = {0xEE};
    size_t needed = 7;
    uint32_t status = uca_key(it, BYTES("a\xCC\x81"), key, sizeof key, &needed);
    bool is_key = is_made(status, key, needed, COMPACT_KEY, sizeof COMPACT_KEY);
    status = uca_compact(it, KEY, sizeof KEY, compact, sizeof compact, &needed);
    bool is_compact = is_made(status, compact, needed, COMPACT_KEY, sizeof COMPACT_KEY);
    status = uca_expand(it, COMPACT_KEY, sizeof COMPACT_KEY, whole, sizeof whole, &needed);
    bool is_whole = is_made(status, whole, needed, KEY, sizeof KEY);
    status = uca_range(it, BYTES("a\xCC\x81"), UCA_SAME_LETTERS, UCA_LOW, low, sizeof low, &needed);
    bool is_low = is_made(status, low, needed, (const uint8_t[]){8, 0}, 2);
    status = uca_range(it, BYTES("a\xCC\x81"), UCA_SAME_ACCENTS, UCA_HIGH, high, sizeof high, &needed);
    return is_made(status, high, needed, (const uint8_t[]){8, 4, 99, 103, 3}, 5) && is_key && is_compact && is_whole && is_low;
}

/* Makes a fingerprint, opens, makes a key and compares. Returns whether nothing failed. Each status is OK, or says that memory ran out. */
static bool use(opened *opened)
{
    uca_collator *it = &opened->collator;
    uca_error error = {7, 7};
    uca_comparison found = {7, 7};
    uint8_t out[64] = {0xEE};
    size_t needed = 7;
    bool known = has_fingerprint();
    if (!it->is_open) {
        uint32_t status = uca_open(it, BYTES(TABLE), BYTES(DATA), UCA_NON_IGNORABLE, UCA_WEIGHTS, &error);
        CHECK(status == UCA_OK ? it->is_open : can_fail() && is_memory(status, &error) && !it->is_open);
        if (status != UCA_OK) {
            return false;
        }
    }
    uint32_t status = uca_key(it, BYTES("a\xCC\x81"), out, sizeof out, &needed);
    CHECK(status == UCA_OK ? needed == sizeof KEY && memcmp(out, KEY, sizeof KEY) == 0
                           : can_fail() && status == UCA_MEMORY && needed == 0 && out[0] == 0xEE);
    uint32_t other = uca_compare(it, BYTES("a\xCC\x81"), BYTES("ba"), &found);
    CHECK(other == UCA_OK ? found.order == -1 && found.level == 1 : can_fail() && other == UCA_MEMORY && found.order == 0);
    int32_t order = 7;
    uint32_t third = uca_order(it, BYTES("a\xFF"), BYTES("a\xCC\x81"), &order);
    CHECK(third == UCA_OK ? order == 1 : can_fail() && third == UCA_MEMORY && order == 0);
    return known && status == UCA_OK && other == UCA_OK && third == UCA_OK;
}

/* Opens with a book, and one more that shares the table, makes a key by each, and closes the second. Returns whether nothing failed. */
static bool use_shared(opened *opened)
{
    uca_collator *it = &opened->collator;
    uca_collator other = UCA_CLOSED_COLLATOR;
    uca_error error = {7, 7};
    if (!it->is_open) {
        uint32_t status = uca_open_compact(it, BYTES(TABLE), BYTES(DATA), BYTES(BOOK), UCA_NON_IGNORABLE, UCA_WEIGHTS, &error);
        if (status != UCA_OK) {
            return false;
        }
    }
    uint32_t shared = uca_share(it, &other);
    CHECK(it->is_open && (shared == UCA_OK ? other.is_open : can_fail() && shared == UCA_MEMORY && !other.is_open));
    if (shared != UCA_OK) {
        return false;
    }
    uint8_t key[64] = {0xEE}, same[64] = {0xEE};
    size_t needed = 7;
    uint32_t status = uca_key(&other, BYTES("a\xCC\x81"), key, sizeof key, &needed);
    bool is_key = is_made(status, key, needed, COMPACT_KEY, sizeof COMPACT_KEY);
    uca_close(&other);
    status = uca_key(it, BYTES("a\xCC\x81"), same, sizeof same, &needed);
    return is_made(status, same, needed, COMPACT_KEY, sizeof COMPACT_KEY) && is_key;
}

#define TEN_DIGITS \
    "0030 ; [.1C3D.0020.0002]\n0031 ; [.1C3E.0020.0002]\n" \
    "0032 ; [.1C3F.0020.0002]\n0033 ; [.1C40.0020.0002]\n" \
    "0034 ; [.1C41.0020.0002]\n0035 ; [.1C42.0020.0002]\n" \
    "0036 ; [.1C43.0020.0002]\n0037 ; [.1C44.0020.0002]\n" \
    "0038 ; [.1C45.0020.0002]\n0039 ; [.1C46.0020.0002]\n"

static const char DIGITS[] = "@version 1\n" TEN_DIGITS;
static const uint8_t NUMBER_KEY[] = {0x1C, 0x3E, 0x1C, 0x44, 0, 0, 0,    0x20, 0, 0x20, 0, 0,
                                     0,    2,    0,    2,    0, 0, 0, 0, 0x30, 0, 0,    0x37};

/* Opens with numbers by value, makes a key and compares. `07` is read as `17`. Returns whether nothing failed. */
static bool use_numbers(opened *opened)
{
    uca_collator *it = &opened->collator;
    uca_error error = {7, 7};
    uca_comparison found = {7, 7};
    uint8_t key[64] = {0xEE}, low[64] = {0xEE};
    size_t needed = 7;
    if (!it->is_open) {
        uint32_t depth = UCA_IDENTICAL | UCA_NUMERIC;
        uint32_t status = uca_open(it, BYTES(DIGITS), BYTES(DATA), UCA_NON_IGNORABLE, depth, &error);
        CHECK(status == UCA_OK ? it->is_open : can_fail() && is_memory(status, &error) && !it->is_open);
        if (status != UCA_OK) {
            return false;
        }
    }
    uint32_t status = uca_key(it, BYTES("07"), key, sizeof key, &needed);
    bool is_key = is_made(status, key, needed, NUMBER_KEY, sizeof NUMBER_KEY);
    status = uca_range(it, BYTES("07"), UCA_SAME_LETTERS, UCA_LOW, low, sizeof low, &needed);
    bool is_low = is_made(status, low, needed, NUMBER_KEY, 4);
    uint32_t other = uca_compare(it, BYTES("7"), BYTES("10"), &found);
    CHECK(other == UCA_OK ? found.order == -1 : can_fail() && other == UCA_MEMORY && found.order == 0);
    int32_t order = 7;
    uint32_t third = uca_order(it, BYTES("07"), BYTES("7"), &order);
    CHECK(third == UCA_OK ? order == -1 : can_fail() && third == UCA_MEMORY && order == 0);
    return is_key && is_low && other == UCA_OK && third == UCA_OK;
}

/* In the new edition b has another weight, and c is there. */
static const char NEW_TABLE[] = "@version 2\n" TEN_DIGITS "0061 ; [.1C47.0020.0002]\n0062 ; [.1C70.0020.0002]\n0063 ; [.1C60.0020.0002]\n0301 ; [.0000.0024.0002]\n";
static const char OLD_TABLE[] = "@version 1\n" TEN_DIGITS "0061 ; [.1C47.0020.0002]\n0062 ; [.1C60.0020.0002]\n0301 ; [.0000.0024.0002]\n";
static const char ACCENT[] = "@data 1\nccc 0301..0301 230\n";
static const char CHANGES[] = "@changes 1\ntext 0063\n";
static const char MAPS[] = "1 1C3D 1C3D 000B\n1 1C60 1C70 0001\n2 0020 0020 0001\n2 0024 0024 0001\n3 0002 0002 0001\n";
static const uint8_t OLD_KEY[] = {0x1C, 0x60, 0, 0, 0, 0x20, 0, 0, 0, 2};
static const uint8_t NEW_KEY[] = {0x1C, 0x70, 0, 0, 0, 0x20, 0, 0, 0, 2};

/* Whether it says that memory ran out: while a file was read, or later. */
static bool is_upgrade_memory(uint32_t status, const uca_upgrade_error *error)
{
    bool in_file = error->file >= UCA_OLD_TABLE && error->file <= UCA_CERTIFICATE && error->line > 0 && error->kind == UCA_KIND_MEMORY;
    bool in_none = error->file == 0 && error->line == 0 && error->kind == 0;
    return error->condition == 0 && error->place == 0 && error->number == 0 && ((status == UCA_FILE && in_file) || (status == UCA_MEMORY && in_none));
}

/* Opens an upgrade with numbers by value, judges a text and moves a key. Returns whether nothing failed. */
static bool use_upgrade(opened *opened)
{
    uca_upgrade *it = &opened->upgrade;
    uca_upgrade_error error = {7, 7, 7, 7, 7, 7};
    if (!it->is_open) {
        uint32_t status = uca_open_upgrade(it, BYTES(OLD_TABLE), BYTES(ACCENT), BYTES(NEW_TABLE), BYTES(ACCENT), BYTES(CHANGES), BYTES(MAPS),
                                           UCA_NON_IGNORABLE, UCA_NUMERIC, &error);
        CHECK(status == UCA_OK ? it->is_open : can_fail() && is_upgrade_memory(status, &error) && !it->is_open);
        if (status != UCA_OK) {
            return false;
        }
    }
    uint32_t affected = 7, others = 7;
    uint8_t key[64] = {0xEE};
    size_t needed = 7;
    uint32_t status = uca_affected(it, BYTES("10c\xCC\x81"), &affected);
    CHECK(status == UCA_OK ? affected == 1 : can_fail() && status == UCA_MEMORY && affected == 0);
    uint32_t other = uca_affected(it, BYTES("10\xCC\x81"), &others);
    CHECK(others == 0 && (other == UCA_OK || (can_fail() && other == UCA_MEMORY)));
    uint32_t third = uca_rekey(it, OLD_KEY, sizeof OLD_KEY, key, sizeof key, &needed);
    uint8_t moved[sizeof OLD_KEY];
    memcpy(moved, OLD_KEY, sizeof OLD_KEY);
    uint32_t fourth = uca_rekey_in_place(it, moved, sizeof moved);
    CHECK(fourth == UCA_OK || (can_fail() && fourth == UCA_MEMORY));
    CHECK(memcmp(moved, fourth == UCA_OK ? NEW_KEY : OLD_KEY, sizeof moved) == 0);
    return is_made(third, key, needed, NEW_KEY, sizeof NEW_KEY) && status == UCA_OK && other == UCA_OK && fourth == UCA_OK;
}

/* Where a text is rejected, the beginning of a key, and the bound of keys. Returns whether nothing failed. */
static bool use_texts(opened *opened)
{
    uca_collator *it = &opened->collator;
    uca_error error = {7, 7};
    if (!it->is_open) {
        uint32_t status = uca_open_compact(it, BYTES(TABLE), BYTES(DATA), BYTES(BOOK), UCA_NON_IGNORABLE, UCA_WEIGHTS, &error);
        if (status != UCA_OK) {
            return false;
        }
    }
    uint8_t key[64] = {0xEE};
    size_t needed = 7, position = 7;
    uint32_t status = uca_key_beginning(it, BYTES("a\xCC\x81"), key, 3, &needed);
    CHECK(status == UCA_OK ? needed == sizeof COMPACT_KEY && memcmp(key, COMPACT_KEY, 3) == 0 && key[3] == 0
                           : can_fail() && status == UCA_MEMORY && needed == 0 && key[0] == 0xEE);
    uint32_t other = uca_check_text(it, BYTES("a\xCC\x81"), &position);
    CHECK(position == 0 && (other == UCA_OK || (can_fail() && other == UCA_MEMORY)));
    size_t bound = 7;
    CHECK(uca_key_bound(it, 3, &bound) == UCA_OK && bound == 2 * (518 * 3 + 8) + 1);
    return status == UCA_OK && other == UCA_OK;
}

/* What a command wrote. */
typedef struct written {
    uint8_t out[256], err[256], kept[256];
    uca_lengths lengths;
} written;

#define ROOM_OF(bytes) ((uca_room){bytes, sizeof(bytes) - 1})

/* Whether a command did its work: it wrote this output, and made this file, or none. Else memory ran out. Then the status is 4, or 3 where
   the output had no memory. No more is written than a beginning of the output, and the whole file or none. */
static bool is_run(uint32_t status, const written *it, const char *out, const char *kept)
{
    const uca_lengths *lengths = &it->lengths;
    bool is_file = lengths->files == 1 && kept && !strcmp((const char *)it->kept, kept) && lengths->kept == strlen(kept);
    bool is_no_file = lengths->files == 0 && lengths->kept == 0;
    bool is_done = status == 0 && !strcmp((const char *)it->out, out) && lengths->out == strlen(out) && lengths->err == 0 && (kept ? is_file : is_no_file);
    bool is_begun = lengths->out <= strlen(out) && !strncmp((const char *)it->out, out, lengths->out) && (is_no_file || (is_file && status == 3));
    bool is_none = status == UCA_RUN_MEMORY && lengths->out == 0 && lengths->err == 0 && is_no_file;
    CHECK(is_done || (can_fail() && (((status == 3 || status == 4) && is_begun) || is_none)));
    return is_done;
}

static const char LETTERS[] = "@version 1\n0061 ; [.1C47.0020.0002]\n0062 ; [.1C60.0020.0002]\n";
static const char RULES[] = "& a < c";
static const char TAILORED[] = "@version 1\n0061 ; [.1C47.0020.0002]\n0062 ; [.1C60.0020.0002]\n0063 ; [.1C48.0020.0002]\n";
static const char PLAN[] = "1 1C47 1C47 0001\n1 1C60 1C60 0001\n2 0020 0020 0001\n3 0002 0002 0001\n";

/* Tailors a table. Returns whether nothing failed. */
static bool use_tailor(opened *opened)
{
    (void)opened;
    written it = {0};
    uca_bytes table = {BYTES(LETTERS)}, data = {BYTES(ACCENT)}, rules = {BYTES(RULES)};
    uint32_t status = uca_tailor(table, data, rules, ROOM_OF(it.out), ROOM_OF(it.kept), ROOM_OF(it.err), &it.lengths);
    return is_run(status, &it, TAILORED, PLAN);
}

/* Audits a tailored table. Returns whether nothing failed. */
static bool use_audit(opened *opened)
{
    (void)opened;
    written it = {0};
    uca_bytes table = {BYTES(LETTERS)}, data = {BYTES(ACCENT)}, rules = {BYTES(RULES)}, tailored = {BYTES(TAILORED)}, plan = {BYTES(PLAN)};
    uint32_t status = uca_audit(table, data, rules, tailored, plan, ROOM_OF(it.out), ROOM_OF(it.err), &it.lengths);
    return is_run(status, &it, "accepted\n", NULL);
}

/* Finds changes. Returns whether nothing failed. */
static bool use_find_changes(opened *opened)
{
    (void)opened;
    written it = {0};
    uca_bytes before = {BYTES(OLD_TABLE)}, data = {BYTES(ACCENT)}, after = {BYTES(NEW_TABLE)};
    uint32_t status = uca_find_changes(before, data, after, data, ROOM_OF(it.out), ROOM_OF(it.kept), ROOM_OF(it.err), &it.lengths);
    return is_run(status, &it, CHANGES, MAPS);
}

/* Audits changes. Returns whether nothing failed. */
static bool use_audit_changes(opened *opened)
{
    (void)opened;
    written it = {0};
    uca_bytes before = {BYTES(OLD_TABLE)}, data = {BYTES(ACCENT)}, after = {BYTES(NEW_TABLE)}, changes = {BYTES(CHANGES)}, maps = {BYTES(MAPS)};
    uint32_t status = uca_audit_changes(before, data, after, data, changes, maps, ROOM_OF(it.out), ROOM_OF(it.err), &it.lengths);
    return is_run(status, &it, "accepted\n", NULL);
}

static void close_all(opened *it)
{
    uca_close(&it->collator);
    uca_close_upgrade(&it->upgrade);
}

/* A use in which these allocations fail, and then one, of what is open by then, in which none does. */
static void run(bool uses(opened *), long first, long last)
{
    opened it = CLOSED;
    asked = 0;
    first_failing = first;
    last_failing = last;
    uses(&it);
    first_failing = last_failing = 0;
    CHECK(uses(&it));
    close_all(&it);
    CHECK(held == 0);
}

/* Each allocation of this use fails in turn. Returns how many there are. */
static long run_all(bool uses(opened *))
{
    opened it = CLOSED;
    asked = 0;
    CHECK(uses(&it));
    close_all(&it);
    long count = asked;
    for (long n = 1; n <= count; n++) {
        run(uses, n, n);
        run(uses, n, count + 1000);
    }
    return count;
}

int main(void)
{
    bool (*const uses[])(opened *) = {use, use_compact, use_shared, use_numbers, use_upgrade, use_texts,
                                      use_tailor, use_audit, use_find_changes, use_audit_changes};
    long all = 0;
    for (size_t i = 0; i < sizeof uses / sizeof *uses; i++) {
        long count = run_all(uses[i]);
        CHECK(count > 0);
        all += count;
    }
    printf("%ld runs, %ld checks failed\n", 2 * all, failed);
    return failed != 0;
}
