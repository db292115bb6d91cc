/* stacks [TABLE DATA]: how much of the stack the calls of uca.h take, over these files, or over files that it makes. A thread makes
   the calls on a stack that was painted before: each byte of it has one value. Afterwards the lowest byte with another value tells
   how far down the stack was used. Prints a line for each row of calls: its name, how many bytes of the stack it took, and how many
   uca.h promises at most. Its status is 1 if a call took more, or did not do its work. */
#ifndef _POSIX_C_SOURCE
#define _POSIX_C_SOURCE 200809L
#endif
#include "uca.h"

#include <pthread.h>
#include <stdlib.h>
#include <string.h>
#include <sys/mman.h>
#include <unistd.h>

/* The bytes of the stack of a thread, the value that each byte of it has before, and how many bytes a thread takes at most for itself. */
#define STACK ((size_t)1 << 20)
#define PAINT 0xA5
#define OF_THREAD 4096

/* How many rows a table has that is made here, how many lines there are, and how many relations the rules have. */
#define ROWS 3000
#define LINES 2000
#define RELATIONS 200

/* Room for what a call writes, in bytes. */
#define ROOM ((size_t)1 << 25)

#define BYTES(text) (const uint8_t *)(text), sizeof(text) - 1
#define TEXT(text) ((uca_bytes){BYTES(text)})

static void fail(const char *what)
{
    printf("stacks: %s\n", what);
    exit(1);
}

static void *memory(size_t size)
{
    void *made = calloc(size ? size : 1, 1);
    if (!made) {
        fail("out of memory");
    }
    return made;
}

/* ---- A painted stack */

typedef struct painted {
    void (*work)(void);
    uintptr_t from; /* the address that the stack of the work is below */
} painted;

static void *do_work(void *given)
{
    painted *it = given;
    it->from = (uintptr_t)__builtin_frame_address(0);
    it->work();
    return it;
}

/* How many bytes of the stack the work takes. The memory of the stack is mapped twice: the thread has it at one address, and it is
   painted and looked at by the other one. So no tool that watches the stack of a thread has something to say. */
static size_t stack_of(void work(void))
{
    static uint8_t *stack, *seen;
    painted it = {work, 0};
    pthread_attr_t attributes;
    pthread_t thread;
    void *done = NULL;
    size_t unused = 0;
    if (!stack) {
        FILE *file = tmpfile();
        if (!file || ftruncate(fileno(file), (off_t)STACK)) {
            fail("there is no file for the stack");
        }
        stack = mmap(NULL, STACK, PROT_READ | PROT_WRITE, MAP_SHARED, fileno(file), 0);
        seen = mmap(NULL, STACK, PROT_READ | PROT_WRITE, MAP_SHARED, fileno(file), 0);
        fclose(file);
    }
    if (stack == MAP_FAILED || seen == MAP_FAILED) {
        fail("the stack is not mapped");
    }
    memset(seen, PAINT, STACK);
    bool is_set = pthread_attr_init(&attributes) == 0 && pthread_attr_setstack(&attributes, stack, STACK) == 0;
    if (!is_set || pthread_create(&thread, &attributes, do_work, &it) || pthread_join(thread, &done) || done != &it) {
        fail("no thread has the stack");
    }
    pthread_attr_destroy(&attributes);
    while (unused < STACK && seen[unused] == PAINT) {
        unused++;
    }
    return (size_t)(it.from - (uintptr_t)stack) - unused;
}

/* ---- The files */

static uca_bytes table, data, rules, book, lines, tailored, plan, changes, maps, keyed, compacted;
static uint8_t *out, *err, *kept;

/* Bytes of its own with what a program of the standard library prints. */
static char *printed;

static uca_bytes taken(void)
{
    return (uca_bytes){(const uint8_t *)printed, strlen(printed)};
}

static char *begun(size_t room)
{
    return printed = memory(room);
}

/* A letter from plane 1 on, in UTF-8. */
static int put_letter(char *at, uint32_t code)
{
    const uint32_t low = 0x80 | (code & 0x3F), middle = 0x80 | (code >> 6 & 0x3F), high = 0x80 | (code >> 12 & 0x3F);
    return sprintf(at, "%c%c%c%c", (int)(0xF0 | code >> 18), (int)high, (int)middle, (int)low);
}

/* Letters of plane 3, the digits, three letters, a space, two accents and a contraction. */
static void make_table(void)
{
    char *at = begun(ROWS * 64 + 4096);
    at += sprintf(at, "@version 1\n@implicitweights 17000..18AFF; FB00\n");
    at += sprintf(at, "0020 ; [*0209.0020.0002]\n0300 ; [.0000.0025.0002]\n0301 ; [.0000.0024.0002]\n");
    for (int digit = 0; digit < 10; digit++) {
        at += sprintf(at, "%04X ; [.%04X.0020.0002]\n", '0' + digit, 0x1C3D + digit);
    }
    at += sprintf(at, "0061 ; [.1C47.0020.0002]\n0061 0062 ; [.1C50.0020.0002]\n0062 ; [.1C60.0020.0002]\n");
    at += sprintf(at, "0063 ; [.1C7A.0020.0002][.1C47.0020.0002]\n");
    for (int row = 0; row < ROWS; row++) {
        at += sprintf(at, "%05X ; [.%04X.0020.0002]\n", 0x30000 + row, 0x2000 + row);
    }
    table = taken();
    data = TEXT("@data 1\nccc 0300..0314 230\nccc 0323..0323 220\ncore 4E00..9FFF\nother 20000..20FFF\n");
}

/* Rules of each strength, for letters of plane 15, which no table of Unicode has. */
static void make_rules(void)
{
    static const char *const signs[] = {"<", "<", "<<", "<<<"};
    char *at = begun(RELATIONS * 16 + 64);
    at += sprintf(at, "& a");
    for (uint32_t i = 0; i < RELATIONS; i++) {
        at += sprintf(at, "%s %s ", i == RELATIONS / 2 ? " & b" : "", signs[i % 4]);
        at += put_letter(at, 0xF0000 + i);
    }
    rules = taken();
}

/* As many starts as level 1 may have, and as level 4 may. */
static void make_book(void)
{
    char *at = begun(8192);
    at += sprintf(at, "@book 1\n");
    for (int i = 0; i < 245; i++) {
        at += sprintf(at, "1 %04X\n", 0x1C00 + 8 * i);
    }
    for (int i = 0; i < 255; i++) {
        at += sprintf(at, "4 %04X\n", 0x0201 + i);
    }
    book = taken();
}

static void make_lines(void)
{
    char *at = begun(LINES * 256);
    for (uint32_t i = 0; i < LINES; i++) {
        at += sprintf(at, "a%u b\xCC\x81\xCC\x80 ab%s", i * 7919 % 1000, i % 3 ? "\xC3\xA1\xE4\xB8\x80" : "");
        at += put_letter(at, 0x30000 + i * 31 % (2 * ROWS));
        at += put_letter(at, 0xF0000 + i % (2 * RELATIONS));
        at += sprintf(at, "%s\n", i % 5 ? "" : "12345678901234567890123456789012345678901234567890123456789012345678901234567890");
    }
    lines = taken();
}

static uca_bytes read_file(const char *path)
{
    FILE *file = fopen(path, "rb");
    uint8_t *bytes = memory(ROOM);
    uca_bytes found = {bytes, file ? fread(bytes, 1, ROOM, file) : 0};
    if (!file || ferror(file) || fclose(file) || found.length == ROOM) {
        fail("a file is not read");
    }
    return found;
}

/* ---- Commands: calls of uca_run, one after another. What one writes is a file of the next. */

typedef struct command {
    const char *name;
    uca_bytes arguments, names;
    const uca_bytes *files[6], *input;
    uint32_t status;
    uca_bytes *made, *made_file; /* where its output goes, and its file */
} command;

#define ARGUMENTS(said, words) .name = said, .arguments = {BYTES("uca\0" words)}
#define NAMES(words) .names = {BYTES(words)}

static const uca_bytes NONE = {(const uint8_t *)"", 0}, BAD = {BYTES("@version 1\n0061 ; [.1C")}, NO_UTF8 = {BYTES("a\n\xFF\n")},
                       OTHER_RULES = {BYTES("& a < b < c")};

static const command COMMANDS[] = {
    {ARGUMENTS("check", "check\0t\0d"), NAMES("t\0d"), .files = {&table, &data}},
    {ARGUMENTS("keys", "keys\0t\0d"), NAMES("t\0d"), .files = {&table, &data}, .input = &lines, .made = &keyed},
    {ARGUMENTS("keys of all depths", "keys\0--lines\0--header\0--identical\0--numeric\0t\0d"), NAMES("t\0d"), .files = {&table, &data}, .input = &lines},
    {ARGUMENTS("keys by a book", "keys\0--compact\0b\0t\0d"), NAMES("t\0d\0b"), .files = {&table, &data, &book}, .input = &lines},
    {ARGUMENTS("keys of no UTF-8", "keys\0t\0d"), NAMES("t\0d"), .files = {&table, &data}, .input = &NO_UTF8, .status = 1},
    {ARGUMENTS("sort", "sort\0t\0d"), NAMES("t\0d"), .files = {&table, &data}, .input = &lines},
    {ARGUMENTS("sort by numbers", "sort\0--identical\0--numeric\0t\0d"), NAMES("t\0d"), .files = {&table, &data}, .input = &lines},
    {ARGUMENTS("compare", "compare\0t\0d\0ab1\0ab2"), NAMES("t\0d"), .files = {&table, &data}},
    {ARGUMENTS("compare by numbers", "compare\0--identical\0--numeric\0t\0d\0a10\0a9"), NAMES("t\0d"), .files = {&table, &data}},
    {ARGUMENTS("tailor", "tailor\0t\0d\0r\0c"), NAMES("t\0d\0r"), .files = {&table, &data, &rules}, .made = &tailored, .made_file = &plan},
    {ARGUMENTS("audit", "audit\0t\0d\0r\0n\0c"), NAMES("t\0d\0r\0n\0c"), .files = {&table, &data, &rules, &tailored, &plan}},
    {ARGUMENTS("audit of other rules", "audit\0t\0d\0r\0n\0c"), NAMES("t\0d\0r\0n\0c"), .files = {&table, &data, &OTHER_RULES, &tailored, &plan}, .status = 1},
    {ARGUMENTS("affected", "affected\0d\0r"), NAMES("d\0r"), .files = {&data, &rules}, .input = &lines},
    {ARGUMENTS("changes", "changes\0t\0d\0n\0e\0c"), NAMES("t\0d\0n\0e"), .files = {&table, &data, &tailored, &data}, .made = &changes, .made_file = &maps},
    {ARGUMENTS("audit-changes", "audit-changes\0t\0d\0n\0e\0h\0c"), NAMES("t\0d\0n\0e\0h\0c"),
     .files = {&table, &data, &tailored, &data, &changes, &maps}},
    {ARGUMENTS("affected by changes", "affected\0--changes\0--numeric\0d\0h"), NAMES("d\0h"), .files = {&data, &changes}, .input = &lines},
    {ARGUMENTS("rekey", "rekey\0c"), NAMES("c"), .files = {&maps}, .input = &keyed},
    {ARGUMENTS("compact", "compact\0b"), NAMES("b"), .files = {&book}, .input = &keyed, .made = &compacted},
    {ARGUMENTS("expand", "expand\0b"), NAMES("b"), .files = {&book}, .input = &compacted},
    {ARGUMENTS("book", "book\0c\0b"), NAMES("c\0b"), .files = {&maps, &book}},
    {ARGUMENTS("fingerprint", "fingerprint\0--compact\0b\0t\0d"), NAMES("t\0d\0b"), .files = {&table, &data, &book}},
    {ARGUMENTS("--help", "--help"), NAMES("")},
    {ARGUMENTS("of no such name", "chek\0t\0d"), NAMES(""), .status = 2},
    {ARGUMENTS("check of no table", "check\0t\0d"), NAMES("t\0d"), .files = {&BAD, &data}, .status = 1},
};

/* Whether all calls of a row did what they should. */
static bool is_done;

static void does(bool fact)
{
    is_done = is_done && fact;
}

/* The command of a row, and what it wrote. */
static const command *ran;
static uca_lengths lengths;

static void run_command(void)
{
    const uca_bytes *file[6], *input = ran->input ? ran->input : &NONE;
    for (int i = 0; i < 6; i++) {
        file[i] = ran->files[i] ? ran->files[i] : &NONE;
    }
    uint32_t status = uca_run(UCA_FILE_OF(ran->arguments), UCA_FILE_OF(ran->names), UCA_FILE_OF(*file[0]), UCA_FILE_OF(*file[1]), UCA_FILE_OF(*file[2]),
                              UCA_FILE_OF(*file[3]), UCA_FILE_OF(*file[4]), UCA_FILE_OF(*file[5]), UCA_FILE_OF(*input), out, ROOM, err, ROOM, kept, ROOM,
                              &lengths);
    does(status == ran->status && lengths.out < ROOM && lengths.kept < ROOM);
}

static uca_bytes copy_of(const uint8_t *bytes, size_t length)
{
    return (uca_bytes){memcpy(memory(length), bytes, length), length};
}

/* ---- Calls with collators and upgrades */

/* Two without a book, and then the same two with one. */
static const uca_settings SETTINGS[] = {
    {UCA_SHIFTED, UCA_WEIGHTS, false, {NULL, 0}},
    {UCA_NON_IGNORABLE, UCA_IDENTICAL, true, {NULL, 0}},
    {UCA_SHIFTED, UCA_WEIGHTS, false, {BYTES("@book 1\n1 1C47\n1 1C48\n4 0209\n")}},
    {UCA_NON_IGNORABLE, UCA_IDENTICAL, true, {BYTES("@book 1\n1 1C47\n1 1C48\n")}},
};
#define COLLATORS (sizeof SETTINGS / sizeof *SETTINGS)

static uca_collator collators[COLLATORS], shared[COLLATORS];
static uca_upgrade upgrade;

/* Texts that are accepted, and then those that are rejected; and their keys by a collator. */
#define ACCEPTED 7
#define TEXTS 10
static uca_bytes texts[TEXTS], keys[COLLATORS][ACCEPTED];

/* Texts of one letter, of marks in a row, of one digit, and of lines. */
static void make_texts(void)
{
    static char marks[2][1 + 2 * 65] = {"a", "a"};
    char *letters = memory(1048577), *digits = memory(100000);
    memset(letters, 'a', 1048577);
    memset(digits, '9', 100000);
    for (size_t i = 0; i < 65; i++) {
        memcpy(marks[0] + 1 + 2 * i, "\xCC\x81", 2);
        memcpy(marks[1] + 1 + 2 * i, i % 2 ? "\xCC\xA3" : "\xCC\x81", 2);
    }
    const uca_bytes all[TEXTS] = {TEXT(""), TEXT("ab1 c\xC3\xA1"), {(uint8_t *)letters, 50000}, {(uint8_t *)digits, 100000}, {(uint8_t *)marks[1], 1 + 2 * 64},
                                  {lines.bytes, 20000}, TEXT("\xEA\xB0\x81\xE4\xB8\x80\xF0\x9F\x98\x80"),
                                  TEXT("a\xFF"), {(uint8_t *)letters, 1048577}, {(uint8_t *)marks[0], 1 + 2 * 65}};
    memcpy(texts, all, sizeof all);
    /* a line may end inside of a code point */
    while ((texts[5].bytes[texts[5].length] & 0xC0) == 0x80) {
        texts[5].length--;
    }
}

/* A call over each text, by each collator. */
#define FOR_EACH_TEXT(c, t)                      \
    for (size_t c = 0; c < COLLATORS; c++)       \
        for (size_t t = 0; t < TEXTS; t++)

static bool is_judged(size_t t, uint32_t status)
{
    static const uint32_t rejected[] = {UCA_UTF8, UCA_TOO_LONG, UCA_LONG_RUN};
    return status == (t < ACCEPTED ? (uint32_t)UCA_OK : rejected[t - ACCEPTED]);
}

static void nothing(void)
{
}

/* Work that takes so many bytes of the stack, and some more. */
#define KNOWN 5000

static void take_known(void)
{
    volatile uint8_t some[KNOWN];
    for (size_t i = 0; i < KNOWN; i++) {
        some[i] = (uint8_t)i;
    }
    does(some[KNOWN - 1] == (uint8_t)(KNOWN - 1));
}

static void open_all(void)
{
    uca_error error;
    for (size_t c = 0; c < COLLATORS; c++) {
        uint32_t depth = uca_depth_of(&SETTINGS[c]);
        uca_collator it = UCA_CLOSED_COLLATOR;
        does(uca_open(&it, UCA_FILE_OF(BAD), UCA_FILE_OF(data), SETTINGS[c].weighting, depth, &error) == UCA_TABLE);
        does(uca_open(&it, UCA_FILE_OF(table), UCA_FILE_OF(BAD), SETTINGS[c].weighting, depth, &error) == UCA_DATA);
        does(uca_open(&it, UCA_FILE_OF(table), UCA_FILE_OF(data), SETTINGS[c].weighting, depth, &error) == UCA_OK);
        uca_close(&it);
    }
}

static void open_all_compact(void)
{
    uca_error error;
    for (size_t c = 0; c < COLLATORS; c++) {
        uint32_t depth = uca_depth_of(&SETTINGS[c]);
        uca_collator it = UCA_CLOSED_COLLATOR;
        does(uca_open_compact(&it, UCA_FILE_OF(table), UCA_FILE_OF(data), UCA_FILE_OF(BAD), SETTINGS[c].weighting, depth, &error) == UCA_BOOK);
        does(uca_open_compact(&it, UCA_FILE_OF(table), UCA_FILE_OF(data), UCA_FILE_OF(book), SETTINGS[c].weighting, depth, &error) == UCA_OK);
        uca_close(&it);
    }
}

static void fingerprint_all(void)
{
    uca_error error;
    for (size_t c = 0; c < COLLATORS; c++) {
        does(uca_fingerprint(UCA_FILE_OF(table), UCA_FILE_OF(data), SETTINGS[c].weighting, uca_depth_of(&SETTINGS[c]), out, &error) == UCA_OK);
        does(uca_fingerprint(UCA_FILE_OF(BAD), UCA_FILE_OF(data), SETTINGS[c].weighting, uca_depth_of(&SETTINGS[c]), out, &error) == UCA_TABLE);
    }
}

/* What takes the settings as one struct is as the calls that it makes. */
static void open_with(void)
{
    uca_error error;
    for (size_t c = 0; c < COLLATORS; c++) {
        does(uca_open_with(&collators[c], table, data, &SETTINGS[c], &error) == UCA_OK);
        does(uca_fingerprint_with(table, data, &SETTINGS[c], out, &error) == UCA_OK);
    }
}

static void share_all(void)
{
    for (size_t c = 0; c < COLLATORS; c++) {
        does(uca_share(&collators[c], &shared[c]) == UCA_OK && uca_share(&collators[c], &shared[c]) == UCA_ALREADY_OPEN);
    }
}

static void key_all(void)
{
    size_t needed;
    FOR_EACH_TEXT (c, t) {
        does(is_judged(t, uca_key(&collators[c], UCA_FILE_OF(texts[t]), out, ROOM, &needed)));
    }
    does(uca_key(&collators[0], BYTES("a"), out, 1, &needed) == UCA_SMALL);
}

static void begin_all(void)
{
    size_t needed;
    FOR_EACH_TEXT (c, t) {
        does(is_judged(t, uca_key_beginning(&shared[c], UCA_FILE_OF(texts[t]), out, 16, &needed)));
    }
}

static void bound_all(void)
{
    size_t bound;
    FOR_EACH_TEXT (c, t) {
        does(uca_key_bound(&collators[c], texts[t].length, &bound) == UCA_OK);
    }
}

static void judge_all(void)
{
    size_t position;
    FOR_EACH_TEXT (c, t) {
        does(is_judged(t, uca_check_text(&shared[c], UCA_FILE_OF(texts[t]), &position)));
    }
}

static void range_all(void)
{
    size_t needed;
    for (uint32_t range = UCA_SAME_LETTERS; range <= UCA_BEGINS; range++) {
        FOR_EACH_TEXT (c, t) {
            does(is_judged(t, uca_range(&collators[c], UCA_FILE_OF(texts[t]), range, UCA_LOW, out, ROOM, &needed)));
            does(is_judged(t, uca_range(&collators[c], UCA_FILE_OF(texts[t]), range, UCA_HIGH, out, ROOM, &needed)));
        }
    }
}

/* A text is compared with each that is not after it. */
static void compare_all(void)
{
    uca_comparison found;
    FOR_EACH_TEXT (c, t) {
        for (size_t other = 0; other <= t; other++) {
            does(is_judged(t, uca_compare(&shared[c], UCA_FILE_OF(texts[t < ACCEPTED ? other : t]), UCA_FILE_OF(texts[t]), &found)));
        }
    }
}

static void order_all(void)
{
    int32_t order;
    FOR_EACH_TEXT (c, t) {
        for (size_t other = 0; other <= t; other++) {
            does(uca_order(&collators[c], UCA_FILE_OF(texts[other]), UCA_FILE_OF(texts[t]), &order) == UCA_OK);
        }
    }
}

/* The keys that uca_key makes. Those of the last two collators are the compact ones of the first two. */
static void make_keys(void)
{
    for (size_t c = 0; c < COLLATORS; c++) {
        for (size_t t = 0; t < ACCEPTED; t++) {
            size_t needed;
            if (uca_key(&collators[c], UCA_FILE_OF(texts[t]), out, ROOM, &needed) != UCA_OK) {
                fail("a text has no key");
            }
            keys[c][t] = copy_of(out, needed);
        }
    }
}

static void expand_all(void)
{
    size_t needed;
    for (size_t t = 0; t < ACCEPTED; t++) {
        for (size_t c = 0; c < 2; c++) {
            does(uca_expand(&collators[c + 2], UCA_FILE_OF(keys[c + 2][t]), out, ROOM, &needed) == UCA_OK && needed == keys[c][t].length);
        }
    }
    does(uca_expand(&collators[0], UCA_FILE_OF(keys[2][0]), out, ROOM, &needed) == UCA_NO_BOOK);
    does(uca_expand(&collators[2], BYTES("\x08"), out, ROOM, &needed) == UCA_NO_KEY);
}

static void compact_all(void)
{
    size_t needed;
    for (size_t t = 0; t < ACCEPTED; t++) {
        for (size_t c = 0; c < 2; c++) {
            does(uca_compact(&collators[c + 2], UCA_FILE_OF(keys[c][t]), out, ROOM, &needed) == UCA_OK && needed == keys[c + 2][t].length);
            /* the empty text has one key by both settings */
            does(uca_compact(&collators[3 - c], UCA_FILE_OF(keys[c][t]), out, ROOM, &needed) == (t ? UCA_NO_KEY : UCA_OK));
        }
    }
    does(uca_compact(&collators[0], UCA_FILE_OF(keys[0][0]), out, ROOM, &needed) == UCA_NO_BOOK);
}

static void compare_all_keys(void)
{
    uca_comparison found;
    for (size_t t = 0; t < ACCEPTED; t++) {
        for (size_t other = 0; other < ACCEPTED; other++) {
            uca_compare_keys(UCA_FILE_OF(keys[1][t]), UCA_FILE_OF(keys[1][other]), 4, &found);
            does((found.order == 0) == (t == other));
        }
    }
}

static void tell(void)
{
    uint8_t sum[32] = {0};
    uca_compact_fingerprint(sum, UCA_FILE_OF(book), out);
    does(uca_abi() == UCA_ABI && uca_version() > 0 && uca_collator_size() == sizeof(uca_collator) && uca_upgrade_size() == sizeof(uca_upgrade));
}

static void open_the_upgrade(void)
{
    uca_upgrade_error error;
    does(uca_open_upgrade_with(&upgrade, table, data, tailored, data, changes, TEXT("1 1C47 1C47 1\n"), &SETTINGS[1], &error) == UCA_FILE);
    does(uca_open_upgrade_with(&upgrade, table, data, tailored, data, TEXT("@changes 1\n"), maps, &SETTINGS[1], &error) == UCA_NOT_MET);
    does(uca_open_upgrade_with(&upgrade, table, data, tailored, data, changes, maps, &SETTINGS[1], &error) == UCA_OK);
}

static void tell_errors(void)
{
    const uca_upgrade_error error = {UCA_CERTIFICATE, UINT32_MAX, UCA_KIND_MAP_OUT_OF_RANGE, UCA_POINT_CHANGED, UCA_AT_CODE_POINT, 0x10FFFF};
    char line[128];
    does(uca_upgrade_error_text(UCA_FILE, &error, line, sizeof line) > 0 && uca_upgrade_error_text(UCA_NOT_MET, &error, line, sizeof line) > 0);
}

/* The upgrade is for the keys of the second collator. */
static void judge_changes(void)
{
    uint32_t affected;
    for (size_t t = 0; t < TEXTS; t++) {
        does(is_judged(t, uca_affected(&upgrade, UCA_FILE_OF(texts[t]), &affected)));
    }
}

static void rekey_all(void)
{
    size_t needed;
    for (size_t t = 0; t < ACCEPTED; t++) {
        uint32_t affected, status = uca_rekey(&upgrade, UCA_FILE_OF(keys[1][t]), out, ROOM, &needed);
        does(uca_affected(&upgrade, UCA_FILE_OF(texts[t]), &affected) == UCA_OK && (status == UCA_OK || (affected && status == UCA_NO_IMAGE)));
    }
    does(uca_rekey(&upgrade, BYTES("\x1C"), out, ROOM, &needed) == UCA_NO_IMAGE);
    out[0] = 0x1C;
    does(uca_rekey_in_place(&upgrade, out, 1) == UCA_NO_IMAGE);
}

static void fingerprint_the_upgrade(void)
{
    does(uca_upgrade_fingerprints(&upgrade, out, out + 32) == UCA_OK);
}

static void close_all(void)
{
    for (size_t c = 0; c < COLLATORS; c++) {
        uca_close(&collators[c]);
        uca_close(&shared[c]);
        uca_close(&shared[c]);
    }
}

static void close_the_upgrade(void)
{
    uca_close_upgrade(&upgrade);
}

/* ---- Rows of calls, in the order in which they are made, and how many KB of the stack uca.h promises for them */

typedef struct row {
    const char *name;
    size_t promised;
    void (*work)(void);
} row;

static const row CALLS[] = {
    {"uca_open", 64, open_all},
    {"uca_open_compact", 64, open_all_compact},
    {"uca_fingerprint", 64, fingerprint_all},
    {"uca_open_with, uca_fingerprint_with", 64, open_with},
    {"uca_share", 16, share_all},
    {"uca_key", 16, key_all},
    {"uca_key_beginning", 16, begin_all},
    {"uca_key_bound", 16, bound_all},
    {"uca_check_text", 16, judge_all},
    {"uca_range", 16, range_all},
    {"uca_compare", 16, compare_all},
    {"uca_order", 16, order_all},
    {"uca_expand", 16, expand_all},
    {"uca_compact", 16, compact_all},
    {"uca_compare_keys", 16, compare_all_keys},
    {"uca_compact_fingerprint, uca_abi and sizes", 16, tell},
    {"uca_open_upgrade", 320, open_the_upgrade},
    {"uca_upgrade_error_text", 16, tell_errors},
    {"uca_affected", 16, judge_changes},
    {"uca_rekey and uca_rekey_in_place", 16, rekey_all},
    {"uca_upgrade_fingerprints", 16, fingerprint_the_upgrade},
    {"uca_close", 16, close_all},
    {"uca_close_upgrade", 16, close_the_upgrade},
};

static int passed, failed;

/* Makes the calls of a row on a painted stack, and prints what they took. */
static void measure(const char *call, const char *name, size_t promised, void work(void))
{
    is_done = true;
    size_t taken_bytes = stack_of(work);
    bool holds = is_done && taken_bytes <= promised;
    passed += holds;
    failed += !holds;
    printf("%s%s: %zu of %zu%s\n", call, name, taken_bytes, promised, is_done ? holds ? "" : ": MORE THAN PROMISED" : ": THE WORK IS NOT DONE");
}

/* That a thread takes little for itself, and that more of the stack is seen. */
static void measure_known(void)
{
    measure("", "a thread", OF_THREAD, nothing);
    measure("", "an array of 5,000 bytes", KNOWN + OF_THREAD, take_known);
    if (stack_of(take_known) < KNOWN) {
        fail("an array on the stack is not seen");
    }
}

static void measure_commands(void)
{
    for (size_t i = 0; i < sizeof COMMANDS / sizeof *COMMANDS; i++) {
        ran = &COMMANDS[i];
        measure("uca_run ", ran->name, 640 << 10, run_command);
        if (ran->made) {
            *ran->made = copy_of(out, lengths.out);
        }
        if (ran->made_file) {
            *ran->made_file = copy_of(kept, lengths.kept);
        }
    }
}

int main(int count, char **words)
{
    if (count != 1 && count != 3) {
        fputs("usage: stacks [TABLE DATA]\n", stderr);
        return 2;
    }
    out = memory(ROOM);
    err = memory(ROOM);
    kept = memory(ROOM);
    make_table();
    if (count == 3) {
        table = read_file(words[1]);
        data = read_file(words[2]);
    }
    make_rules();
    make_book();
    make_lines();
    make_texts();
    measure_known();
    measure_commands();
    for (size_t i = 0; i < sizeof CALLS / sizeof *CALLS; i++) {
        measure("", CALLS[i].name, CALLS[i].promised << 10, CALLS[i].work);
        if (CALLS[i].work == open_with) {
            make_keys();
        }
    }
    printf("%d passed, %d failed\n", passed, failed);
    return failed != 0;
}
