/* Calls everything that uca.h declares, with good and with bad input. Prints a line for each check that fails, and how many
   passed; its status is 1 if one failed. */
#include "uca.h"

#include <pthread.h>
#include <stdio.h>
#include <stdlib.h>
#include <string.h>

static const char TABLE[] = "@version 1\n"
                            "@implicitweights 17000..18AFF; FB00\n"
                            "0020 ; [*0209.0020.0002]\n"
                            "200B ; [.0000.0000.0000]\n"
                            "0061 ; [.1C47.0020.0002]\n"
                            "0041 ; [.1C47.0020.0008]\n"
                            "0062 ; [.1C60.0020.0002]\n"
                            "0300 ; [.0000.0025.0002]\n"
                            "0301 ; [.0000.0024.0002]\n"
                            "0323 ; [.0000.002C.0002]\n";
static const char DATA[] = "@data 1\nccc 0300..0314 230\nccc 0323..0323 220\ncore 4E00..9FFF\nother 20000..20FFF\n";

#define BYTES(text) (const uint8_t *)(text), sizeof(text) - 1
#define ROOM 64

static int passed, failed;

static void check(bool holds, int line, const char *what)
{
    if (holds) {
        passed++;
    } else {
        failed++;
        printf("calls.c:%d: %s\n", line, what);
    }
}

#define CHECK(fact) check((fact), __LINE__, #fact)

static bool is_key(uca_collator *collator, const uint8_t *text, size_t length, const char *key, size_t key_length)
{
    uint8_t out[ROOM];
    size_t needed = 1;
    return uca_key(collator, text, length, out, ROOM, &needed) == UCA_OK && needed == key_length && memcmp(out, key, needed) == 0;
}

#define IS_KEY(collator, text, key) is_key(collator, BYTES(text), key, sizeof(key) - 1)

static bool is_comparison(uca_collator *collator, const uint8_t *left, size_t left_length, const uint8_t *right, size_t right_length,
                          int32_t order, uint32_t level)
{
    uca_comparison found = {7, 7};
    return uca_compare(collator, left, left_length, right, right_length, &found) == UCA_OK && found.order == order && found.level == level;
}

#define COMPARES(collator, left, right, order, level) is_comparison(collator, BYTES(left), BYTES(right), order, level)

static void check_closed(void)
{
    uca_collator closed = UCA_CLOSED_COLLATOR;
    uca_comparison found = {7, 7};
    uint8_t out[ROOM];
    size_t needed = 7;
    out[0] = 0xEE;
    CHECK(uca_abi() == UCA_ABI);
    CHECK(uca_version() == 1000);
    CHECK(uca_collator_size() == sizeof(uca_collator));
    CHECK(uca_key(&closed, BYTES("a"), out, ROOM, &needed) == UCA_CLOSED && needed == 0 && out[0] == 0xEE);
    CHECK(uca_compare(&closed, BYTES("a"), BYTES("b"), &found) == UCA_CLOSED && found.order == 0 && found.level == 0);
    CHECK(uca_compare(&closed, BYTES("a"), BYTES("a"), &found) == UCA_CLOSED);
    uca_close(&closed);
    CHECK(!closed.is_open);
}

static uca_status opened(uca_collator *collator, const char *table, const char *data, uint32_t weighting, uint32_t depth, uca_error *error)
{
    *error = (uca_error){7, 7};
    return uca_open(collator, (const uint8_t *)table, strlen(table), (const uint8_t *)data, strlen(data), weighting, depth, error);
}

static void check_open(void)
{
    uca_collator it = UCA_CLOSED_COLLATOR;
    uca_error error;
    CHECK(opened(&it, "@version 1\n0061 ; [.1C", DATA, 0, 0, &error) == UCA_TABLE && error.line == 2 && error.kind == UCA_KIND_WEIGHT);
    CHECK(opened(&it, "", DATA, 0, 0, &error) == UCA_TABLE && error.line == 1 && error.kind == UCA_KIND_ORDER);
    CHECK(opened(&it, TABLE, "x\n", 0, 0, &error) == UCA_DATA && error.line == 1 && error.kind == UCA_KIND_ORDER);
    CHECK(opened(&it, TABLE, "@data 1\n\nccc 0300..0314 300\n", 0, 0, &error) == UCA_DATA && error.line == 3 && error.kind == UCA_KIND_WEIGHT);
    CHECK(opened(&it, TABLE, DATA, 3, 0, &error) == UCA_ARGUMENT && error.line == 0 && error.kind == UCA_NO_ERROR);
    CHECK(opened(&it, TABLE, DATA, 0, 4, &error) == UCA_ARGUMENT && !it.is_open);
    CHECK(opened(&it, TABLE, DATA, UCA_NON_IGNORABLE, UCA_WEIGHTS, &error) == UCA_OK && it.is_open && error.line == 0);
    CHECK(opened(&it, "", "", 9, 9, &error) == UCA_ALREADY_OPEN && error.line == 0 && error.kind == UCA_NO_ERROR);
    CHECK(IS_KEY(&it, "a", "\x1C\x47\0\0\0\x20\0\0\0\x02"));
    uca_close(&it);
    CHECK(!it.is_open);
    uca_close(&it);
    CHECK(opened(&it, TABLE, DATA, UCA_BY_TABLE, UCA_WEIGHTS, &error) == UCA_OK);
    CHECK(IS_KEY(&it, "a b", "\x1C\x47\x1C\x60\0\0\0\x20\0\x20\0\0\0\x02\0\x02\0\0\xFF\xFF\x02\x09\xFF\xFF"));
    uca_close(&it);
}

static void check_keys(uca_collator *it)
{
    uint8_t out[ROOM];
    size_t needed = 7;
    CHECK(IS_KEY(it, "", "\0\0\0\0"));
    CHECK(IS_KEY(it, "\xC3\xA1", "\x1C\x47\0\0\0\x20\0\x24\0\0\0\x02\0\x02"));
    CHECK(IS_KEY(it, "a\xCC\x81", "\x1C\x47\0\0\0\x20\0\x24\0\0\0\x02\0\x02"));
    memset(out, 0xEE, ROOM);
    CHECK(uca_key(it, BYTES("a"), out, 9, &needed) == UCA_SMALL && needed == 10 && out[0] == 0xEE);
    CHECK(uca_key(it, BYTES("a"), out, 0, &needed) == UCA_SMALL && needed == 10 && out[0] == 0xEE);
    CHECK(uca_key(it, BYTES("a"), out, 10, &needed) == UCA_OK && needed == 10 && out[9] == 2 && out[10] == 0xEE);
    CHECK(uca_key(it, BYTES("a\xFF"), out, ROOM, &needed) == UCA_UTF8 && needed == 0 && out[0] == 0x1C);
    CHECK(IS_KEY(it, "b\0", "\x1C\x60\0\0\0\x20\0\0\0\x02") == false);
}

static void check_compare(uca_collator *it)
{
    uca_comparison found = {7, 7};
    CHECK(COMPARES(it, "Aa", "ab", -1, 1));
    CHECK(COMPARES(it, "\xC3\xA1", "a", 1, 2));
    CHECK(COMPARES(it, "a", "A", -1, 3));
    CHECK(COMPARES(it, "\xC3\xA1", "a\xCC\x81", 0, 0));
    CHECK(COMPARES(it, "", "", 0, 0));
    CHECK(uca_compare(it, BYTES("\xFF"), BYTES("a"), &found) == UCA_UTF8 && found.order == 0 && found.level == 0);
    CHECK(uca_compare(it, BYTES("a"), BYTES("\xFF"), &found) == UCA_UTF8);
    /* a shared beginning may end inside a code point: U+00E1 is C3 A1, and U+00E9 C3 A9. The table has no e, so it comes after a */
    CHECK(COMPARES(it, "aaaaaaaa\xC3\xA1", "aaaaaaaa\xC3\xA9", -1, 1));
    CHECK(uca_compare(it, BYTES("a\xC3\xA1"), BYTES("a\xC3"), &found) == UCA_UTF8 && found.order == 0);
    CHECK(uca_compare(it, BYTES("a\xC3"), BYTES("a\xC3\xA1"), &found) == UCA_UTF8 && found.order == 0);
    CHECK(uca_compare(it, BYTES("a\xC3\xA1"), BYTES("a\xC3\xC3\xA1"), &found) == UCA_UTF8 && found.order == 0);
    /* the right text may begin with the bytes that the left one lacks */
    CHECK(uca_compare(it, BYTES("\xC3"), BYTES("\xA1"), &found) == UCA_UTF8 && found.order == 0);
    CHECK(uca_compare(it, BYTES("\xC3"), BYTES("\xC3"), &found) == UCA_UTF8 && found.order == 0);
    CHECK(uca_compare(it, BYTES("aaaaaaaaaaaaaa\xC3"), BYTES("\xA1"), &found) == UCA_UTF8 && found.order == 0);
    CHECK(uca_compare(it, BYTES("b"), BYTES("\xED\xA0\x80"), &found) == UCA_UTF8 && found.order == 0);
}

/* Two texts, their order, and the level at which they differ. */
typedef struct pair {
    const char *left, *right;
    size_t left_length, right_length;
    int32_t order;
    uint32_t level;
} pair;

#define PAIR(left, right, order, level) {left, right, sizeof(left) - 1, sizeof(right) - 1, order, level}

/* `A` has the weight of `a` at level 1. `ch` is one element, which is less than that of `c`. U+0001 has no weight, the hyphen is
   variable, and U+0000 has no row, and so an implicit weight. U+00F8 has two bytes. */
static const char PAIR_TABLE[] =
    "@version 1\n0001 ; [.0000.0000.0000]\n002D ; [*020D.0020.0002]\n0030 ; [.1C3D.0020.0002]\n0031 ; [.1C3E.0020.0002]\n"
    "0032 ; [.1C3F.0020.0002]\n0033 ; [.1C40.0020.0002]\n0034 ; [.1C41.0020.0002]\n0035 ; [.1C42.0020.0002]\n"
    "0036 ; [.1C43.0020.0002]\n0037 ; [.1C44.0020.0002]\n0038 ; [.1C45.0020.0002]\n0039 ; [.1C46.0020.0002]\n"
    "0061 ; [.1C47.0020.0002]\n0041 ; [.1C47.0020.0008]\n0062 ; [.1C60.0020.0002]\n0063 0068 ; [.1C70.0020.0002]\n"
    "0064 ; [.1C75.0020.0002]\n0063 ; [.1C7A.0020.0002]\n0068 ; [.1D18.0020.0002]\n00F8 ; [.1CAA.0020.0002]\n";

static const pair PAIRS[] = {
    PAIR("", "", 0, 0), PAIR("", "a", -1, 1), PAIR("a", "", 1, 1), PAIR("a", "a", 0, 0), PAIR("a", "b", -1, 1), PAIR("ab", "a", 1, 1),
    PAIR("ba", "bb", -1, 1), PAIR("a", "A", -1, 3), PAIR("Ab", "aa", 1, 1), PAIR("A", "ab", -1, 1), PAIR("Ab", "a", 1, 1),
    PAIR("Aab", "aAd", -1, 1), PAIR("Ach", "acb", -1, 1), PAIR("ch", "cb", -1, 1), PAIR("ac", "ach", 1, 1), PAIR("cha", "d", -1, 1),
    PAIR("ach", "ad", -1, 1), PAIR("ch", "ch", 0, 0), PAIR("a\0", "a", 1, 1), PAIR("a", "a\0", -1, 1), PAIR("a-", "a", 1, 1),
    PAIR("a\x01", "a", 0, 0), PAIR("a\001b", "aa", 1, 1), PAIR("a9", "a10", 1, 1), PAIR("aaaaaaaaaaaaaaa", "aaaaaaaaaaaaaaa", 0, 0),
    PAIR("aaaaaaaaaaaaaab", "aaaaaaaaaaaaaaa", 1, 1), PAIR("aaaaaaaaaaaaaaaa", "aaaaaaaaaaaaaaab", -1, 1), PAIR("\xC3\xB8", "b", 1, 1),
    PAIR("a\xC3\xB8", "ab", 1, 1), PAIR("\xC3\xB8", "\xC3\xB8", 0, 0),
    PAIR("aaaaaaaaaaaaaaaab", "aaaaaaaaaaaaaaaaa", 1, 1), PAIR("aaaaaaaaaaaaaaaaab", "aaaaaaaaaaaaaaaaaa", 1, 1),
    PAIR("aaaaaaaaaaaaaaaaaaaaaaaaaaaaaaab", "aaaaaaaaaaaaaaaaaaaaaaaaaaaaaaaa", 1, 1),
    PAIR("aaaaaaaaaaaaaaaaaaaaaaaaaaaaaaaa", "aaaaaaaaaaaaaaaaaaaaaaaaaaaaaaaaa", -1, 1),
    PAIR("b", "aaaaaaaaaaaaaaaaaaaaaaaaaaaaaaaa", 1, 1), PAIR("b", "aaaaaaaaaaaaaaaaaaaaaaaaaaaaaaaaa", 1, 1),
    PAIR("aaaaaaaaaaaaaaaaaaaaaaaaaaaaaaa", "aaaaaaaaaaaaaaaaaaaaaaaaaaaaaaa", 0, 0),
    PAIR("aaaaaaaaaaaaaaaaaaaaaaaaaaaaaaaa", "aaaaaaaaaaaaaaaaaaaaaaaaaaaaaaaa", 0, 0),
    PAIR("aaaaaaaaaaaaaaaaaaaaaaaaaaaaaaaaa", "aaaaaaaaaaaaaaaaaaaaaaaaaaaaaaaaa", 0, 0),
    PAIR("aaaaaaaaaaaaaaaa\0", "aaaaaaaaaaaaaaaab", 1, 1), PAIR("aaaaaaaaaaaaaaa\xC3\xB8", "aaaaaaaaaaaaaaab", 1, 1),
    PAIR("\xE6\x97\xA5\xE6\x9C\xAC", "\xE6\x97\xA5\xE6\x9C\xAC", 0, 0), PAIR("\xE6\x97\xA5", "a", 1, 1),
};

/* under shifted, with an identical level */
static const pair IDENTICAL_PAIRS[] = {
    PAIR("a-b", "aa", 1, 1), PAIR("aa", "a-b", -1, 1), PAIR("a\001b", "aa", 1, 1), PAIR("a", "A", -1, 3), PAIR("a-", "a", 1, 4),
    PAIR("-a", "a", -1, 4), PAIR("-", "", 1, 4), PAIR("a\x01", "a", 1, 5), PAIR("Ab", "aa", 1, 1), PAIR("A-b", "aa", 1, 1), PAIR("a-", "a-", 0, 0),
};

/* with numbers by value */
static const pair NUMBER_PAIRS[] = {
    PAIR("a9", "a10", -1, 1), PAIR("a10", "a9", 1, 1), PAIR("007", "7", 0, 0), PAIR("19", "1a", 1, 1), PAIR("9", "9", 0, 0), PAIR("ab", "aa", 1, 1),
};

/* At first nothing is known of any code point, and then all are known. */
static void check_pairs(uint32_t weighting, uint32_t depth, const pair *pairs, size_t count)
{
    uca_collator it = UCA_CLOSED_COLLATOR;
    uca_error error;
    CHECK(opened(&it, PAIR_TABLE, DATA, weighting, depth, &error) == UCA_OK);
    for (size_t i = 0; i < 2 * count; i++) {
        const pair *at = &pairs[i % count];
        const uint8_t *left = (const uint8_t *)at->left, *right = (const uint8_t *)at->right;
        uca_comparison found = {7, 7};
        int32_t order = 7;
        CHECK(uca_compare(&it, left, at->left_length, right, at->right_length, &found) == UCA_OK && found.order == at->order && found.level == at->level);
        CHECK(uca_order(&it, left, at->left_length, right, at->right_length, &order) == UCA_OK && order == at->order);
    }
    uca_close(&it);
}

static void check_short_texts(void)
{
    check_pairs(UCA_NON_IGNORABLE, UCA_WEIGHTS, PAIRS, sizeof PAIRS / sizeof *PAIRS);
    check_pairs(UCA_SHIFTED, UCA_IDENTICAL, IDENTICAL_PAIRS, sizeof IDENTICAL_PAIRS / sizeof *IDENTICAL_PAIRS);
    check_pairs(UCA_NON_IGNORABLE, UCA_NUMERIC, NUMBER_PAIRS, sizeof NUMBER_PAIRS / sizeof *NUMBER_PAIRS);
}

static bool is_order(uca_collator *collator, const uint8_t *left, size_t left_length, const uint8_t *right, size_t right_length, int32_t order)
{
    int32_t found = 7, other = 7;
    return uca_order(collator, left, left_length, right, right_length, &found) == UCA_OK && found == order
           && uca_order(collator, right, right_length, left, left_length, &other) == UCA_OK && other == -order;
}

static void check_order(uca_collator *it)
{
    int32_t found = 7;
    uca_collator closed = UCA_CLOSED_COLLATOR;
    CHECK(uca_order(&closed, BYTES("a"), BYTES("b"), &found) == UCA_CLOSED && found == 0);
    CHECK(uca_order(&closed, BYTES("a"), BYTES("a"), &found) == UCA_CLOSED);
    CHECK(is_order(it, BYTES("a"), BYTES("b"), -1));
    CHECK(is_order(it, BYTES("\xC3\xA1"), BYTES("a\xCC\x81"), 0));
    CHECK(is_order(it, BYTES("b"), BYTES("a\xFF"), -1));
    CHECK(is_order(it, BYTES("a\xFE"), BYTES("a\xFF"), -1));
    CHECK(is_order(it, BYTES("a\xFF"), BYTES("a\xFF"), 0));
    CHECK(is_order(it, BYTES("\xFF"), BYTES("\xFF\x01"), -1));
}

/* Whether two keys that begin with so many separators, and differ after them, differ at this level. */
static bool differ_at(size_t separators, uint8_t levels, uint32_t level)
{
    uint8_t left[1024] = {0}, right[1024] = {0};
    uca_comparison found = {7, 7}, other = {7, 7}, same = {7, 7};
    size_t length = 2 * separators + 2;
    left[length - 1] = 1;
    right[length - 1] = 2;
    uca_compare_keys(left, length, right, length, levels, &found);
    uca_compare_keys(right, length, left, length, levels, &other);
    uca_compare_keys(left, length, left, length, levels, &same);
    return found.order == -1 && found.level == level && other.order == 1 && other.level == level && same.order == 0 && same.level == 0;
}

/* The level is one more than the separators before it, and at most as many as there are levels. */
static void check_numbers_of_levels(void)
{
    uca_comparison found = {7, 7};
    CHECK(differ_at(0, 0, 0) && differ_at(2, 0, 0) && differ_at(300, 0, 0));
    CHECK(differ_at(0, 1, 1) && differ_at(2, 1, 1));
    CHECK(differ_at(0, 255, 1) && differ_at(253, 255, 254) && differ_at(254, 255, 255) && differ_at(255, 255, 255) && differ_at(300, 255, 255));
    /* a key that another one begins with comes first; its level is that after its last separator */
    uca_compare_keys(BYTES("\x1C\x47\0\0"), BYTES("\x1C\x47\0\0\0\x20"), 255, &found);
    CHECK(found.order == -1 && found.level == 2);
    uca_compare_keys(BYTES("\x1C\x47"), BYTES("\x1C"), 255, &found);
    CHECK(found.order == 1 && found.level == 1);
    uca_compare_keys(BYTES(""), BYTES("\0"), 0, &found);
    CHECK(found.order == -1 && found.level == 0);
}

static void check_stored_keys(void)
{
    uca_comparison found = {7, 7};
    uca_compare_keys(BYTES("\x1C\x47\0\0\0\x20\0\0\0\x02"), BYTES("\x1C\x47\0\0\0\x20\0\0\0\x08"), 3, &found);
    CHECK(found.order == -1 && found.level == 3);
    uca_compare_keys(BYTES("\x1C\x60"), BYTES("\x1C\x47"), 3, &found);
    CHECK(found.order == 1 && found.level == 1);
    uca_compare_keys(BYTES(""), BYTES(""), 3, &found);
    CHECK(found.order == 0 && found.level == 0);
    check_numbers_of_levels();
}

static void check_limits(uca_collator *it)
{
    char marks[1 + 2 * 65] = "a";
    for (size_t i = 0; i < 65; i++) {
        memcpy(marks + 1 + 2 * i, "\xCC\x81", 2);
    }
    uint8_t out[1024];
    size_t needed;
    CHECK(uca_key(it, (const uint8_t *)marks, 1 + 2 * 64, out, sizeof out, &needed) == UCA_OK && needed == 2 + 2 + 130 + 2 + 130);
    CHECK(uca_key(it, (const uint8_t *)marks, 1 + 2 * 65, out, sizeof out, &needed) == UCA_LONG_RUN && needed == 0);
    size_t length = 1048577;
    uint8_t *text = malloc(length);
    if (!text) {
        abort();
    }
    memset(text, 'a', length);
    CHECK(uca_key(it, text, length, out, sizeof out, &needed) == UCA_TOO_LONG && needed == 0);
    CHECK(uca_key(it, text, length - 1, out, sizeof out, &needed) == UCA_SMALL && needed == (length - 1) * 6 + 4);
    free(text);
}

static void check_moved(uca_collator *it)
{
    uca_collator moved;
    memcpy(&moved, it, sizeof moved);
    memset(it, 0, sizeof *it);
    CHECK(IS_KEY(&moved, "b", "\x1C\x60\0\0\0\x20\0\0\0\x02"));
    uca_close(&moved);
    CHECK(!moved.is_open);
}

static void *key_of_b(void *collator)
{
    return IS_KEY((uca_collator *)collator, "b", "\x1C\x60\0\0\0\x20\0\0\0\x02") ? collator : NULL;
}

/* One thread after another: their starts and joins order the calls. */
static void check_threads(uca_collator *it)
{
    for (int i = 0; i < 3; i++) {
        pthread_t thread;
        void *found = NULL;
        CHECK(pthread_create(&thread, NULL, key_of_b, it) == 0 && pthread_join(thread, &found) == 0 && found == it);
        CHECK(key_of_b(it) == it);
    }
}

#define THREADS 8
#define TURNS 2000

/* What a thread of several does with a collator that they share: calls under one lock. */
typedef struct worker {
    pthread_t thread;
    pthread_mutex_t *lock;
    uca_collator *collator;
    int number;
    int right;
} worker;

static void *work(void *given)
{
    worker *it = given;
    for (int turn = 0; turn < TURNS; turn++) {
        bool holds;
        pthread_mutex_lock(it->lock);
        if ((turn + it->number) % 2) {
            holds = IS_KEY(it->collator, "a", "\x1C\x47\0\0\0\x20\0\0\0\x02");
        } else {
            holds = COMPARES(it->collator, "ab", "Ab", -1, 3);
        }
        pthread_mutex_unlock(it->lock);
        it->right += holds;
    }
    return NULL;
}

/* Several threads at once: a lock orders the calls. */
static void check_lock(uca_collator *it)
{
    pthread_mutex_t lock = PTHREAD_MUTEX_INITIALIZER;
    worker workers[THREADS];
    for (int i = 0; i < THREADS; i++) {
        workers[i] = (worker){.lock = &lock, .collator = it, .number = i, .right = 0};
        if (pthread_create(&workers[i].thread, NULL, work, &workers[i])) {
            abort();
        }
    }
    for (int i = 0; i < THREADS; i++) {
        CHECK(pthread_join(workers[i].thread, NULL) == 0 && workers[i].right == TURNS);
    }
}

#define SHARED 8

/* What a thread does with a collator of its own, with no lock: keys and comparisons. Returns how many are right. */
typedef struct shared {
    pthread_t thread;
    uca_collator collator;
    int right;
} shared;

static void *work_alone(void *given)
{
    shared *it = given;
    for (int turn = 0; turn < TURNS; turn++) {
        it->right += IS_KEY(&it->collator, "b", "\x1C\x60\0\0\0\x20\0\0\0\x02") && COMPARES(&it->collator, "ab", "Ab", -1, 3);
    }
    uca_close(&it->collator);
    return NULL;
}

/* Threads whose collators share a table. Each is closed while others are in calls, and the first is closed before them all. */
static void check_shared_threads(void)
{
    uca_collator first = UCA_CLOSED_COLLATOR;
    uca_error error;
    shared all[SHARED];
    CHECK(opened(&first, TABLE, DATA, UCA_NON_IGNORABLE, UCA_WEIGHTS, &error) == UCA_OK);
    for (int i = 0; i < SHARED; i++) {
        all[i] = (shared){.collator = UCA_CLOSED_COLLATOR, .right = 0};
        CHECK(uca_share(&first, &all[i].collator) == UCA_OK && all[i].collator.is_open);
    }
    uca_close(&first);
    for (int i = 0; i < SHARED; i++) {
        if (pthread_create(&all[i].thread, NULL, work_alone, &all[i])) {
            abort();
        }
    }
    for (int i = 0; i < SHARED; i++) {
        CHECK(pthread_join(all[i].thread, NULL) == 0 && all[i].right == TURNS);
    }
}

static void check_share(void)
{
    uca_collator first = UCA_CLOSED_COLLATOR, other = UCA_CLOSED_COLLATOR, third = UCA_CLOSED_COLLATOR;
    uca_error error;
    CHECK(uca_share(&first, &other) == UCA_CLOSED && !first.is_open && !other.is_open);
    CHECK(opened(&other, TABLE, DATA, UCA_NON_IGNORABLE, UCA_IDENTICAL, &error) == UCA_OK);
    CHECK(uca_share(&first, &other) == UCA_CLOSED && !first.is_open && other.is_open);
    CHECK(opened(&first, TABLE, DATA, UCA_NON_IGNORABLE, UCA_WEIGHTS, &error) == UCA_OK);
    CHECK(uca_share(&first, &other) == UCA_ALREADY_OPEN && first.is_open);
    CHECK(IS_KEY(&other, "a", "\x1C\x47\0\0\0\x20\0\0\0\x02\0\0\0\0\x61"));
    CHECK(uca_share(&first, &third) == UCA_OK && first.is_open && third.is_open);
    CHECK(IS_KEY(&first, "a", "\x1C\x47\0\0\0\x20\0\0\0\x02") && IS_KEY(&third, "a", "\x1C\x47\0\0\0\x20\0\0\0\x02"));
    uca_close(&first);
    CHECK(IS_KEY(&third, "b", "\x1C\x60\0\0\0\x20\0\0\0\x02") && COMPARES(&third, "ab", "Ab", -1, 3));
    CHECK(uca_share(&third, &first) == UCA_OK);
    uca_close(&third);
    CHECK(IS_KEY(&first, "b", "\x1C\x60\0\0\0\x20\0\0\0\x02"));
    uca_close(&first);
    uca_close(&other);
}

static void check_identical(void)
{
    uca_collator it = UCA_CLOSED_COLLATOR;
    uca_error error;
    CHECK(opened(&it, TABLE, DATA, UCA_NON_IGNORABLE, UCA_IDENTICAL, &error) == UCA_OK);
    CHECK(IS_KEY(&it, "a", "\x1C\x47\0\0\0\x20\0\0\0\x02\0\0\0\0\x61"));
    CHECK(COMPARES(&it, "\xCC\xA3\xCC\x81", "\xCC\x81\xCC\xA3", 0, 0));
    CHECK(COMPARES(&it, "a\xE2\x80\x8B", "a", 1, 4));
    uca_close(&it);
}

/* The ten digits, two letters and an accent. The digit 0 has the weight 1C3D, 1 has 1C3E, and so on. */
static const char DIGITS[] = "@version 1\n"
                             "0030 ; [.1C3D.0020.0002]\n"
                             "0031 ; [.1C3E.0020.0002]\n"
                             "0032 ; [.1C3F.0020.0002]\n"
                             "0033 ; [.1C40.0020.0002]\n"
                             "0034 ; [.1C41.0020.0002]\n"
                             "0035 ; [.1C42.0020.0002]\n"
                             "0036 ; [.1C43.0020.0002]\n"
                             "0037 ; [.1C44.0020.0002]\n"
                             "0038 ; [.1C45.0020.0002]\n"
                             "0039 ; [.1C46.0020.0002]\n"
                             "0061 ; [.1C47.0020.0002]\n"
                             "0062 ; [.1C60.0020.0002]\n"
                             "0301 ; [.0000.0024.0002]\n";

static void check_digits_as_text(void)
{
    uca_collator it = UCA_CLOSED_COLLATOR;
    uca_error error;
    CHECK(opened(&it, DIGITS, DATA, UCA_NON_IGNORABLE, UCA_WEIGHTS, &error) == UCA_OK);
    CHECK(IS_KEY(&it, "7", "\x1C\x44\0\0\0\x20\0\0\0\x02"));
    CHECK(COMPARES(&it, "file 9", "file 10", 1, 1));
    CHECK(COMPARES(&it, "007", "7", -1, 1));
    uca_close(&it);
}

/* Two texts, and how they compare. */
typedef struct {
    const char *left, *right;
    int32_t order;
    uint32_t level;
} row;

/* What comes right after the code points with which both begin decides, unless an accent follows it. The longest texts
   for which that is so have 32 bytes. */
static const row BEGINNINGS[] = {
    {"a9", "a10", 1, 1},
    {"aa", "ab", -1, 1},
    {"a", "ab", -1, 1},
    {"", "a", -1, 1},
    {"b", "b", 0, 0},
    {"a\xCC\x81" "b", "a\xCC\x81" "a", 1, 1},
    {"ab\xCC\x81", "aa", 1, 1},
    {"a\xCC\x81", "ab", -1, 1},
    {"a\xCC\x81", "a", 1, 2},
    {"\xC3\xA1", "a", 1, 2},
    {"\xC3\xA1", "b", -1, 1},
    {"aaaaaaaaaaaaaaaaaaaaaaaaaaaaaaab", "aaaaaaaaaaaaaaaaaaaaaaaaaaaaaaaa", 1, 1},
    {"aaaaaaaaaaaaaaaaaaaaaaaaaaaaaaaab", "aaaaaaaaaaaaaaaaaaaaaaaaaaaaaaaaa", 1, 1},
};

/* Of no code point anything is known the first time. */
static void check_beginnings(uint32_t weighting, uint32_t depth)
{
    uca_collator it = UCA_CLOSED_COLLATOR;
    uca_error error;
    CHECK(opened(&it, DIGITS, DATA, weighting, depth, &error) == UCA_OK);
    for (size_t i = 0; i < 3 * (sizeof BEGINNINGS / sizeof *BEGINNINGS); i++) {
        const row *at = &BEGINNINGS[i % (sizeof BEGINNINGS / sizeof *BEGINNINGS)];
        const uint8_t *left = (const uint8_t *)at->left, *right = (const uint8_t *)at->right;
        size_t left_length = strlen(at->left), right_length = strlen(at->right);
        CHECK(is_comparison(&it, left, left_length, right, right_length, at->order, at->level));
        CHECK(is_comparison(&it, right, right_length, left, left_length, -at->order, at->level));
        CHECK(is_order(&it, left, left_length, right, right_length, at->order));
    }
    uca_close(&it);
}

/* `a10` is read as `a210`, and `007` as `17`. */
static void check_numbers(void)
{
    uca_collator it = UCA_CLOSED_COLLATOR;
    uca_error error;
    CHECK(opened(&it, DIGITS, DATA, UCA_NON_IGNORABLE, UCA_NUMERIC, &error) == UCA_OK);
    CHECK(COMPARES(&it, "file 9", "file 10", -1, 1));
    CHECK(COMPARES(&it, "007", "7", 0, 0));
    CHECK(COMPARES(&it, "a99999999b", "a100000000", -1, 1));
    CHECK(COMPARES(&it, "a\xCC\x81" "1", "\xC3\xA1" "01", 0, 0));
    CHECK(COMPARES(&it, "a2\xCC\x81", "a2", 1, 2));
    CHECK(IS_KEY(&it, "ab", "\x1C\x47\x1C\x60\0\0\0\x20\0\x20\0\0\0\x02\0\x02"));
    CHECK(IS_KEY(&it, "007", "\x1C\x3E\x1C\x44\0\0\0\x20\0\x20\0\0\0\x02\0\x02"));
    CHECK(IS_KEY(&it, "a10",
                 "\x1C\x47\x1C\x3F\x1C\x3E\x1C\x3D\0\0\0\x20\0\x20\0\x20\0\x20\0\0\0\x02\0\x02\0\x02\0\x02"));
    CHECK(is_order(&it, BYTES("a9"), BYTES("a10"), -1));
    CHECK(is_order(&it, BYTES("a10"), BYTES("a9\xFF"), -1));
    uca_close(&it);
    CHECK(opened(&it, DIGITS, DATA, UCA_NON_IGNORABLE, UCA_IDENTICAL | UCA_NUMERIC, &error) == UCA_OK);
    CHECK(COMPARES(&it, "file 9", "file 10", -1, 1));
    CHECK(COMPARES(&it, "007", "7", -1, 4));
    CHECK(IS_KEY(&it, "07", "\x1C\x3E\x1C\x44\0\0\0\x20\0\x20\0\0\0\x02\0\x02\0\0\0\0\x30\0\0\x37"));
    uca_close(&it);
    CHECK(opened(&it, DIGITS, DATA, UCA_NON_IGNORABLE, UINT32_MAX, &error) == UCA_ARGUMENT && !it.is_open);
}

/* So many zeros are one zero, which is read as `10`. A number of so many nines has 112,500 code points before it. */
static void check_long_numbers(void)
{
    uca_collator it = UCA_CLOSED_COLLATOR;
    uca_error error;
    static const char key[] = "\x1C\x3E\x1C\x3D\0\0\0\x20\0\x20\0\0\0\x02\0\x02";
    uint8_t out[ROOM];
    size_t length = 1048577, needed;
    uint8_t *text = malloc(length);
    if (!text) {
        abort();
    }
    CHECK(opened(&it, DIGITS, DATA, UCA_NON_IGNORABLE, UCA_NUMERIC, &error) == UCA_OK);
    memset(text, '0', length);
    CHECK(is_key(&it, text, length, key, sizeof key - 1));
    memset(text, '9', length);
    CHECK(uca_key(&it, text, length - 1, out, ROOM, &needed) == UCA_TOO_LONG && needed == 0);
    CHECK(uca_key(&it, text, 900000, out, ROOM, &needed) == UCA_SMALL && needed == 6 * (900000 + 112500) + 4);
    uca_close(&it);
    free(text);
}

/* The table with a setting of its own. */
static const char SET_TABLE[] = "@version 1\n"
                                "@variable non-ignorable\n"
                                "0061 ; [.1C47.0020.0002]\n";

/* What sha256sum prints of the text that uca.h states, with what it prints of the two files. */
static const char BY_TABLE_SUM[] = "70a26bf864ff91484c271425219ed5dc4794165dd5ff03264d35e02b77ae7e8a";
static const char NON_IGNORABLE_SUM[] = "2e4823e9da09e3f35b2168ef00b2a4697aa2aed8cca5d3f538cc8a9afa18f4a9";
static const char IDENTICAL_SUM[] = "0bbf7ed9876a0849d4721cb8049560ef1f27c62b00ac13a6c8c01b38798c2f0d";
static const char NUMERIC_SUM[] = "a27641d91d17da3e0a4fb63e1ae3d39b8c4eb0f1e63abc2365604c5c66eddb5a";
static const char BOTH_SUM[] = "5920898472d92732fe32d53d0a9984f3bc20c288a654d589811c24c2277715e7";
static const char SET_SUM[] = "f5bb0c8e567d9026c977cff5d60e7ddd2929639b02ec965bc7d5c69d892044c8";
static const char SET_SHIFTED_SUM[] = "5cb03c66727ec7b79973dfe3986a569ddb6bb070e7d9fd4c36f2428213bd4b00";

/* The status of a fingerprint. What is written is put into `digits` as hexadecimal digits; nothing written is all `ee`. */
static uca_status fingerprint_in(char digits[65], const char *table, const char *data, uint32_t weighting, uint32_t depth, uca_error *error)
{
    uint8_t out[33];
    memset(out, 0xEE, sizeof out);
    *error = (uca_error){7, 7};
    uca_status status = uca_fingerprint((const uint8_t *)table, strlen(table), (const uint8_t *)data, strlen(data), weighting, depth, out, error);
    CHECK(out[32] == 0xEE);
    for (size_t i = 0; i < 32; i++) {
        snprintf(digits + 2 * i, 3, "%02x", out[i]);
    }
    return status;
}

static bool is_fingerprint(const char *table, uint32_t weighting, uint32_t depth, const char *digits)
{
    char found[65];
    uca_error error;
    return fingerprint_in(found, table, DATA, weighting, depth, &error) == UCA_OK && strcmp(found, digits) == 0 && error.line == 0 && error.kind == 0;
}

static bool has_no_fingerprint(const char *table, const char *data, uint32_t weighting, uint32_t depth, uca_status status, uint32_t line, uint32_t kind)
{
    char found[65];
    uca_error error;
    uca_status given = fingerprint_in(found, table, data, weighting, depth, &error);
    return given == status && error.line == line && error.kind == kind && strspn(found, "e") == 64;
}

static void check_fingerprints(void)
{
    CHECK(is_fingerprint(TABLE, UCA_BY_TABLE, UCA_WEIGHTS, BY_TABLE_SUM));
    CHECK(is_fingerprint(TABLE, UCA_SHIFTED, UCA_WEIGHTS, BY_TABLE_SUM));
    CHECK(is_fingerprint(TABLE, UCA_NON_IGNORABLE, UCA_WEIGHTS, NON_IGNORABLE_SUM));
    CHECK(is_fingerprint(TABLE, UCA_SHIFTED, UCA_IDENTICAL, IDENTICAL_SUM));
    CHECK(is_fingerprint(TABLE, UCA_SHIFTED, UCA_NUMERIC, NUMERIC_SUM));
    CHECK(is_fingerprint(TABLE, UCA_NON_IGNORABLE, UCA_IDENTICAL | UCA_NUMERIC, BOTH_SUM));
    CHECK(is_fingerprint(SET_TABLE, UCA_BY_TABLE, UCA_WEIGHTS, SET_SUM));
    CHECK(is_fingerprint(SET_TABLE, UCA_SHIFTED, UCA_WEIGHTS, SET_SHIFTED_SUM));
    CHECK(has_no_fingerprint("@version 1\n0061 ; [.1C", "", 0, 0, UCA_TABLE, 2, UCA_KIND_WEIGHT));
    CHECK(has_no_fingerprint(TABLE, "x\n", 0, 0, UCA_DATA, 1, UCA_KIND_ORDER));
    CHECK(has_no_fingerprint(TABLE, DATA, 3, 0, UCA_ARGUMENT, 0, UCA_NO_ERROR));
    CHECK(has_no_fingerprint("", DATA, 0, 4, UCA_ARGUMENT, 0, UCA_NO_ERROR));
}

/* 1C47 and 1C60 have cells of their own, and so has 0209 at level 4. */
static const char BOOK[] = "@book 1\n1 1C47\n1 1C48\n1 1C60\n1 1C61\n1 2000\n4 0209\n4 020A\n";

static uca_status opened_compact(uca_collator *collator, const char *table, const char *data, const char *book, uint32_t weighting, uint32_t depth,
                                 uca_error *error)
{
    *error = (uca_error){7, 7};
    return uca_open_compact(collator, (const uint8_t *)table, strlen(table), (const uint8_t *)data, strlen(data), (const uint8_t *)book,
                            strlen(book), weighting, depth, error);
}

static void check_open_compact(void)
{
    uca_collator it = UCA_CLOSED_COLLATOR;
    uca_error error;
    CHECK(opened_compact(&it, TABLE, DATA, "@book 1\n1 1C48\n1 1C47\n", 0, 0, &error) == UCA_BOOK && error.line == 3 && error.kind == UCA_KIND_ORDER);
    CHECK(opened_compact(&it, TABLE, DATA, "", 0, 0, &error) == UCA_BOOK && error.line == 1 && error.kind == UCA_KIND_ORDER);
    CHECK(opened_compact(&it, TABLE, DATA, "@book 1\n1 1c47\n", 0, 0, &error) == UCA_BOOK && error.line == 2 && error.kind == UCA_KIND_WEIGHT);
    CHECK(opened_compact(&it, TABLE, "x\n", "", 0, 0, &error) == UCA_DATA && error.line == 1 && error.kind == UCA_KIND_ORDER);
    CHECK(opened_compact(&it, "", "x\n", "", 0, 0, &error) == UCA_TABLE && error.line == 1);
    CHECK(opened_compact(&it, TABLE, DATA, BOOK, 3, 0, &error) == UCA_ARGUMENT && error.line == 0 && error.kind == UCA_NO_ERROR);
    CHECK(opened_compact(&it, TABLE, DATA, BOOK, 0, 4, &error) == UCA_ARGUMENT && !it.is_open);
    CHECK(opened_compact(&it, TABLE, DATA, BOOK, UCA_NON_IGNORABLE, UCA_WEIGHTS, &error) == UCA_OK && it.is_open && error.line == 0);
    CHECK(opened_compact(&it, "", "", "", 9, 9, &error) == UCA_ALREADY_OPEN && error.line == 0 && error.kind == UCA_NO_ERROR);
    CHECK(opened(&it, TABLE, DATA, 0, 0, &error) == UCA_ALREADY_OPEN);
    CHECK(IS_KEY(&it, "a", "\x08\x02"));
    uca_close(&it);
    CHECK(!it.is_open);
    CHECK(opened(&it, TABLE, DATA, UCA_NON_IGNORABLE, UCA_WEIGHTS, &error) == UCA_OK);
    CHECK(IS_KEY(&it, "a", "\x1C\x47\0\0\0\x20\0\0\0\x02"));
    uca_close(&it);
}

/* What a call with bytes gives: these bytes, and nothing after them. */
typedef uint32_t call(uca_collator *, const uint8_t *, size_t, uint8_t *, size_t, size_t *);

static bool makes(call *made, uca_collator *collator, const uint8_t *bytes, size_t length, const char *made_bytes, size_t made_length)
{
    uint8_t out[ROOM];
    size_t needed = 77;
    memset(out, 0xEE, ROOM);
    bool small = made(collator, bytes, length, out, made_length - 1, &needed) == UCA_SMALL && needed == made_length && out[0] == 0xEE;
    return small && made(collator, bytes, length, out, ROOM, &needed) == UCA_OK && needed == made_length && memcmp(out, made_bytes, needed) == 0
           && out[needed] == 0xEE;
}

#define MAKES(made, collator, bytes, made_bytes) makes(made, collator, BYTES(bytes), made_bytes, sizeof(made_bytes) - 1)

static bool makes_none(call *made, uca_collator *collator, const uint8_t *bytes, size_t length, uint32_t status)
{
    uint8_t out[ROOM];
    size_t needed = 77;
    memset(out, 0xEE, ROOM);
    return made(collator, bytes, length, out, ROOM, &needed) == status && needed == 0 && out[0] == 0xEE;
}

#define MAKES_NONE(made, collator, bytes, status) makes_none(made, collator, BYTES(bytes), status)

/* The book goes along, and each has memory of its own for what it makes. */
static void check_compact_share(void)
{
    uca_collator first = UCA_CLOSED_COLLATOR, other = UCA_CLOSED_COLLATOR;
    uca_error error;
    CHECK(opened_compact(&first, TABLE, DATA, BOOK, UCA_NON_IGNORABLE, UCA_WEIGHTS, &error) == UCA_OK);
    CHECK(uca_share(&first, &other) == UCA_OK);
    CHECK(MAKES(uca_key, &first, "a", "\x08\x02") && MAKES(uca_key, &other, "ab", "\x08\x0A\x02"));
    uca_close(&first);
    CHECK(MAKES(uca_expand, &other, "\x08\x02", "\x1C\x47\0\0\0\x20\0\0\0\x02"));
    uca_close(&other);
}

static void check_compact_keys(void)
{
    uca_collator it = UCA_CLOSED_COLLATOR;
    uca_comparison found = {7, 7};
    uca_error error;
    CHECK(opened_compact(&it, TABLE, DATA, BOOK, UCA_NON_IGNORABLE, UCA_WEIGHTS, &error) == UCA_OK);
    CHECK(MAKES(uca_key, &it, "", "\x02"));
    CHECK(MAKES(uca_key, &it, "a", "\x08\x02"));
    CHECK(MAKES(uca_key, &it, "ab", "\x08\x0A\x02"));
    CHECK(MAKES(uca_key, &it, "A\xCC\x81", "\x08\x04\x63\x67\x02\x65\x02"));
    CHECK(MAKES(uca_key, &it, "\xC3\x81", "\x08\x04\x63\x67\x02\x65\x02"));
    CHECK(MAKES_NONE(uca_key, &it, "a\xFF", UCA_UTF8));
    CHECK(uca_compare(&it, BYTES("a"), BYTES("A"), &found) == UCA_OK && found.order == -1 && found.level == 3);
    CHECK(is_order(&it, BYTES("b"), BYTES("a\xFF"), -1));
    CHECK(MAKES(uca_compact, &it, "\x1C\x47\0\0\0\x20\0\0\0\x02", "\x08\x02"));
    CHECK(MAKES(uca_compact, &it, "\x1C\x5F\0\0\0\x20\0\0\0\x02", "\x09\x17\x02"));
    CHECK(MAKES_NONE(uca_compact, &it, "", UCA_NO_KEY));
    CHECK(MAKES_NONE(uca_compact, &it, "\x1C\x47\0\0\0\x20\0\0\0", UCA_NO_KEY));
    CHECK(MAKES_NONE(uca_compact, &it, "\x1C\x47\0\0\0\x20", UCA_NO_KEY));
    CHECK(MAKES_NONE(uca_compact, &it, "\x1C\x47\0\0\0\x20\0\0\0\x02\0\0\xFF\xFF", UCA_NO_KEY));
    CHECK(MAKES(uca_expand, &it, "\x08\x02", "\x1C\x47\0\0\0\x20\0\0\0\x02"));
    CHECK(MAKES(uca_expand, &it, "\x08\x04\x63\x67\x02\x65\x02", "\x1C\x47\0\0\0\x20\0\x24\0\0\0\x08\0\x02"));
    CHECK(MAKES_NONE(uca_expand, &it, "", UCA_NO_KEY));
    CHECK(MAKES_NONE(uca_expand, &it, "\x08", UCA_NO_KEY));
    CHECK(MAKES_NONE(uca_expand, &it, "\x08\x02\0", UCA_NO_KEY));
    CHECK(MAKES_NONE(uca_expand, &it, "\x09\x18\x02", UCA_NO_KEY));
    CHECK(MAKES_NONE(uca_expand, &it, "\x08\x04\x05", UCA_NO_KEY));
    uca_close(&it);
    CHECK(MAKES_NONE(uca_compact, &it, "\0\0\0\0", UCA_CLOSED));
    CHECK(MAKES_NONE(uca_expand, &it, "\x02", UCA_CLOSED));
    CHECK(opened(&it, TABLE, DATA, UCA_NON_IGNORABLE, UCA_WEIGHTS, &error) == UCA_OK);
    CHECK(MAKES_NONE(uca_compact, &it, "\0\0\0\0", UCA_NO_BOOK));
    CHECK(MAKES_NONE(uca_expand, &it, "\x02", UCA_NO_BOOK));
    uca_close(&it);
    CHECK(opened_compact(&it, TABLE, DATA, BOOK, UCA_SHIFTED, UCA_WEIGHTS, &error) == UCA_OK);
    CHECK(MAKES(uca_key, &it, "", "\x03"));
    CHECK(MAKES(uca_key, &it, "a", "\x0A\x03"));
    CHECK(MAKES(uca_key, &it, "a b", "\x0A\x0C\x02\x03\x01\x02"));
    CHECK(MAKES(uca_expand, &it, "\x0A\x0C\x02\x03\x01\x02", "\x1C\x47\x1C\x60\0\0\0\x20\0\x20\0\0\0\x02\0\x02\0\0\xFF\xFF\x02\x09\xFF\xFF"));
    CHECK(MAKES_NONE(uca_expand, &it, "\x0A\x02", UCA_NO_KEY));
    uca_close(&it);
    CHECK(opened_compact(&it, TABLE, DATA, BOOK, UCA_NON_IGNORABLE, UCA_IDENTICAL, &error) == UCA_OK);
    CHECK(MAKES(uca_key, &it, "a\xCC\x81", "\x08\x04\x63\x67\x01\x61\xCC\x81"));
    CHECK(MAKES(uca_expand, &it, "\x02\xC3\xA9", "\0\0\0\0\0\0\0\0\xE9"));
    CHECK(MAKES_NONE(uca_expand, &it, "\x02\xC3", UCA_NO_KEY));
    CHECK(MAKES_NONE(uca_compact, &it, "\0\0\0\0\0\0\0\xD8\0", UCA_NO_KEY));
    uca_close(&it);
}

/* Both ends of a range by a text. */
static bool is_range(uca_collator *collator, const uint8_t *text, size_t length, uint32_t range, const char *low, size_t low_length, const char *high,
                     size_t high_length)
{
    uint8_t out[ROOM];
    size_t needed = 77;
    memset(out, 0xEE, ROOM);
    bool small = uca_range(collator, text, length, range, UCA_HIGH, out, high_length - 1, &needed) == UCA_SMALL && needed == high_length && out[0] == 0xEE;
    bool has_low = uca_range(collator, text, length, range, UCA_LOW, out, ROOM, &needed) == UCA_OK && needed == low_length
                   && memcmp(out, low, low_length) == 0 && out[needed] == 0xEE;
    bool has_high = uca_range(collator, text, length, range, UCA_HIGH, out, ROOM, &needed) == UCA_OK && needed == high_length
                    && memcmp(out, high, high_length) == 0;
    return small && has_low && has_high;
}

#define IS_RANGE(collator, text, range, low, high) is_range(collator, BYTES(text), range, low, sizeof(low) - 1, high, sizeof(high) - 1)

static bool has_no_range(uca_collator *collator, const uint8_t *text, size_t length, uint32_t range, uint32_t end, uint32_t status)
{
    uint8_t out[ROOM];
    size_t needed = 77;
    out[0] = 0xEE;
    return uca_range(collator, text, length, range, end, out, ROOM, &needed) == status && needed == 0 && out[0] == 0xEE;
}

static void check_ranges(void)
{
    uca_collator it = UCA_CLOSED_COLLATOR;
    uca_error error;
    CHECK(has_no_range(&it, BYTES("a"), UCA_SAME_LETTERS, UCA_LOW, UCA_CLOSED));
    CHECK(opened(&it, TABLE, DATA, UCA_NON_IGNORABLE, UCA_WEIGHTS, &error) == UCA_OK);
    CHECK(IS_RANGE(&it, "A\xCC\x81", UCA_SAME_LETTERS, "\x1C\x47", "\x1C\x47\0\x01"));
    CHECK(IS_RANGE(&it, "ab", UCA_SAME_LETTERS, "\x1C\x47\x1C\x60", "\x1C\x47\x1C\x60\0\x01"));
    CHECK(IS_RANGE(&it, "A\xCC\x81", UCA_SAME_ACCENTS, "\x1C\x47\0\0\0\x20\0\x24", "\x1C\x47\0\0\0\x20\0\x24\0\x01"));
    CHECK(IS_RANGE(&it, "", UCA_SAME_ACCENTS, "\0\0", "\0\0\0\x01"));
    CHECK(IS_RANGE(&it, "a", UCA_BEGINS, "\x1C\x47", "\x1C\x47\xFF\xFF"));
    CHECK(has_no_range(&it, BYTES("a"), 0, UCA_LOW, UCA_ARGUMENT));
    CHECK(has_no_range(&it, BYTES("a"), 4, UCA_LOW, UCA_ARGUMENT));
    CHECK(has_no_range(&it, BYTES("\xFF"), UCA_BEGINS, 2, UCA_ARGUMENT));
    CHECK(has_no_range(&it, BYTES("\xFF"), UCA_BEGINS, UCA_HIGH, UCA_UTF8));
    uca_close(&it);
    CHECK(opened_compact(&it, TABLE, DATA, BOOK, UCA_NON_IGNORABLE, UCA_WEIGHTS, &error) == UCA_OK);
    CHECK(IS_RANGE(&it, "A\xCC\x81", UCA_SAME_LETTERS, "\x08\0", "\x08\x05"));
    CHECK(IS_RANGE(&it, "", UCA_SAME_LETTERS, "\0", "\x05"));
    CHECK(IS_RANGE(&it, "A\xCC\x81", UCA_SAME_ACCENTS, "\x08\x04\x63\x67\0", "\x08\x04\x63\x67\x03"));
    CHECK(IS_RANGE(&it, "A", UCA_SAME_ACCENTS, "\x08\x01", "\x08\x04"));
    CHECK(IS_RANGE(&it, "", UCA_SAME_ACCENTS, "\x01", "\x04"));
    CHECK(IS_RANGE(&it, "ab", UCA_BEGINS, "\x08\x0A", "\x08\x0A\xFF"));
    CHECK(has_no_range(&it, BYTES("a"), 4, UCA_LOW, UCA_ARGUMENT));
    CHECK(has_no_range(&it, BYTES("\xFF"), UCA_SAME_ACCENTS, UCA_HIGH, UCA_UTF8));
    uca_close(&it);
    CHECK(opened_compact(&it, TABLE, DATA, BOOK, UCA_SHIFTED, UCA_IDENTICAL, &error) == UCA_OK);
    CHECK(IS_RANGE(&it, "a", UCA_SAME_LETTERS, "\x0A\0", "\x0A\x07"));
    CHECK(IS_RANGE(&it, "a", UCA_SAME_ACCENTS, "\x0A\x01", "\x0A\x06"));
    CHECK(IS_RANGE(&it, "A\xCC\x81", UCA_SAME_ACCENTS, "\x0A\x06\x8B\x8F\0", "\x0A\x06\x8B\x8F\x05"));
    uca_close(&it);
}

/* Ranges and compact keys are those of what is read, too: `a07` is read as `a17`. */
static void check_number_ranges(void)
{
    static const char key[] = "\x1C\x47\x1C\x3E\x1C\x44\0\0\0\x20\0\x20\0\x20\0\0\0\x02\0\x02\0\x02";
    uca_collator it = UCA_CLOSED_COLLATOR;
    uca_error error;
    uint8_t out[ROOM];
    size_t needed;
    CHECK(opened(&it, DIGITS, DATA, UCA_NON_IGNORABLE, UCA_NUMERIC, &error) == UCA_OK);
    CHECK(IS_RANGE(&it, "a07", UCA_SAME_LETTERS, "\x1C\x47\x1C\x3E\x1C\x44", "\x1C\x47\x1C\x3E\x1C\x44\0\x01"));
    CHECK(IS_RANGE(&it, "a07", UCA_BEGINS, "\x1C\x47\x1C\x3E\x1C\x44", "\x1C\x47\x1C\x3E\x1C\x44\xFF\xFF"));
    uca_close(&it);
    CHECK(opened_compact(&it, DIGITS, DATA, BOOK, UCA_NON_IGNORABLE, UCA_NUMERIC, &error) == UCA_OK);
    CHECK(uca_key(&it, BYTES("a07"), out, ROOM, &needed) == UCA_OK && needed < sizeof key - 1);
    CHECK(makes(uca_expand, &it, out, needed, key, sizeof key - 1));
    uca_close(&it);
}

/* What sha256sum prints of the text that uca.h states, with the digits of 00 to 1F and what it prints of BOOK. */
static const char COMPACT_SUM[] = "5f4e6171f90223e54bbb31bef0780e2412e228c2b70fa64017f173e556674a45";

static void check_compact_fingerprint(void)
{
    uint8_t keys[32], out[33];
    char digits[65];
    memset(out, 0xEE, sizeof out);
    for (size_t i = 0; i < 32; i++) {
        keys[i] = (uint8_t)i;
    }
    uca_compact_fingerprint(keys, BYTES(BOOK), out);
    CHECK(out[32] == 0xEE);
    for (size_t i = 0; i < 32; i++) {
        snprintf(digits + 2 * i, 3, "%02x", out[i]);
    }
    CHECK(strcmp(digits, COMPACT_SUM) == 0);
}

/* Whether the status of a text is this, at this position. */
static bool is_judged(uca_collator *collator, const uint8_t *text, size_t length, uint32_t status, size_t position)
{
    size_t found = 77;
    return uca_check_text(collator, text, length, &found) == status && found == position;
}

static void check_positions(void)
{
    char marks[4 + 2 * 65] = "b\xC3\xA1";
    for (size_t i = 0; i < 65; i++) {
        memcpy(marks + 3 + 2 * i, "\xCC\x81", 2);
    }
    uca_collator it = UCA_CLOSED_COLLATOR;
    uca_error error;
    CHECK(is_judged(&it, BYTES("a"), UCA_CLOSED, 0));
    CHECK(opened(&it, TABLE, DATA, UCA_NON_IGNORABLE, UCA_WEIGHTS, &error) == UCA_OK);
    CHECK(is_judged(&it, BYTES(""), UCA_OK, 0) && is_judged(&it, BYTES("a\xCC\x81"), UCA_OK, 0));
    CHECK(is_judged(&it, BYTES("\xFF"), UCA_UTF8, 0) && is_judged(&it, BYTES("ab\xFFz\xFF"), UCA_UTF8, 2));
    CHECK(is_judged(&it, BYTES("a\xCC"), UCA_UTF8, 1) && is_judged(&it, BYTES("a\xED\xA0\x80"), UCA_UTF8, 1));
    /* b, a and 64 accents, one of which comes from the second letter; the first of 65 or 66 is at position 2 */
    CHECK(is_judged(&it, (const uint8_t *)marks, 3 + 2 * 63, UCA_OK, 0));
    CHECK(is_judged(&it, (const uint8_t *)marks, 3 + 2 * 64, UCA_LONG_RUN, 2) && is_judged(&it, (const uint8_t *)marks, 3 + 2 * 65, UCA_LONG_RUN, 2));
    size_t length = 1048577;
    uint8_t *text = calloc(length, 1);
    if (!text) {
        abort();
    }
    CHECK(is_judged(&it, text, length, UCA_TOO_LONG, 0) && is_judged(&it, text, length - 1, UCA_OK, 0));
    free(text);
    CHECK(IS_KEY(&it, "a", "\x1C\x47\0\0\0\x20\0\0\0\x02"));
    uca_close(&it);
    /* `12` is read as `212` */
    char number[2 + 2 * 65] = "12";
    memcpy(number + 2, marks + 3, 2 * 65);
    CHECK(opened(&it, DIGITS, DATA, UCA_NON_IGNORABLE, UCA_NUMERIC, &error) == UCA_OK);
    CHECK(is_judged(&it, (const uint8_t *)number, sizeof number, UCA_LONG_RUN, 3));
    uca_close(&it);
}

/* Whether so many bytes of the key are written where there is room for so many, and how many it has is told. */
static bool begins(uca_collator *collator, const uint8_t *text, size_t length, size_t room, const char *key, size_t key_length)
{
    uint8_t out[ROOM];
    size_t needed = 77, count = room < key_length ? room : key_length;
    memset(out, 0xEE, ROOM);
    bool is_written = uca_key_beginning(collator, text, length, out, room, &needed) == UCA_OK && needed == key_length && memcmp(out, key, count) == 0;
    return is_written && out[count] == 0xEE;
}

#define BEGINS(collator, text, room, key) begins(collator, BYTES(text), room, key, sizeof(key) - 1)

static bool has_no_beginning(uca_collator *collator, const uint8_t *text, size_t length, uint32_t status)
{
    uint8_t out[ROOM];
    size_t needed = 77;
    out[0] = 0xEE;
    return uca_key_beginning(collator, text, length, out, ROOM, &needed) == status && needed == 0 && out[0] == 0xEE;
}

static void check_key_beginnings(void)
{
    static const char key[] = "\x1C\x47\0\0\0\x20\0\0\0\x02";
    uca_collator it = UCA_CLOSED_COLLATOR;
    uca_error error;
    CHECK(has_no_beginning(&it, BYTES("a"), UCA_CLOSED));
    CHECK(opened(&it, TABLE, DATA, UCA_NON_IGNORABLE, UCA_WEIGHTS, &error) == UCA_OK);
    CHECK(BEGINS(&it, "a", 0, key) && BEGINS(&it, "a", 1, key) && BEGINS(&it, "a", 9, key) && BEGINS(&it, "a", 10, key) && BEGINS(&it, "a", 11, key));
    CHECK(BEGINS(&it, "", 3, "\0\0\0\0"));
    CHECK(has_no_beginning(&it, BYTES("a\xFF"), UCA_UTF8));
    uca_close(&it);
    CHECK(opened_compact(&it, TABLE, DATA, BOOK, UCA_NON_IGNORABLE, UCA_WEIGHTS, &error) == UCA_OK);
    CHECK(BEGINS(&it, "ab", 2, "\x08\x0A\x02") && BEGINS(&it, "ab", 3, "\x08\x0A\x02") && BEGINS(&it, "ab", 40, "\x08\x0A\x02"));
    CHECK(has_no_beginning(&it, BYTES("\xFF"), UCA_UTF8));
    uca_close(&it);
}

/* With numbers by value the table has to order them. TABLE has no digits, and here 1 is in another key, in row 14. */
static void check_unordered_digits(void)
{
    uca_collator it = UCA_CLOSED_COLLATOR;
    uca_error error = {7, 7};
    char table[1024];
    strcat(strcpy(table, DIGITS), "0031 0301 ; [.1C50.0020.0002]\n");
    CHECK(opened(&it, TABLE, DATA, UCA_SHIFTED, UCA_NUMERIC, &error) == UCA_DIGITS && error.line == 0 && error.kind == 0 && !it.is_open);
    CHECK(opened(&it, table, DATA, UCA_SHIFTED, UCA_IDENTICAL | UCA_NUMERIC, &error) == UCA_DIGITS && error.line == 14 && error.kind == 0 && !it.is_open);
    CHECK(opened_compact(&it, table, DATA, BOOK, UCA_SHIFTED, UCA_NUMERIC, &error) == UCA_DIGITS && error.line == 14 && error.kind == 0 && !it.is_open);
    CHECK(opened(&it, table, DATA, UCA_SHIFTED, UCA_WEIGHTS, &error) == UCA_OK);
    uca_close(&it);
}

/* Whether the key of a text has at most as many bytes as the bound says, and is made with as much room. */
static bool is_bounded(uca_collator *collator, const uint8_t *text, size_t length)
{
    size_t bound = 77, needed = 77;
    if (uca_key_bound(collator, length, &bound) != UCA_OK) {
        return false;
    }
    uint8_t *key = malloc(bound);
    if (!key) {
        abort();
    }
    bool fits = uca_key(collator, text, length, key, bound, &needed) == UCA_OK && needed <= bound;
    free(key);
    return fits;
}

/* U+1D160 and U+0390 are three code points each in Normalization Form D. They have four bytes and two. */
static bool are_bounded(uca_collator *collator)
{
    return is_bounded(collator, BYTES("")) && is_bounded(collator, BYTES("a")) && is_bounded(collator, BYTES("a b"))
           && is_bounded(collator, BYTES("\xC3\xA1\xC3\xA1")) && is_bounded(collator, BYTES("\xF0\x9D\x85\xA0")) && is_bounded(collator, BYTES("\xCE\x90"))
           && is_bounded(collator, BYTES("123456789123456789")) && is_bounded(collator, BYTES("\xEC\x98\xB7\xE4\xB8\x80"));
}

/* Adds a row of 32 elements, which is as many as there may be: 64 bytes at each of four levels. */
static void add_long_row(char *table, const char *digit)
{
    strcat(table, digit);
    for (size_t i = 0; i < 32; i++) {
        strcat(table, "[.1C47.0020.0002]");
    }
    strcat(table, "\n");
}

/* The key of `9` has 256 bytes of weights, three separators, and one more with a code point. */
static bool is_near(uca_collator *collator)
{
    char table[2048] = "@version 1\n";
    add_long_row(table, "0039 ; ");
    uca_error error;
    uint8_t out[526];
    size_t needed = 77, bound = 77;
    bool is_made = opened(collator, table, DATA, UCA_SHIFTED, UCA_IDENTICAL, &error) == UCA_OK
                   && uca_key(collator, BYTES("9"), out, sizeof out, &needed) == UCA_OK && needed == 256 + 6 + 2 + 3;
    is_made = is_made && uca_key_bound(collator, 1, &bound) == UCA_OK && bound == 526 && are_bounded(collator);
    uca_close(collator);
    return is_made;
}

static void check_bounds(void)
{
    uca_collator it = UCA_CLOSED_COLLATOR;
    uca_error error;
    size_t bound = 77;
    CHECK(uca_key_bound(&it, 1, &bound) == UCA_CLOSED && bound == 0);
    CHECK(is_near(&it));
    CHECK(opened(&it, TABLE, DATA, UCA_NON_IGNORABLE, UCA_WEIGHTS, &error) == UCA_OK && are_bounded(&it));
    CHECK(uca_key_bound(&it, 0, &bound) == UCA_OK && bound == 8);
    CHECK(uca_key_bound(&it, 100, &bound) == UCA_OK && bound == 51808);
    CHECK(uca_key_bound(&it, SIZE_MAX / 518, &bound) == UCA_OK && bound == SIZE_MAX / 518 * 518 + 8);
    CHECK(uca_key_bound(&it, SIZE_MAX / 518 + 1, &bound) == UCA_OK && bound == SIZE_MAX);
    CHECK(uca_key_bound(&it, SIZE_MAX, &bound) == UCA_OK && bound == SIZE_MAX && it.is_open);
    uca_close(&it);
    for (uint32_t depth = 0; depth < 4; depth++) {
        CHECK(opened(&it, DIGITS, DATA, UCA_SHIFTED, depth, &error) == UCA_OK && are_bounded(&it));
        uca_close(&it);
        CHECK(opened_compact(&it, DIGITS, DATA, BOOK, UCA_SHIFTED, depth, &error) == UCA_OK && are_bounded(&it));
        uca_close(&it);
    }
    CHECK(opened_compact(&it, TABLE, DATA, BOOK, UCA_NON_IGNORABLE, UCA_WEIGHTS, &error) == UCA_OK && are_bounded(&it));
    CHECK(uca_key_bound(&it, 100, &bound) == UCA_OK && bound == 103617);
    CHECK(uca_key_bound(&it, SIZE_MAX / 1036, &bound) == UCA_OK && bound == SIZE_MAX / 1036 * 1036 + 17);
    CHECK(uca_key_bound(&it, SIZE_MAX, &bound) == UCA_OK && bound == SIZE_MAX);
    uca_close(&it);
}

/* ---- Rejected texts, and a text that is accepted. Each is a pointer and a length. */

typedef struct text {
    const uint8_t *bytes;
    size_t length;
} text;

#define TEXT(bytes) ((text){BYTES(bytes)})
#define TEXT_OF(it) (it).bytes, (it).length

/* Whether a comparison with this text on the left, and one with it on the right, are rejected so. */
static bool is_not_compared(uca_collator *collator, text it, uint32_t status)
{
    text b = TEXT("b");
    uca_comparison left = {7, 7}, right = {7, 7}, both = {7, 7};
    bool is_left = uca_compare(collator, TEXT_OF(it), TEXT_OF(b), &left) == status && left.order == 0 && left.level == 0;
    bool is_right = uca_compare(collator, TEXT_OF(b), TEXT_OF(it), &right) == status && right.order == 0 && right.level == 0;
    return is_left && is_right && uca_compare(collator, TEXT_OF(it), TEXT_OF(it), &both) == status && both.order == 0 && both.level == 0;
}

/* The left text is judged first. */
static bool is_left_judged(uca_collator *collator, text left, text right, uint32_t status, uint32_t other)
{
    uca_comparison found = {7, 7};
    return uca_compare(collator, TEXT_OF(left), TEXT_OF(right), &found) == status && uca_compare(collator, TEXT_OF(right), TEXT_OF(left), &found) == other;
}

/* Whether a text has no key, no beginning of one and no range. */
static bool is_not_keyed(uca_collator *collator, text it, uint32_t status)
{
    bool holds = makes_none(uca_key, collator, TEXT_OF(it), status) && makes_none(uca_key_beginning, collator, TEXT_OF(it), status);
    for (uint32_t range = UCA_SAME_LETTERS; range <= UCA_BEGINS; range++) {
        holds &= has_no_range(collator, TEXT_OF(it), range, UCA_LOW, status) && has_no_range(collator, TEXT_OF(it), range, UCA_HIGH, status);
    }
    return holds;
}

/* They come after accepted texts. Among them U+0301, which is CC 81, comes after `a`, and before FF. A text comes after its beginning. */
static void check_order_of_rejected(uca_collator *it, text run, text longer_run, text many, text one_more)
{
    CHECK(is_order(it, BYTES("b"), TEXT_OF(run), -1) && is_order(it, BYTES("b"), TEXT_OF(many), -1) && is_order(it, BYTES(""), TEXT_OF(many), -1));
    CHECK(is_order(it, TEXT_OF(many), TEXT_OF(run), -1) && is_order(it, TEXT_OF(run), BYTES("\xFF"), -1) && is_order(it, TEXT_OF(many), BYTES("\xFF"), -1));
    CHECK(is_order(it, TEXT_OF(run), TEXT_OF(longer_run), -1) && is_order(it, TEXT_OF(many), TEXT_OF(one_more), -1));
    CHECK(is_order(it, TEXT_OF(run), TEXT_OF(run), 0) && is_order(it, TEXT_OF(many), TEXT_OF(many), 0));
    /* the accepted beginnings of both, which are one code point shorter */
    CHECK(is_order(it, run.bytes, run.length - 2, TEXT_OF(run), -1) && is_order(it, many.bytes, many.length - 1, TEXT_OF(many), -1));
    CHECK(is_order(it, BYTES("b"), many.bytes, many.length - 1, 1) && is_order(it, BYTES("b"), run.bytes, run.length - 2, 1));
}

static void check_rejected(uca_collator *it)
{
    static uint8_t marks[1 + 2 * 66];
    uint8_t *letters = malloc(1048578);
    if (!letters) {
        abort();
    }
    memset(letters, 'a', 1048578);
    marks[0] = 'a';
    for (size_t i = 0; i < 66; i++) {
        memcpy(marks + 1 + 2 * i, "\xCC\x81", 2);
    }
    /* 65 and 66 accents in a row, and one code point too many, and two */
    text run = {marks, 1 + 2 * 65}, longer_run = {marks, 1 + 2 * 66}, many = {letters, 1048577}, one_more = {letters, 1048578}, no_utf8 = TEXT("a\xFF");
    CHECK(is_not_compared(it, run, UCA_LONG_RUN) && is_not_compared(it, many, UCA_TOO_LONG) && is_not_compared(it, no_utf8, UCA_UTF8));
    CHECK(is_not_compared(it, one_more, UCA_TOO_LONG) && is_not_compared(it, longer_run, UCA_LONG_RUN));
    CHECK(is_left_judged(it, run, many, UCA_LONG_RUN, UCA_TOO_LONG) && is_left_judged(it, run, no_utf8, UCA_LONG_RUN, UCA_UTF8));
    CHECK(is_left_judged(it, many, no_utf8, UCA_TOO_LONG, UCA_UTF8));
    CHECK(is_not_keyed(it, run, UCA_LONG_RUN) && is_not_keyed(it, many, UCA_TOO_LONG) && is_not_keyed(it, no_utf8, UCA_UTF8));
    check_order_of_rejected(it, run, longer_run, many, one_more);
    CHECK(COMPARES(it, "a", "b", -1, 1));
    free(letters);
}

static void check_rejected_texts(void)
{
    uca_collator it = UCA_CLOSED_COLLATOR;
    uca_error error;
    CHECK(opened(&it, TABLE, DATA, UCA_NON_IGNORABLE, UCA_WEIGHTS, &error) == UCA_OK);
    check_rejected(&it);
    uca_close(&it);
    CHECK(opened(&it, DIGITS, DATA, UCA_SHIFTED, UCA_IDENTICAL | UCA_NUMERIC, &error) == UCA_OK);
    check_rejected(&it);
    uca_close(&it);
    CHECK(opened_compact(&it, TABLE, DATA, BOOK, UCA_NON_IGNORABLE, UCA_WEIGHTS, &error) == UCA_OK);
    check_rejected(&it);
    uca_close(&it);
}

/* ---- Upgrades: the letter c comes between a and b, whose weight moves from 1C60 to 1C70 */

static const char OLD[] = "@version 1\n0061 ; [.1C47.0020.0002]\n0062 ; [.1C60.0020.0002]\n0301 ; [.0000.0024.0002]\n";
static const char NEW[] = "@version 2\n0061 ; [.1C47.0020.0002]\n0062 ; [.1C70.0020.0002]\n0063 ; [.1C60.0020.0002]\n0301 ; [.0000.0024.0002]\n";
static const char ACCENT[] = "@data 1\nccc 0301..0301 230\n";
static const char CHANGES[] = "@changes 1\ntext 0063\n";
static const char MAPS[] = "1 1C47 1C47 0001\n1 1C60 1C70 0001\n2 0020 0020 0001\n2 0024 0024 0001\n3 0002 0002 0001\n";

/* What sha256sum prints of the text that uca.h states, with what it prints of the files. */
static const char OLD_SUM[] = "d34ce4fc4b270598c2b5c625901874bb571c96b0c1b0a2a212dc6cada7e8bfd4";
static const char NEW_SUM[] = "48c46fedd33456a110f2fcb95559b3162019cb9ab66250a5d5a89d4304c05cc5";

/* The six files of an upgrade, in the order of uca_upgrade_file. */
typedef struct six {
    const char *files[6];
} six;

static const six SIX = {{OLD, ACCENT, NEW, ACCENT, CHANGES, MAPS}};

static uint32_t opened_upgrade(uca_upgrade *upgrade, const six *six, uint32_t weighting, uint32_t depth, uca_upgrade_error *error)
{
    const uint8_t *at[6];
    size_t length[6];
    for (int i = 0; i < 6; i++) {
        at[i] = (const uint8_t *)six->files[i];
        length[i] = strlen(six->files[i]);
    }
    *error = (uca_upgrade_error){7, 7, 7, 7, 7, 7};
    return uca_open_upgrade(upgrade, at[0], length[0], at[1], length[1], at[2], length[2], at[3], length[3], at[4], length[4], at[5], length[5], weighting,
                            depth, error);
}

static bool is_error(const uca_upgrade_error *error, uint32_t file, uint32_t line, uint32_t kind, uint32_t condition, uint32_t place, uint32_t number)
{
    return error->file == file && error->line == line && error->kind == kind && error->condition == condition && error->place == place
           && error->number == number;
}

static uca_bytes file_of(const char *text)
{
    return (uca_bytes){(const uint8_t *)text, strlen(text)};
}

/* Whether the line of a status and an error is this one, as the audit of a command writes it about the same files in its first line.
   Before the word `line` a command has a name of its own for a file. */
static bool is_line(const six *six, uint32_t status, const uca_upgrade_error *error, const char *line)
{
    char said[128], small[8];
    uint8_t verdict[128] = {0}, err[128] = {0};
    uca_lengths lengths;
    uca_bytes file[6];
    for (int i = 0; i < 6; i++) {
        file[i] = file_of(six->files[i]);
    }
    uint32_t audited = uca_audit_changes(file[0], file[1], file[2], file[3], file[4], file[5], (uca_room){verdict, sizeof verdict - 1},
                                         (uca_room){err, sizeof err - 1}, &lengths);
    bool is_whole = uca_upgrade_error_text(status, error, said, sizeof said) == (int)strlen(line) && !strcmp(said, line);
    bool is_begun = uca_upgrade_error_text(status, error, small, sizeof small) == (int)strlen(line) && !strncmp(small, line, 7) && !small[7];
    const char *printed = (const char *)(status == UCA_FILE ? err : verdict), *of_file = strstr(printed, " line "), *ours = strstr(said, " line ");
    if (status == UCA_FILE) {
        printed = of_file ? of_file : "";
        line = ours ? ours : "none";
    }
    return is_whole && is_begun && audited == 1 && strcspn(printed, "\n") == strlen(line) && printed[strlen(line)] && !strncmp(printed, line, strlen(line));
}

/* Whether the files with this one in place of another are no upgrade: the file is rejected there, and the line says so. */
static bool rejects_file(uca_upgrade_file file, const char *text, uint32_t line, uint32_t kind, const char *said)
{
    uca_upgrade it = UCA_CLOSED_UPGRADE;
    uca_upgrade_error error;
    six given = SIX;
    given.files[file - 1] = text;
    return opened_upgrade(&it, &given, UCA_NON_IGNORABLE, UCA_WEIGHTS, &error) == UCA_FILE && is_error(&error, file, line, kind, 0, 0, 0) && !it.is_open
           && is_line(&given, UCA_FILE, &error, said);
}

/* Whether the audit rejects them: this condition is the first that is not met, and there. The line is the verdict. */
static bool rejects_change(uca_upgrade_file file, const char *text, uint32_t condition, uint32_t place, uint32_t number, const char *said)
{
    uca_upgrade it = UCA_CLOSED_UPGRADE;
    uca_upgrade_error error;
    six given = SIX;
    given.files[file - 1] = text;
    return opened_upgrade(&it, &given, UCA_NON_IGNORABLE, UCA_WEIGHTS, &error) == UCA_NOT_MET && is_error(&error, 0, 0, 0, condition, place, number)
           && !it.is_open && is_line(&given, UCA_NOT_MET, &error, said);
}

static void check_rejected_files(void)
{
    CHECK(rejects_file(UCA_OLD_TABLE, "@version 1\n0061 ; [.1C", 2, UCA_KIND_WEIGHT, "old table line 2: Weight"));
    CHECK(rejects_file(UCA_OLD_DATA, "x\n", 1, UCA_KIND_ORDER, "old data file line 1: Order"));
    CHECK(rejects_file(UCA_NEW_TABLE, "", 1, UCA_KIND_ORDER, "new table line 1: Order"));
    CHECK(rejects_file(UCA_NEW_DATA, "@data 1\n\nccc 0300..0314 300\n", 3, UCA_KIND_WEIGHT, "new data file line 3: Weight"));
    CHECK(rejects_file(UCA_CHANGES, "", 1, UCA_KIND_ORDER, "file of changes line 1: Order"));
    CHECK(rejects_file(UCA_CHANGES, "@changes 1\ntext\n", 2, UCA_KIND_LINE, "file of changes line 2: Line"));
    CHECK(rejects_file(UCA_CERTIFICATE, "1 1C47 1C47 1\n", 1, UCA_KIND_LINE, "certificate line 1: Line"));
    CHECK(rejects_file(UCA_CERTIFICATE, "2 0020 0020 0001\n1 1C47 1C47 0001\n", 2, UCA_KIND_ORDER, "certificate line 2: Order"));
    CHECK(rejects_file(UCA_CERTIFICATE, "1 1C47 1C47 0000\n", 1, UCA_KIND_MAP_EMPTY, "certificate line 1: Map Empty"));
    CHECK(rejects_file(UCA_CERTIFICATE, "1 1C47 1C60 0001\n1 1C60 1C60 0001\n", 2, UCA_KIND_MAP_NOT_RISING, "certificate line 2: Map NotRising"));
    CHECK(rejects_file(UCA_CERTIFICATE, "1 0000 1C47 0001\n", 1, UCA_KIND_MAP_OUT_OF_RANGE, "certificate line 1: Map OutOfRange"));
    CHECK(rejects_file(UCA_CERTIFICATE, "", 1, UCA_KIND_MAP_FIXED, "certificate line 1: Map Fixed"));
}

static void check_rejected_changes(void)
{
    CHECK(rejects_change(UCA_OLD_TABLE, "@version 1\n0061 ; [.1C47.0020.0002]\n0062 ; [.1C60.0020.0002]\n0301 ; [.0000.0020.0002]\n",
                         UCA_OLD_ILL_FORMED, UCA_AT_OLD_ROW, 3, "refused 1 OldIllFormed old row 3"));
    CHECK(rejects_change(UCA_NEW_TABLE, "@version 2\n0061 ; [.1C47.0020.0002]\n0062 ; [.1C70.0020.0002]\n0301 ; [.0000.0020.0002]\n",
                         UCA_NEW_ILL_FORMED, UCA_AT_NEW_ROW, 3, "refused 2 NewIllFormed new row 3"));
    CHECK(rejects_change(UCA_NEW_TABLE,
                         "@version 2\n@implicitweights 17000..18AFF; FB00\n0061 ; [.1C47.0020.0002]\n0062 ; [.1C70.0020.0002]\n0301 ; [.0000.0024.0002]\n",
                         UCA_RANGE_CHANGED, UCA_AT_CODE_POINT, 0x17000, "refused 3 RangeChanged code point 17000"));
    CHECK(rejects_change(UCA_CERTIFICATE, "1 1C47 1C47 0001\n2 0020 0020 0001\n2 0024 0024 0001\n3 0002 0002 0001\n", UCA_UNCOVERED,
                         UCA_AT_OLD_ROW, 2, "refused 4 Uncovered old row 2"));
    CHECK(rejects_change(UCA_NEW_TABLE, OLD, UCA_ROW_CHANGED, UCA_AT_OLD_ROW, 2, "refused 5 RowChanged old row 2"));
    CHECK(rejects_change(UCA_NEW_TABLE, "@version 2\n0061 ; [.1C47.0020.0002]\n0062 ; [.1C70.0020.0002]\n", UCA_ROW_MISSING, UCA_AT_OLD_ROW, 3,
                         "refused 6 RowMissing old row 3"));
    CHECK(rejects_change(UCA_CHANGES, "@changes 1\n", UCA_ROW_EXTRA, UCA_AT_NEW_ROW, 3, "refused 7 RowExtra new row 3"));
    CHECK(rejects_change(UCA_NEW_DATA, "@data 1\nccc 0301..0301 231\n", UCA_POINT_CHANGED, UCA_AT_CODE_POINT, 0x301,
                         "refused 8 PointChanged code point 0301"));
    CHECK(rejects_change(UCA_NEW_TABLE,
                         "@version 2\n@variable non-ignorable\n0061 ; [.1C47.0020.0002]\n0062 ; [.1C70.0020.0002]\n0301 ; [.0000.0024.0002]\n",
                         UCA_SETTING_CHANGED, UCA_NOWHERE, 0, "refused 9 SettingChanged"));
}

/* What is told of a text: 1 or 0. */
static bool is_affected(uca_upgrade *upgrade, const uint8_t *text, size_t length, uint32_t wanted)
{
    uint32_t affected = 7;
    return uca_affected(upgrade, text, length, &affected) == UCA_OK && affected == wanted;
}

static bool is_not_judged(uca_upgrade *upgrade, const uint8_t *text, size_t length, uint32_t status)
{
    uint32_t affected = 7;
    return uca_affected(upgrade, text, length, &affected) == status && affected == 0;
}

/* Whether an old key becomes this one, and needs its room. */
static bool becomes(uca_upgrade *upgrade, const uint8_t *key, size_t length, const char *made, size_t made_length)
{
    uint8_t out[ROOM];
    size_t needed = 77;
    memset(out, 0xEE, ROOM);
    bool small = uca_rekey(upgrade, key, length, out, made_length - 1, &needed) == UCA_SMALL && needed == made_length && out[0] == 0xEE;
    bool empty = uca_rekey(upgrade, key, length, out, 0, &needed) == UCA_SMALL && needed == made_length && out[0] == 0xEE;
    bool one = uca_rekey(upgrade, key, length, out, ROOM, &needed) == UCA_OK && needed == made_length && memcmp(out, made, needed) == 0
               && out[needed] == 0xEE;
    memset(out, 0xEE, ROOM);
    memcpy(out, key, length);
    bool in_place = uca_rekey_in_place(upgrade, out, length) == UCA_OK && length == made_length && memcmp(out, made, length) == 0
                    && out[length] == 0xEE;
    return small && empty && one && in_place;
}

#define BECOMES(upgrade, key, made) becomes(upgrade, BYTES(key), made, sizeof(made) - 1)

static bool becomes_none(uca_upgrade *upgrade, const uint8_t *key, size_t length, uint32_t status)
{
    uint8_t out[ROOM];
    size_t needed = 77;
    memset(out, 0xEE, ROOM);
    bool none = uca_rekey(upgrade, key, length, out, ROOM, &needed) == status && needed == 0 && out[0] == 0xEE;
    memcpy(out, key, length);
    bool stays = uca_rekey_in_place(upgrade, out, length) == status && memcmp(out, key, length) == 0 && out[length] == 0xEE;
    return none && stays;
}

/* The status of the fingerprints of an upgrade, which are then these digits; nothing written is all `ee`. */
static bool has_sums(uca_upgrade *upgrade, uint32_t status, const char *old_digits, const char *new_digits)
{
    uint8_t out[2][33];
    char digits[2][65];
    memset(out, 0xEE, sizeof out);
    bool is_status = uca_upgrade_fingerprints(upgrade, out[0], out[1]) == status && out[0][32] == 0xEE && out[1][32] == 0xEE;
    for (size_t i = 0; i < 64; i++) {
        snprintf(digits[i / 32] + 2 * (i % 32), 3, "%02x", out[i / 32][i % 32]);
    }
    return is_status && strncmp(digits[0], old_digits, 64) == 0 && strncmp(digits[1], new_digits, 64) == 0;
}

static void check_closed_upgrade(void)
{
    uca_upgrade closed = UCA_CLOSED_UPGRADE;
    uca_upgrade_error error;
    char none[65];
    memset(none, 'e', sizeof none);
    CHECK(uca_upgrade_size() == sizeof(uca_upgrade));
    CHECK(is_not_judged(&closed, BYTES("a"), UCA_CLOSED));
    CHECK(becomes_none(&closed, BYTES("\x1C\x47\0\0\0\x20\0\0\0\x02"), UCA_CLOSED));
    CHECK(has_sums(&closed, UCA_CLOSED, none, none));
    uca_close_upgrade(&closed);
    CHECK(!closed.is_open);
    CHECK(opened_upgrade(&closed, &SIX, 3, UCA_WEIGHTS, &error) == UCA_ARGUMENT && is_error(&error, 0, 0, 0, 0, 0, 0));
    CHECK(opened_upgrade(&closed, &SIX, UCA_BY_TABLE, 4, &error) == UCA_ARGUMENT && is_error(&error, 0, 0, 0, 0, 0, 0) && !closed.is_open);
}

/* Whether the key of a text by the old files becomes its key by the new ones. */
static bool is_renewed(uca_upgrade *upgrade, uca_collator *before, uca_collator *after, const uint8_t *text, size_t length)
{
    uint8_t key[ROOM], wanted[ROOM], made[ROOM];
    size_t key_length, wanted_length, needed;
    return is_affected(upgrade, text, length, 0) && uca_key(before, text, length, key, ROOM, &key_length) == UCA_OK
           && uca_key(after, text, length, wanted, ROOM, &wanted_length) == UCA_OK
           && uca_rekey(upgrade, key, key_length, made, ROOM, &needed) == UCA_OK && needed == wanted_length && memcmp(made, wanted, needed) == 0;
}

static void check_renewed(uint32_t weighting, uint32_t depth)
{
    uca_upgrade it = UCA_CLOSED_UPGRADE;
    uca_collator before = UCA_CLOSED_COLLATOR, after = UCA_CLOSED_COLLATOR;
    uca_upgrade_error error;
    uca_error collator_error;
    CHECK(opened_upgrade(&it, &SIX, weighting, depth, &error) == UCA_OK && is_error(&error, 0, 0, 0, 0, 0, 0));
    CHECK(opened(&before, OLD, ACCENT, weighting, depth, &collator_error) == UCA_OK && opened(&after, NEW, ACCENT, weighting, depth, &collator_error) == UCA_OK);
    CHECK(is_renewed(&it, &before, &after, BYTES("")));
    CHECK(is_renewed(&it, &before, &after, BYTES("ab")));
    CHECK(is_renewed(&it, &before, &after, BYTES("b\xC3\xA1\xCC\x81")));
    CHECK(is_renewed(&it, &before, &after, BYTES("b\xE4\xB8\x80")));
    uca_close_upgrade(&it);
    uca_close(&before);
    uca_close(&after);
}

static void check_upgrade(void)
{
    uca_upgrade it = UCA_CLOSED_UPGRADE, moved;
    uca_upgrade_error error;
    char marks[1 + 2 * 65] = "a";
    for (size_t i = 0; i < 65; i++) {
        memcpy(marks + 1 + 2 * i, "\xCC\x81", 2);
    }
    CHECK(opened_upgrade(&it, &SIX, UCA_NON_IGNORABLE, UCA_WEIGHTS, &error) == UCA_OK && is_error(&error, 0, 0, 0, 0, 0, 0) && it.is_open);
    CHECK(is_affected(&it, BYTES("c"), 1) && is_affected(&it, BYTES("abc\xCC\x81"), 1));
    CHECK(is_affected(&it, BYTES(""), 0) && is_affected(&it, BYTES("ab\xC3\xA1"), 0));
    CHECK(is_not_judged(&it, BYTES("c\xFF"), UCA_UTF8));
    CHECK(is_affected(&it, (const uint8_t *)marks, 1 + 2 * 64, 0) && is_not_judged(&it, (const uint8_t *)marks, 1 + 2 * 65, UCA_LONG_RUN));
    CHECK(BECOMES(&it, "\x1C\x47\x1C\x60\0\0\0\x20\0\x20\0\0\0\x02\0\x02", "\x1C\x47\x1C\x70\0\0\0\x20\0\x20\0\0\0\x02\0\x02"));
    CHECK(BECOMES(&it, "\0\0\0\0", "\0\0\0\0"));
    CHECK(becomes_none(&it, BYTES("\x1C\x61\0\0\0\x20\0\0\0\x02"), UCA_NO_IMAGE));
    CHECK(becomes_none(&it, BYTES(""), UCA_NO_IMAGE));
    CHECK(becomes_none(&it, BYTES("\x1C\x60\0\0\0\x20\0\0\0\x02\0\0\xFF\xFF"), UCA_NO_IMAGE));
    CHECK(has_sums(&it, UCA_OK, OLD_SUM, NEW_SUM));
    CHECK(opened_upgrade(&it, &(six){{"", "", "", "", "", ""}}, 9, 9, &error) == UCA_ALREADY_OPEN && is_error(&error, 0, 0, 0, 0, 0, 0));
    memcpy(&moved, &it, sizeof moved);
    memset(&it, 0, sizeof it);
    CHECK(is_affected(&moved, BYTES("c"), 1));
    uca_close_upgrade(&moved);
    CHECK(!moved.is_open && is_not_judged(&moved, BYTES("c"), UCA_CLOSED));
    CHECK(opened_upgrade(&moved, &SIX, UCA_SHIFTED, UCA_WEIGHTS, &error) == UCA_OK);
    CHECK(BECOMES(&moved, "\x1C\x60\0\0\0\x20\0\0\0\x02\0\0\xFF\xFF", "\x1C\x70\0\0\0\x20\0\0\0\x02\0\0\xFF\xFF"));
    CHECK(becomes_none(&moved, BYTES("\x1C\x60\0\0\0\x20\0\0\0\x02"), UCA_NO_IMAGE));
    uca_close_upgrade(&moved);
}

/* The digit 2 has another weight in the new table, and so have those from 3 on, whose weights the certificate moves. */
static const six NUMBERS = {{"@version 1\n"
                             "0030 ; [.1C3D.0020.0002]\n0031 ; [.1C3E.0020.0002]\n"
                             "0032 ; [.1C3F.0020.0002]\n0033 ; [.1C40.0020.0002]\n"
                             "0034 ; [.1C41.0020.0002]\n0035 ; [.1C42.0020.0002]\n"
                             "0036 ; [.1C43.0020.0002]\n0037 ; [.1C44.0020.0002]\n"
                             "0038 ; [.1C45.0020.0002]\n0039 ; [.1C46.0020.0002]\n",
                             ACCENT,
                             "@version 2\n"
                             "0030 ; [.1C3D.0020.0002]\n0031 ; [.1C3E.0020.0002]\n"
                             "0032 ; [.1C40.0020.0002]\n0033 ; [.1C41.0020.0002]\n"
                             "0034 ; [.1C42.0020.0002]\n0035 ; [.1C43.0020.0002]\n"
                             "0036 ; [.1C44.0020.0002]\n0037 ; [.1C45.0020.0002]\n"
                             "0038 ; [.1C46.0020.0002]\n0039 ; [.1C47.0020.0002]\n",
                             ACCENT, "@changes 1\ntext 0032\n",
                             "1 1C3D 1C3D 0002\n1 1C40 1C41 0007\n2 0020 0020 0001\n3 0002 0002 0001\n"}};

/* What sha256sum prints of the text that uca.h states, with the line of numbers and those of the files. */
static const char OLD_NUMBERS_SUM[] = "292db594960fa1500f6111f7c3705274e7e0fa4a49d62634c32c548a4a74b907";
static const char NEW_NUMBERS_SUM[] = "2433e903ea6ec91a447e337cd1b5ac2b5b19c7ce8fc34d2089af78319a50d188";

/* `10` is read as `210`, and `7` as `17`. */
static void check_number_upgrade(void)
{
    uca_upgrade it = UCA_CLOSED_UPGRADE;
    uca_upgrade_error error;
    CHECK(opened_upgrade(&it, &NUMBERS, UCA_NON_IGNORABLE, UCA_WEIGHTS, &error) == UCA_OK);
    CHECK(is_affected(&it, BYTES("10"), 0) && is_affected(&it, BYTES("7"), 0) && is_affected(&it, BYTES("002"), 1));
    uca_close_upgrade(&it);
    CHECK(opened_upgrade(&it, &NUMBERS, UCA_NON_IGNORABLE, UCA_NUMERIC, &error) == UCA_OK);
    CHECK(is_affected(&it, BYTES("10"), 1) && is_affected(&it, BYTES("7"), 0) && is_affected(&it, BYTES("002"), 1));
    CHECK(BECOMES(&it, "\x1C\x3E\x1C\x44\0\0\0\x20\0\x20\0\0\0\x02\0\x02",
                  "\x1C\x3E\x1C\x45\0\0\0\x20\0\x20\0\0\0\x02\0\x02"));
    CHECK(has_sums(&it, UCA_OK, OLD_NUMBERS_SUM, NEW_NUMBERS_SUM));
    uca_close_upgrade(&it);
}

/* Keys by value that are put through the maps are the new ones. */
static void check_renewed_numbers(uint32_t weighting, uint32_t depth)
{
    uca_upgrade it = UCA_CLOSED_UPGRADE;
    uca_collator before = UCA_CLOSED_COLLATOR, after = UCA_CLOSED_COLLATOR;
    uca_upgrade_error error;
    uca_error its;
    CHECK(opened_upgrade(&it, &NUMBERS, weighting, depth, &error) == UCA_OK && is_error(&error, 0, 0, 0, 0, 0, 0));
    CHECK(opened(&before, NUMBERS.files[0], ACCENT, weighting, depth, &its) == UCA_OK && opened(&after, NUMBERS.files[2], ACCENT, weighting, depth, &its) == UCA_OK);
    CHECK(is_renewed(&it, &before, &after, BYTES("")) && is_renewed(&it, &before, &after, BYTES("ab")));
    CHECK(is_renewed(&it, &before, &after, BYTES("007")) && is_renewed(&it, &before, &after, BYTES("0 7")));
    uca_close_upgrade(&it);
    uca_close(&before);
    uca_close(&after);
}

/* With numbers by value both tables have to order numbers. That of SIX has no digits, and the new one here has 5 below 4. */
static void check_unordered_upgrade(void)
{
    uca_upgrade it = UCA_CLOSED_UPGRADE;
    uca_upgrade_error error;
    char line[128], table[1024];
    six given = NUMBERS;
    CHECK(opened_upgrade(&it, &SIX, UCA_SHIFTED, UCA_NUMERIC, &error) == UCA_DIGITS && is_error(&error, UCA_OLD_TABLE, 0, 0, 0, 0, 0) && !it.is_open);
    CHECK(uca_upgrade_error_text(UCA_DIGITS, &error, line, sizeof line) == 17 && !strcmp(line, "old table: Digits"));
    strcpy(table, NUMBERS.files[2]);
    memcpy(strstr(table, "1C43"), "1C3F", 4);
    given.files[2] = table;
    CHECK(opened_upgrade(&it, &given, UCA_SHIFTED, UCA_NUMERIC, &error) == UCA_DIGITS && is_error(&error, UCA_NEW_TABLE, 6, 0, 0, 0, 0) && !it.is_open);
    CHECK(uca_upgrade_error_text(UCA_DIGITS, &error, line, sizeof line) == 23 && !strcmp(line, "new table row 6: Digits"));
}

static void check_too_long(void)
{
    uca_upgrade it = UCA_CLOSED_UPGRADE;
    uca_upgrade_error error;
    size_t length = 1048577;
    uint8_t *text = malloc(length);
    if (!text) {
        abort();
    }
    memset(text, 'a', length);
    CHECK(opened_upgrade(&it, &SIX, UCA_BY_TABLE, UCA_WEIGHTS, &error) == UCA_OK);
    CHECK(is_not_judged(&it, text, length, UCA_TOO_LONG) && is_affected(&it, text, length - 1, 0));
    uca_close_upgrade(&it);
    free(text);
}

static void *judge_c(void *upgrade)
{
    return is_affected(upgrade, BYTES("c"), 1) ? upgrade : NULL;
}

/* An upgrade may change threads: their starts and joins order the calls. */
static void check_upgrade_threads(void)
{
    uca_upgrade it = UCA_CLOSED_UPGRADE;
    uca_upgrade_error error;
    CHECK(opened_upgrade(&it, &SIX, UCA_BY_TABLE, UCA_WEIGHTS, &error) == UCA_OK);
    for (int i = 0; i < 3; i++) {
        pthread_t thread;
        void *found = NULL;
        CHECK(pthread_create(&thread, NULL, judge_c, &it) == 0 && pthread_join(thread, &found) == 0 && found == &it);
        CHECK(judge_c(&it) == &it);
    }
    uca_close_upgrade(&it);
}

static void check_upgrades(void)
{
    check_closed_upgrade();
    check_rejected_files();
    check_rejected_changes();
    check_upgrade();
    check_renewed(UCA_NON_IGNORABLE, UCA_WEIGHTS);
    check_renewed(UCA_SHIFTED, UCA_WEIGHTS);
    check_renewed(UCA_BY_TABLE, UCA_IDENTICAL);
    check_renewed(UCA_NON_IGNORABLE, UCA_IDENTICAL);
    check_number_upgrade();
    check_renewed_numbers(UCA_SHIFTED, UCA_NUMERIC);
    check_renewed_numbers(UCA_SHIFTED, UCA_IDENTICAL | UCA_NUMERIC);
    check_renewed_numbers(UCA_BY_TABLE, UCA_IDENTICAL | UCA_NUMERIC);
    check_unordered_upgrade();
    check_too_long();
    check_upgrade_threads();
}

/* ---- Commands over files in memory: c comes after a, and takes a weight that is free */

static const char LETTERS[] = "@version 1\n0061 ; [.1C47.0020.0002]\n0062 ; [.1C60.0020.0002]\n";
static const char RULES[] = "& a < c";
static const char TAILORED[] = "@version 1\n0061 ; [.1C47.0020.0002]\n0062 ; [.1C60.0020.0002]\n0063 ; [.1C48.0020.0002]\n";
static const char PLAN[] = "1 1C47 1C47 0001\n1 1C60 1C60 0001\n2 0020 0020 0001\n3 0002 0002 0001\n";

/* Memory for what a command writes, and the lengths that are told. */
typedef struct written {
    uint8_t out[256], err[256], kept[256];
    uca_lengths lengths;
} written;

#define OUT_OF(it) ((uca_room){(it).out, sizeof (it).out})
#define ERR_OF(it) ((uca_room){(it).err, sizeof (it).err})
#define KEPT_OF(it) ((uca_room){(it).kept, sizeof (it).kept})

static bool holds(const uint8_t *bytes, size_t length, const char *text)
{
    return length == strlen(text) && memcmp(bytes, text, length) == 0 && bytes[length] == 0xEE;
}

/* Whether a command wrote this line of an error, and after it one line that begins with `help: `; or no line, and nothing. */
static bool says(const written *it, const char *err)
{
    size_t first = strlen(err), length = it->lengths.err;
    bool has_help = length > first + 6 && memcmp(it->err, err, first) == 0 && memcmp(it->err + first, "help: ", 6) == 0;
    return first == 0 ? holds(it->err, length, "") : has_help && memchr(it->err + first, '\n', sizeof it->err - first) == it->err + length - 1;
}

/* Whether a command wrote this output and this error, and made this file, or none. */
static bool wrote(const written *it, const char *out, const char *err, const char *kept)
{
    bool is_file = it->lengths.files == (kept != NULL) && holds(it->kept, it->lengths.kept, kept ? kept : "");
    return is_file && holds(it->out, it->lengths.out, out) && says(it, err);
}

static written unwritten(void)
{
    written it;
    memset(&it, 0xEE, sizeof it);
    return it;
}

static void check_tailoring(void)
{
    uca_bytes table = file_of(LETTERS), data = file_of(ACCENT), rules = file_of(RULES), tailored = file_of(TAILORED), plan = file_of(PLAN);
    written it = unwritten();
    CHECK(uca_tailor(table, data, rules, OUT_OF(it), KEPT_OF(it), ERR_OF(it), &it.lengths) == 0 && wrote(&it, TAILORED, "", PLAN));
    it = unwritten();
    CHECK(uca_tailor(table, data, file_of("& a <"), OUT_OF(it), KEPT_OF(it), ERR_OF(it), &it.lengths) == 1 && wrote(&it, "", "rules byte 5: EmptyText\n", NULL));
    it = unwritten();
    CHECK(uca_audit(table, data, rules, tailored, plan, OUT_OF(it), ERR_OF(it), &it.lengths) == 0 && wrote(&it, "accepted\n", "", NULL));
    it = unwritten();
    CHECK(uca_audit(table, data, file_of("& b < c"), tailored, plan, OUT_OF(it), ERR_OF(it), &it.lengths) == 1
          && wrote(&it, "refused 9 NotPlaced relation 1\n", "", NULL));
}

static void check_changes(void)
{
    uca_bytes before = file_of(OLD), data = file_of(ACCENT), after = file_of(NEW), changes = file_of(CHANGES), maps = file_of(MAPS);
    written it = unwritten();
    CHECK(uca_find_changes(before, data, after, data, OUT_OF(it), KEPT_OF(it), ERR_OF(it), &it.lengths) == 0 && wrote(&it, CHANGES, "", MAPS));
    it = unwritten();
    CHECK(uca_audit_changes(before, data, after, data, changes, maps, OUT_OF(it), ERR_OF(it), &it.lengths) == 0 && wrote(&it, "accepted\n", "", NULL));
    it = unwritten();
    CHECK(uca_audit_changes(before, data, after, data, file_of("@changes 1\n"), maps, OUT_OF(it), ERR_OF(it), &it.lengths) == 1
          && wrote(&it, "refused 7 RowExtra new row 3\n", "", NULL));
}

/* Whether a command rejects a file with this one line, and writes nothing else. */
#define REJECTS(it, call, line) (it = unwritten(), (call) == 1 && wrote(&(it), "", line, NULL))

#define AUDIT(base, data, rules, tailored, certificate) \
    uca_audit(file_of(base), file_of(data), file_of(rules), file_of(tailored), file_of(certificate), OUT_OF(it), ERR_OF(it), &it.lengths)
#define FIND(old, old_data, new, new_data) \
    uca_find_changes(file_of(old), file_of(old_data), file_of(new), file_of(new_data), OUT_OF(it), KEPT_OF(it), ERR_OF(it), &it.lengths)
#define AUDIT_CHANGES(old, old_data, new, new_data, changes, certificate)                                                                          \
    uca_audit_changes(file_of(old), file_of(old_data), file_of(new), file_of(new_data), file_of(changes), file_of(certificate), OUT_OF(it), ERR_OF(it), \
                      &it.lengths)

/* Each file of each command in turn is one that is rejected. */
static void check_files_of_commands(void)
{
    static const char bad[] = "@version 1\n0061 ; [.1C", odd[] = "x\n";
    written it;
    CHECK(REJECTS(it, AUDIT(bad, ACCENT, RULES, TAILORED, PLAN), "base line 2: Weight\n"));
    CHECK(REJECTS(it, AUDIT(LETTERS, odd, RULES, TAILORED, PLAN), "data line 1: Order\n"));
    CHECK(REJECTS(it, AUDIT(LETTERS, ACCENT, "& a <", TAILORED, PLAN), "rules byte 5: EmptyText\n"));
    CHECK(REJECTS(it, AUDIT(LETTERS, ACCENT, RULES, bad, PLAN), "tailored line 2: Weight\n"));
    CHECK(REJECTS(it, AUDIT(LETTERS, ACCENT, RULES, TAILORED, "1 1C47 1C47 1\n"), "certificate line 1: Line\n"));
    CHECK(REJECTS(it, FIND(bad, ACCENT, NEW, ACCENT), "old line 2: Weight\n"));
    CHECK(REJECTS(it, FIND(OLD, odd, NEW, ACCENT), "old-data line 1: Order\n"));
    CHECK(REJECTS(it, FIND(OLD, ACCENT, bad, ACCENT), "new line 2: Weight\n"));
    CHECK(REJECTS(it, FIND(OLD, ACCENT, NEW, odd), "new-data line 1: Order\n"));
    CHECK(REJECTS(it, AUDIT_CHANGES(bad, ACCENT, NEW, ACCENT, CHANGES, MAPS), "old line 2: Weight\n"));
    CHECK(REJECTS(it, AUDIT_CHANGES(OLD, odd, NEW, ACCENT, CHANGES, MAPS), "old-data line 1: Order\n"));
    CHECK(REJECTS(it, AUDIT_CHANGES(OLD, ACCENT, bad, ACCENT, CHANGES, MAPS), "new line 2: Weight\n"));
    CHECK(REJECTS(it, AUDIT_CHANGES(OLD, ACCENT, NEW, odd, CHANGES, MAPS), "new-data line 1: Order\n"));
    CHECK(REJECTS(it, AUDIT_CHANGES(OLD, ACCENT, NEW, ACCENT, "@changes 1\ntext\n", MAPS), "changes line 2: Line\n"));
    CHECK(REJECTS(it, AUDIT_CHANGES(OLD, ACCENT, NEW, ACCENT, CHANGES, "1 1C47 1C47 1\n"), "certificate line 1: Line\n"));
    /* tables that are read, and have no changes: a row of the old one is not well-formed */
    static const char flat[] = "@version 1\n0061 ; [.1C47.0020.0002]\n0301 ; [.0000.0020.0002]\n";
    CHECK(REJECTS(it, FIND(flat, ACCENT, flat, ACCENT), "changes: OldIllFormed old row 2\n"));
    CHECK(REJECTS(it, uca_tailor(file_of(bad), file_of(ACCENT), file_of(RULES), OUT_OF(it), KEPT_OF(it), ERR_OF(it), &it.lengths),
                  "table line 2: Weight\n"));
    CHECK(REJECTS(it, uca_tailor(file_of(LETTERS), file_of(odd), file_of(RULES), OUT_OF(it), KEPT_OF(it), ERR_OF(it), &it.lengths),
                  "data line 1: Order\n"));
}

/* Whether a command with room for so many bytes of its output says that it is too small, and how many there are. */
static bool is_small(size_t out_room, size_t kept_room)
{
    written it = unwritten();
    uca_room out = {it.out, out_room}, kept = {it.kept, kept_room};
    uint32_t status = uca_tailor(file_of(LETTERS), file_of(ACCENT), file_of(RULES), out, kept, ERR_OF(it), &it.lengths);
    bool is_told = it.lengths.out == strlen(TAILORED) && it.lengths.kept == strlen(PLAN);
    return status == UCA_RUN_SMALL && is_told && it.out[out_room] == 0xEE && it.kept[kept_room] == 0xEE;
}

static void check_small_rooms(void)
{
    size_t out = strlen(TAILORED), kept = strlen(PLAN);
    uca_bytes table = file_of(LETTERS), data = file_of(ACCENT);
    written it = unwritten();
    CHECK(is_small(0, kept) && is_small(out - 1, kept) && is_small(out, kept - 1) && is_small(out, 0) && !is_small(out, kept));
    CHECK(uca_audit(table, data, file_of(RULES), file_of(TAILORED), file_of(PLAN), (uca_room){it.out, 8}, ERR_OF(it), &it.lengths) == UCA_RUN_SMALL
          && it.lengths.out == 9);
    CHECK(uca_find_changes(table, data, file_of(TAILORED), data, (uca_room){it.out, 8}, KEPT_OF(it), ERR_OF(it), &it.lengths) == UCA_RUN_SMALL);
    CHECK(uca_audit_changes(table, data, table, data, file_of("@changes 1\n"), file_of(PLAN), (uca_room){it.out, 8}, ERR_OF(it), &it.lengths)
          == UCA_RUN_SMALL);
}

/* A tailoring is an upgrade too: its target is affected, and no other text. */
static void check_tailoring_upgrade(void)
{
    uca_upgrade upgrade = UCA_CLOSED_UPGRADE;
    uca_collator before = UCA_CLOSED_COLLATOR, after = UCA_CLOSED_COLLATOR;
    uca_upgrade_error error;
    uca_error collator_error;
    written it = unwritten();
    uca_bytes data = file_of(ACCENT);
    CHECK(uca_find_changes(file_of(LETTERS), data, file_of(TAILORED), data, OUT_OF(it), KEPT_OF(it), ERR_OF(it), &it.lengths) == 0);
    it.out[it.lengths.out] = it.kept[it.lengths.kept] = 0;
    six files = {{LETTERS, ACCENT, TAILORED, ACCENT, (const char *)it.out, (const char *)it.kept}};
    CHECK(opened_upgrade(&upgrade, &files, UCA_NON_IGNORABLE, UCA_WEIGHTS, &error) == UCA_OK);
    CHECK(opened(&before, LETTERS, ACCENT, UCA_NON_IGNORABLE, UCA_WEIGHTS, &collator_error) == UCA_OK);
    CHECK(opened(&after, TAILORED, ACCENT, UCA_NON_IGNORABLE, UCA_WEIGHTS, &collator_error) == UCA_OK);
    CHECK(is_affected(&upgrade, BYTES("abc"), 1));
    CHECK(is_renewed(&upgrade, &before, &after, BYTES("ab")) && is_renewed(&upgrade, &before, &after, BYTES("b\xCC\x81""d")));
    uca_close_upgrade(&upgrade);
    uca_close(&before);
    uca_close(&after);
}

#define NONE BYTES("")

static void check_runs(void)
{
    written it = unwritten();
    CHECK(uca_run(BYTES("uca\0sort\0t\0d"), BYTES("t\0d"), BYTES(LETTERS), BYTES(ACCENT), NONE, NONE, NONE, NONE, BYTES("b\na\n"), it.out, 256, it.err, 256,
                  it.kept, 256, &it.lengths) == 0 && wrote(&it, "a\nb\n", "", NULL));
    it = unwritten();
    CHECK(uca_run(BYTES("uca\0sort\0t\0d"), BYTES("t"), BYTES(LETTERS), NONE, NONE, NONE, NONE, NONE, NONE, it.out, 256, it.err, 256, it.kept, 256,
                  &it.lengths) == 3 && wrote(&it, "", "data: Open\n", NULL));
    it = unwritten();
    CHECK(uca_run(BYTES("uca\0sort\0t\0d"), BYTES("t\0d"), BYTES(LETTERS), BYTES(ACCENT), NONE, NONE, NONE, NONE, BYTES("b\na\n"), it.out, 3, it.err, 0,
                  it.kept, 0, &it.lengths) == 0 && it.lengths.out == 4 && memcmp(it.out, "a\nb", 3) == 0 && it.out[3] == 0xEE);
    it = unwritten();
    CHECK(uca_run(BYTES("uca\0\xFF"), NONE, NONE, NONE, NONE, NONE, NONE, NONE, NONE, it.out, 256, it.err, 256, it.kept, 256, &it.lengths) == UCA_RUN_ARGUMENT
          && wrote(&it, "", "", NULL));
    it = unwritten();
    CHECK(uca_run(BYTES("uca"), BYTES("\xFF"), NONE, NONE, NONE, NONE, NONE, NONE, NONE, it.out, 256, it.err, 256, it.kept, 256, &it.lengths) == UCA_RUN_ARGUMENT
          && wrote(&it, "", "", NULL));
}

/* ---- Settings as one struct */

/* The status of an opening by settings, and its error, which are those of the call that it makes. */
static bool opens(uca_collator *collator, const char *table, const char *data, const uca_settings *settings, uint32_t status, uint32_t line, uint32_t kind)
{
    uca_error error = {7, 7};
    bool is_status = uca_open_with(collator, file_of(table), file_of(data), settings, &error) == status && error.line == line && error.kind == kind;
    return is_status && collator->is_open == (status == UCA_OK || status == UCA_ALREADY_OPEN);
}

/* Whether both collators make one key of a text. */
static bool are_alike(uca_collator *one, uca_collator *other, const uint8_t *text, size_t length)
{
    uint8_t key[ROOM], same[ROOM];
    size_t key_length = 7, same_length = 77;
    return uca_key(one, text, length, key, ROOM, &key_length) == UCA_OK && uca_key(other, text, length, same, ROOM, &same_length) == UCA_OK
           && key_length == same_length && memcmp(key, same, key_length) == 0;
}

/* Settings of these members mean what the calls mean that take them one by one. */
static void check_set(uint32_t weighting, uint32_t depth, bool numeric, bool has_book)
{
    uca_collator it = UCA_CLOSED_COLLATOR, other = UCA_CLOSED_COLLATOR;
    uca_error error;
    uint8_t keys[32], sum[32], its_sum[33];
    uint32_t whole_depth = depth + (numeric ? 2 : 0);
    uca_settings settings = {.weighting = weighting, .depth = depth, .numeric = numeric};
    if (has_book) {
        settings.book = file_of(BOOK);
    }
    CHECK(opens(&it, DIGITS, DATA, &settings, UCA_OK, 0, 0));
    CHECK((has_book ? opened_compact(&other, DIGITS, DATA, BOOK, weighting, whole_depth, &error)
                    : opened(&other, DIGITS, DATA, weighting, whole_depth, &error)) == UCA_OK);
    CHECK(are_alike(&it, &other, BYTES("")) && are_alike(&it, &other, BYTES("a\xCC\x81" "b")) && are_alike(&it, &other, BYTES("a10")));
    uca_close(&it);
    uca_close(&other);
    CHECK(uca_fingerprint(BYTES(DIGITS), BYTES(DATA), weighting, whole_depth, keys, &error) == UCA_OK);
    if (has_book) {
        uca_compact_fingerprint(keys, BYTES(BOOK), sum);
    } else {
        memcpy(sum, keys, 32);
    }
    memset(its_sum, 0xEE, sizeof its_sum);
    error = (uca_error){7, 7};
    CHECK(uca_fingerprint_with(file_of(DIGITS), file_of(DATA), &settings, its_sum, &error) == UCA_OK && error.line == 0 && error.kind == 0);
    CHECK(memcmp(sum, its_sum, 32) == 0 && its_sum[32] == 0xEE);
}

/* Settings that have no fingerprint: nothing is written. */
static bool has_no_sum(const char *table, const char *data, const uca_settings *settings, uint32_t status, uint32_t line, uint32_t kind)
{
    uint8_t out[32];
    uca_error error = {7, 7};
    memset(out, 0xEE, sizeof out);
    return uca_fingerprint_with(file_of(table), file_of(data), settings, out, &error) == status && error.line == line && error.kind == kind
           && out[0] == 0xEE && out[31] == 0xEE;
}

/* What is rejected without a book is rejected with one, before the book is looked at. */
static void check_rejected_settings(uca_bytes book)
{
    uca_collator it = UCA_CLOSED_COLLATOR;
    const uca_settings plain = {.book = book}, no_weighting = {.weighting = 3, .book = book}, no_depth = {.depth = 4, .book = book},
                       no_numbers = {.depth = 4, .numeric = true, .book = book};
    CHECK(opens(&it, TABLE, DATA, &no_weighting, UCA_ARGUMENT, 0, 0) && has_no_sum(TABLE, DATA, &no_weighting, UCA_ARGUMENT, 0, 0));
    CHECK(opens(&it, TABLE, DATA, &no_depth, UCA_ARGUMENT, 0, 0) && has_no_sum(TABLE, DATA, &no_depth, UCA_ARGUMENT, 0, 0));
    CHECK(opens(&it, TABLE, DATA, &no_numbers, UCA_ARGUMENT, 0, 0) && has_no_sum(TABLE, DATA, &no_numbers, UCA_ARGUMENT, 0, 0));
    CHECK(opens(&it, "@version 1\n0061 ; [.1C", DATA, &plain, UCA_TABLE, 2, UCA_KIND_WEIGHT));
    CHECK(has_no_sum("@version 1\n0061 ; [.1C", DATA, &plain, UCA_TABLE, 2, UCA_KIND_WEIGHT));
    CHECK(opens(&it, TABLE, "x\n", &plain, UCA_DATA, 1, UCA_KIND_ORDER) && has_no_sum(TABLE, "x\n", &plain, UCA_DATA, 1, UCA_KIND_ORDER));
}

static void check_books_of_settings(void)
{
    uca_collator it = UCA_CLOSED_COLLATOR;
    const uca_settings book = {.book = file_of(BOOK)}, none = {.book = {NULL, 0}}, empty = {.book = file_of("")},
                       other = {.book = file_of("@book 1\n1 1C48\n1 1C47\n")};
    CHECK(opens(&it, TABLE, DATA, &other, UCA_BOOK, 3, UCA_KIND_ORDER) && opens(&it, TABLE, DATA, &empty, UCA_BOOK, 1, UCA_KIND_ORDER));
    CHECK(opens(&it, TABLE, DATA, &book, UCA_OK, 0, 0) && opens(&it, "", "", &none, UCA_ALREADY_OPEN, 0, 0));
    CHECK(opens(&it, "", "", &book, UCA_ALREADY_OPEN, 0, 0) && MAKES(uca_key, &it, "a", "\x0A\x03"));
    uca_close(&it);
    CHECK(opens(&it, TABLE, DATA, &none, UCA_OK, 0, 0) && MAKES_NONE(uca_compact, &it, "\0\0\0\0", UCA_NO_BOOK));
    uca_close(&it);
}

/* Whether an upgrade by these settings opens as one by the members, and tells of a text that the digit 2 may be in. */
static bool opens_upgrade(const uca_settings *settings, uint32_t depth, uint32_t status, uint32_t affected)
{
    uca_upgrade it = UCA_CLOSED_UPGRADE, other = UCA_CLOSED_UPGRADE;
    uca_upgrade_error error = {7, 7, 7, 7, 7, 7}, its;
    uca_bytes file[6];
    uint8_t sums[64] = {1}, its_sums[64] = {2};
    for (int i = 0; i < 6; i++) {
        file[i] = file_of(NUMBERS.files[i]);
    }
    bool is_status = uca_open_upgrade_with(&it, file[0], file[1], file[2], file[3], file[4], file[5], settings, &error) == status
                     && opened_upgrade(&other, &NUMBERS, settings->weighting, depth, &its) == status && is_error(&error, 0, 0, 0, 0, 0, 0);
    bool is_like = status != UCA_OK
                   || (is_affected(&it, BYTES("10"), affected) && uca_upgrade_fingerprints(&it, sums, sums + 32) == UCA_OK
                       && uca_upgrade_fingerprints(&other, its_sums, its_sums + 32) == UCA_OK && memcmp(sums, its_sums, 64) == 0);
    uca_close_upgrade(&it);
    uca_close_upgrade(&other);
    return is_status && is_like;
}

static void check_upgrade_settings(void)
{
    const uca_settings plain = UCA_DEFAULT_SETTINGS, numbers = {.numeric = true}, identical = {.depth = UCA_IDENTICAL},
                       all = {UCA_NON_IGNORABLE, UCA_IDENTICAL, true, {NULL, 0}}, book = {.book = file_of(BOOK)}, empty = {.book = file_of("")},
                       no_weighting = {.weighting = 3}, no_depth = {.depth = 4, .numeric = true};
    const uca_bytes table = file_of("@version 1\n0061 ; [.1C"), data = file_of(ACCENT);
    uca_upgrade it = UCA_CLOSED_UPGRADE;
    uca_upgrade_error error;
    /* with numbers by value, `10` is read as `210`, and the digit 2 changes */
    CHECK(opens_upgrade(&plain, 0, UCA_OK, 0) && opens_upgrade(&numbers, 2, UCA_OK, 1));
    CHECK(opens_upgrade(&identical, 1, UCA_OK, 0) && opens_upgrade(&all, 3, UCA_OK, 1));
    CHECK(opens_upgrade(&book, 0, UCA_OK, 0) && opens_upgrade(&empty, 0, UCA_OK, 0));
    CHECK(opens_upgrade(&no_weighting, 0, UCA_ARGUMENT, 0) && opens_upgrade(&no_depth, 4, UCA_ARGUMENT, 0));
    CHECK(uca_open_upgrade_with(&it, file_of(OLD), data, table, data, file_of(CHANGES), file_of(MAPS), &plain, &error) == UCA_FILE);
    CHECK(is_error(&error, UCA_NEW_TABLE, 2, UCA_KIND_WEIGHT, 0, 0, 0) && !it.is_open);
    CHECK(uca_open_upgrade_with(&it, file_of(OLD), data, file_of(NEW), data, file_of("@changes 1\n"), file_of(MAPS), &plain, &error) == UCA_NOT_MET);
    CHECK(is_error(&error, 0, 0, 0, UCA_ROW_EXTRA, UCA_AT_NEW_ROW, 3) && !it.is_open);
}

static void check_settings(void)
{
    uca_collator it = UCA_CLOSED_COLLATOR;
    const uca_settings plain = UCA_DEFAULT_SETTINGS, zeros = {0};
    uint8_t sum[32];
    char digits[65];
    uca_error error;
    for (uint32_t weighting = UCA_BY_TABLE; weighting <= UCA_SHIFTED; weighting++) {
        for (int i = 0; i < 8; i++) {
            check_set(weighting, i & 1 ? UCA_IDENTICAL : UCA_WEIGHTS, i & 2, i & 4);
        }
    }
    /* the flag may be in the depth too */
    check_set(UCA_SHIFTED, UCA_NUMERIC, false, false);
    /* zeros are as the two zeros of uca_open. The table says nothing of variable elements, so they are shifted */
    CHECK(memcmp(&plain.book, &zeros.book, sizeof plain.book) == 0 && !plain.weighting && !plain.depth && !plain.numeric);
    CHECK(opens(&it, TABLE, DATA, &plain, UCA_OK, 0, 0));
    CHECK(IS_KEY(&it, "a b", "\x1C\x47\x1C\x60\0\0\0\x20\0\x20\0\0\0\x02\0\x02\0\0\xFF\xFF\x02\x09\xFF\xFF"));
    uca_close(&it);
    CHECK(uca_fingerprint_with(file_of(TABLE), file_of(DATA), &zeros, sum, &error) == UCA_OK);
    for (size_t i = 0; i < 32; i++) {
        snprintf(digits + 2 * i, 3, "%02x", sum[i]);
    }
    CHECK(!strcmp(digits, BY_TABLE_SUM));
    check_rejected_settings((uca_bytes){NULL, 0});
    check_rejected_settings(file_of(BOOK));
    check_rejected_settings(file_of(""));
    check_books_of_settings();
    check_upgrade_settings();
}

/* The texts from 0 on, and then what all greater numbers have. */
static bool are_texts(const char *text_of(uint32_t), const char *const *texts, uint32_t count)
{
    bool holds = !strcmp(text_of(count), "unknown") && !strcmp(text_of(UINT32_MAX), "unknown");
    for (uint32_t number = 0; number < count; number++) {
        holds &= !strcmp(text_of(number), texts[number]);
    }
    return holds;
}

/* Whether the line of a status without an error of a file or of an audit is the text of that status, with room for each line. */
static bool is_status_line(uint32_t status)
{
    const uca_upgrade_error none = {0, 0, 0, 0, 0, 0};
    char line[128];
    int length = uca_upgrade_error_text(status, &none, line, sizeof line);
    return length == (int)strlen(line) && !strcmp(line, uca_status_text(status));
}

static void check_upgrade_texts(void)
{
    static const char *const files[] = {"no file", "old table", "old data file", "new table", "new data file", "file of changes", "certificate"};
    static const char *const places[] = {"no position", "old row", "new row", "code point"};
    const uca_upgrade_error unknown = {7, UINT32_MAX, 14, 10, 4, UINT32_MAX}, greatest = {0, 0, 0, UCA_POINT_CHANGED, UCA_AT_CODE_POINT, 0x10FFFF};
    char line[128];
    CHECK(are_texts(uca_upgrade_file_text, files, UCA_CERTIFICATE + 1) && are_texts(uca_place_text, places, UCA_AT_CODE_POINT + 1));
    for (uint32_t status = 0; status <= UCA_DIGITS + 1; status++) {
        CHECK(status == UCA_FILE || status == UCA_NOT_MET || status == UCA_DIGITS || is_status_line(status));
    }
    CHECK(uca_upgrade_error_text(UCA_FILE, &unknown, line, sizeof line) == 32 && !strcmp(line, "unknown line 4294967295: unknown"));
    CHECK(uca_upgrade_error_text(UCA_NOT_MET, &unknown, line, sizeof line) == 37 && !strcmp(line, "refused 10 unknown unknown 4294967295"));
    CHECK(uca_upgrade_error_text(UCA_NOT_MET, &greatest, line, sizeof line) == 40 && !strcmp(line, "refused 8 PointChanged code point 10FFFF"));
    memset(line, 'e', sizeof line);
    CHECK(uca_upgrade_error_text(UCA_MEMORY, &greatest, line, 0) == 13 && line[0] == 'e');
    CHECK(uca_upgrade_error_text(UCA_MEMORY, &greatest, line, 1) == 13 && line[0] == 0 && line[1] == 'e');
    CHECK(uca_upgrade_error_text(UCA_MEMORY, &greatest, line, 14) == 13 && !strcmp(line, "out of memory") && line[14] == 'e');
}

static void check_texts(void)
{
    CHECK(!strcmp(uca_status_text(UCA_OK), "done"));
    CHECK(!strcmp(uca_status_text(UCA_UTF8), "the text is not UTF-8"));
    CHECK(!strcmp(uca_status_text(UCA_NO_KEY), "the bytes are no such key"));
    CHECK(!strcmp(uca_status_text(UCA_NO_IMAGE), "a weight of the key has no image"));
    CHECK(!strcmp(uca_status_text(UCA_DIGITS), "the table does not order numbers"));
    CHECK(!strcmp(uca_status_text(UCA_DIGITS + 1), "unknown"));
    CHECK(!strcmp(uca_kind_text(UCA_NO_ERROR), "no error"));
    CHECK(!strcmp(uca_kind_text(UCA_KIND_DUPLICATE_KEY), "DuplicateKey"));
    CHECK(!strcmp(uca_kind_text(UCA_KIND_MEMORY), "Memory"));
    CHECK(!strcmp(uca_kind_text(UCA_KIND_MAP_FIXED), "Map Fixed"));
    CHECK(!strcmp(uca_kind_text(UINT32_MAX), "unknown"));
    CHECK(!strcmp(uca_condition_text(UCA_OLD_ILL_FORMED), "OldIllFormed"));
    CHECK(!strcmp(uca_condition_text(UCA_ROW_CHANGED), "RowChanged"));
    CHECK(!strcmp(uca_condition_text(UCA_SETTING_CHANGED), "SettingChanged"));
    CHECK(!strcmp(uca_condition_text(UCA_SETTING_CHANGED + 1), "unknown"));
}

int main(void)
{
    uca_collator it = UCA_CLOSED_COLLATOR;
    uca_error error;
    check_closed();
    check_open();
    check_fingerprints();
    CHECK(opened(&it, TABLE, DATA, UCA_NON_IGNORABLE, UCA_WEIGHTS, &error) == UCA_OK);
    check_keys(&it);
    check_compare(&it);
    check_order(&it);
    check_short_texts();
    check_stored_keys();
    check_limits(&it);
    check_threads(&it);
    check_lock(&it);
    check_moved(&it);
    check_share();
    check_shared_threads();
    check_identical();
    check_unordered_digits();
    check_digits_as_text();
    check_beginnings(UCA_NON_IGNORABLE, UCA_WEIGHTS);
    check_beginnings(UCA_SHIFTED, UCA_IDENTICAL);
    check_numbers();
    check_long_numbers();
    check_open_compact();
    check_compact_share();
    check_compact_keys();
    check_ranges();
    check_number_ranges();
    check_compact_fingerprint();
    check_positions();
    check_key_beginnings();
    check_bounds();
    check_rejected_texts();
    check_upgrades();
    check_tailoring();
    check_changes();
    check_files_of_commands();
    check_small_rooms();
    check_tailoring_upgrade();
    check_runs();
    check_texts();
    check_upgrade_texts();
    check_settings();
    printf("%d passed, %d failed\n", passed, failed);
    return failed != 0;
}
