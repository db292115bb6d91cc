/* uca: Unicode collation (UTS #10) in C. Sort keys and comparison over a table and a data file, with proved contracts.

   What is proved, in the repository of uca: what each call below says, for every argument of the types that it has. Nothing is
   proved of the C code that calls it, which owes this:

   - A pointer and a length are of memory that is the caller's: readable where the parameter is const, else readable and
     writable, and not written by anyone while the call lasts. What a call writes does not overlap anything else that it is
     given. A pointer is never NULL, not even where the length is 0. Only that of the book of a uca_settings may be. A length is
     below 2^63.
   - A uca_collator was zeroed (UCA_CLOSED_COLLATOR) before its first call, and its members are written by calls alone. It may be
     moved in memory, between calls, if the old bytes are forgotten. Do not use a copy of an open one: closing both frees its
     memory twice. So it is with a uca_upgrade (UCA_CLOSED_UPGRADE). uca_share is given two that are not the same uca_collator.
   - A uca_collator or a uca_upgrade is in one call at a time: two at once damage memory, and no status reports it. It may change
     threads between two calls, if a lock or a thread's start or join orders these. For work side by side, each thread has a
     collator of its own: uca_share opens one of another, in little time and memory. uca_abi, uca_version, uca_collator_size,
     uca_upgrade_size, uca_compare_keys, uca_fingerprint, uca_compact_fingerprint and uca_run may be called from any thread at
     any time. So may the functions of this header that take neither of the two.
   - The stack has room: 640 KB for uca_run, 320 KB for uca_open_upgrade, 64 KB for uca_open, uca_open_compact and
     uca_fingerprint, and 16 KB for all other calls. A function of this header needs that of the call that it makes.
   - malloc, realloc and free are one allocator, whose blocks are aligned to 16 bytes. No call is made in a signal handler, or in
     the forked child of a process with threads.

   Who owns what: memory that a pointer names stays the caller's. An open collator has memory of its own, which uca_close
   gives back, and so has an open upgrade, for uca_close_upgrade. Memory that several collators share (uca_share) is given back
   with the last of them. uca_open, uca_open_compact and uca_open_upgrade keep none of the bytes that they read.

   Keys are whole or compact. uca_key makes whole keys (UTS #10, section 7.3) where the collator was opened by uca_open, and
   compact keys where it was opened by uca_open_compact. A compact key is the same key in fewer bytes, by a book: a small file that
   says which weights have short codes (docs/FORMATS.md, "Book files"). Compact keys of one book compare as bytes as the whole keys
   do. Keys of two books do not mix, and compact keys do not mix with whole ones.

   A new edition of the table makes other keys. Say a database has words with whole keys by an old table and data file. An upgrade
   (uca_open_upgrade) tells which words need a new key by the new files (uca_affected). The old keys of all other words become
   their new keys without the words (uca_rekey). */
#ifndef UCA_H
#define UCA_H

#include <stdbool.h>
#include <stddef.h>
#include <stdint.h>
#include <stdio.h>

#ifdef __cplusplus
extern "C" {
#endif

/* The number of this interface. It changes where a program that was compiled with this header could no longer be used. */
#define UCA_ABI 1

/* What a call did. No call ends the program: each error is a status. */
typedef enum uca_status {
    UCA_OK = 0,           /* the call did what it says */
    UCA_CLOSED = 1,       /* the collator or the upgrade is closed */
    UCA_ALREADY_OPEN = 2, /* the collator or the upgrade is open, and stays as it is */
    UCA_ARGUMENT = 3,     /* the weighting, the depth, the range or the end is none of those below */
    UCA_TABLE = 4,        /* the table is rejected: the error has the line and why. At UCA_KIND_MEMORY memory ran out there */
    UCA_DATA = 5,         /* the table is read, and the data file is rejected in the same way */
    UCA_MEMORY = 6,       /* out of memory elsewhere; a call that ran out of memory may be tried again */
    UCA_UTF8 = 7,         /* a text is not UTF-8 */
    UCA_TOO_LONG = 8,     /* a text has more than 1,048,576 code points in Normalization Form D */
    UCA_LONG_RUN = 9,     /* a text has more than 64 non-starters in a row in Normalization Form D */
    UCA_SMALL = 10,       /* what is written has more bytes than there is room for */
    UCA_BOOK = 11,        /* the table and the data file are read, and the book is rejected: the error has the line and why */
    UCA_NO_BOOK = 12,     /* the collator has no book: it was opened by uca_open */
    UCA_NO_KEY = 13,      /* the bytes are no key of the collator's settings, or no compact key of its book */
    UCA_FILE = 14,        /* a file of an upgrade is rejected: the error has which one, the line and why */
    UCA_NOT_MET = 15,     /* the files of an upgrade are read, and the audit rejects them: the error has the condition and the position */
    UCA_NO_IMAGE = 16,    /* a weight of the key has no image under the upgrade */
    UCA_DIGITS = 17       /* UCA_NUMERIC is asked for, and a table does not order numbers: the line of the error is the row to blame */
} uca_status;

/* How variable elements, such as spaces and punctuation, are weighted (UTS #10, section 4). */
typedef enum uca_weighting {
    UCA_BY_TABLE = 0,      /* as the table's @variable says, or else as UCA_SHIFTED */
    UCA_NON_IGNORABLE = 1, /* as all other elements: keys have 3 levels */
    UCA_SHIFTED = 2        /* at a fourth level alone: keys have 4 levels */
} uca_weighting;

/* How far texts are compared, and how their numbers are: one of these three, or UCA_IDENTICAL | UCA_NUMERIC.

   A number is a run of the digits 0 to 9 (U+0030 to U+0039), however long. Signs, points and other digits are no part
   of it. At UCA_NUMERIC a text is read with each number in another form. Its leading zeros are left out, and before it
   comes how many digits are left. So `file 9` is read as `file 19`, `file 10` as `file 210`, and `007` as `17`, as `7`
   is. These counts are written as 1 to 8, then as 91 to 98, 991 to 998 and so on.

   Keys, ranges, comparisons and limits are those of what is read. At UCA_IDENTICAL the last level has the code points
   of the text itself, so `7` and `007` differ there alone. Other digits are no numbers: `2` comes before `²` at level 1.

   Numbers come in the order of their values under a table that orders them, as Unicode's does. Each of the ten digits has a
   row of one element, which is not variable, and the primary weights rise from 0 to 9. No other key has a digit, and digits
   have no combining class. The calls that open tell UCA_DIGITS of any other table. */
typedef enum uca_depth {
    UCA_WEIGHTS = 0,   /* by the levels of weights */
    UCA_IDENTICAL = 1, /* by one more level, that of the code points: only canonically equivalent texts are equal */
    UCA_NUMERIC = 2    /* a flag: numbers are compared by their values, so `file 9` comes before `file 10` */
} uca_depth;

/* Which keys a range has. "The same letters" means that level 1 is the same, as for `cafe`, `Cafe` and `café`. Under UCA_SHIFTED
   `ca fe` and `c-a-f-e` have these letters too. */
typedef enum uca_range_of {
    UCA_SAME_LETTERS = 1, /* the keys with the letters of the text: level 1 is the same */
    UCA_SAME_ACCENTS = 2, /* the keys with the letters and the accents of the text: levels 1 and 2 are the same */
    UCA_BEGINS = 3        /* the keys whose level 1 begins with the letters of the text */
} uca_range_of;

/* An end of a range. */
typedef enum uca_end {
    UCA_LOW = 0, /* no key of the range is less than this one */
    UCA_HIGH = 1 /* all keys of the range are less than this one */
} uca_end;

/* Why a file is rejected. docs/MESSAGES.md says what each kind means, and what to do. */
typedef enum uca_kind {
    UCA_NO_ERROR = 0,
    UCA_KIND_LINE = 1,
    UCA_KIND_ORDER = 2,
    UCA_KIND_CODE_POINT = 3,
    UCA_KIND_WEIGHT = 4,
    UCA_KIND_DUPLICATE_KEY = 5,
    UCA_KIND_RANGE = 6,
    UCA_KIND_LIMIT = 7,
    UCA_KIND_READ = 8, /* bytes in memory are always read, so this does not come */
    UCA_KIND_MEMORY = 9, /* memory ran out while the file was read */
    UCA_KIND_MAP_EMPTY = 10, /* of a certificate alone, and so are the others of a map */
    UCA_KIND_MAP_NOT_RISING = 11,
    UCA_KIND_MAP_OUT_OF_RANGE = 12,
    UCA_KIND_MAP_FIXED = 13
} uca_kind;

/* A collator. Zeros are a closed one. The members are the library's; uca_collator_size tells how many bytes they have. */
typedef struct uca_collator {
    struct {
        void *inside;
        bool is_kept;
    } handle;
    bool is_open;
} uca_collator;

#define UCA_CLOSED_COLLATOR {{0, 0}, 0}

/* Where a file is rejected, and why: a line from 1 on and a uca_kind, or 0 and 0 if no file is. At UCA_DIGITS the line is the row
   of the table to blame, from 1 on, or 0 if a digit has no row. */
typedef struct uca_error {
    uint32_t line;
    uint32_t kind;
} uca_error;

/* How two texts or two keys compare. */
typedef struct uca_comparison {
    int32_t order;  /* -1 if the left one comes first, 1 if the right one does, 0 if they are equal */
    uint32_t level; /* the first level at which they differ, from 1 on, or 0 */
} uca_comparison;

/* An upgrade of stored keys. Zeros are a closed one. The members are the library's; uca_upgrade_size tells how many bytes
   they have. */
typedef struct uca_upgrade {
    struct {
        void *inside;
        bool is_kept;
    } handle;
    bool is_open;
} uca_upgrade;

#define UCA_CLOSED_UPGRADE {{0, 0}, 0}

/* A file of an upgrade. */
typedef enum uca_upgrade_file {
    UCA_OLD_TABLE = 1,
    UCA_OLD_DATA = 2,
    UCA_NEW_TABLE = 3,
    UCA_NEW_DATA = 4,
    UCA_CHANGES = 5,
    UCA_CERTIFICATE = 6
} uca_upgrade_file;

/* A condition of the audit that is not met. docs/FORMATS.md says what each means, as `uca audit-changes` prints it. */
typedef enum uca_condition {
    UCA_OLD_ILL_FORMED = 1,
    UCA_NEW_ILL_FORMED = 2,
    UCA_RANGE_CHANGED = 3,
    UCA_UNCOVERED = 4,
    UCA_ROW_CHANGED = 5,
    UCA_ROW_MISSING = 6,
    UCA_ROW_EXTRA = 7,
    UCA_POINT_CHANGED = 8,
    UCA_SETTING_CHANGED = 9
} uca_condition;

/* What the number of a position counts. */
typedef enum uca_place {
    UCA_NOWHERE = 0,      /* nothing: there is no position */
    UCA_AT_OLD_ROW = 1,   /* rows of the old table, from 1 on */
    UCA_AT_NEW_ROW = 2,   /* rows of the new table, from 1 on */
    UCA_AT_CODE_POINT = 3 /* it is a code point */
} uca_place;

/* Why an upgrade is not opened. All members are 0 unless the status is UCA_FILE, UCA_DIGITS or UCA_NOT_MET. */
typedef struct uca_upgrade_error {
    uint32_t file;      /* UCA_FILE: a uca_upgrade_file, the first that is rejected. UCA_DIGITS: UCA_OLD_TABLE or UCA_NEW_TABLE */
    uint32_t line;      /* UCA_FILE: its line, from 1 on. UCA_DIGITS: its row to blame, from 1 on, or 0 if a digit has no row */
    uint32_t kind;      /* UCA_FILE: a uca_kind */
    uint32_t condition; /* UCA_NOT_MET: a uca_condition, the first that is not met */
    uint32_t place;     /* UCA_NOT_MET: a uca_place, what the number below is */
    uint32_t number;    /* UCA_NOT_MET: the first position where it is not met */
} uca_upgrade_error;

/* UCA_ABI, as the library was built. */
uint32_t uca_abi(void);

/* The version of the library: major * 1000000 + minor * 1000 + patch. */
uint32_t uca_version(void);

/* sizeof(uca_collator), as the library was built. */
size_t uca_collator_size(void);

/* Opens a closed collator by the bytes of a table (allkeys.txt) and of a data file. `weighting` is a uca_weighting.
   `depth` is a uca_depth, or UCA_IDENTICAL | UCA_NUMERIC. The error is 0 and 0 unless the status is UCA_TABLE or
   UCA_DATA. uca_open_with takes all this as one struct, and a book if there is one. An older library that does not know a number
   of a newer uca.h returns UCA_ARGUMENT.

   UCA_OK: the bytes mean a table and a data file, and texts are keyed by these until uca_close.
   UCA_ALREADY_OPEN, UCA_ARGUMENT, UCA_TABLE, UCA_DATA, UCA_MEMORY: the collator is as before. */
uint32_t uca_open(uca_collator *collator, const uint8_t *table, size_t table_length, const uint8_t *data, size_t data_length,
                  uint32_t weighting, uint32_t depth, uca_error *error);

/* Opens a closed collator as uca_open does, and by the bytes of a book. From then on uca_key gives compact keys. The table is
   judged first, then the data file, then the book. The error is 0 and 0 unless the status is UCA_TABLE, UCA_DATA or UCA_BOOK.

   UCA_OK: the bytes mean a table, a data file and a book, and texts are keyed by these until uca_close.
   UCA_ALREADY_OPEN, UCA_ARGUMENT, UCA_TABLE, UCA_DATA, UCA_BOOK, UCA_MEMORY: the collator is as before. */
uint32_t uca_open_compact(uca_collator *collator, const uint8_t *table, size_t table_length, const uint8_t *data, size_t data_length,
                          const uint8_t *book, size_t book_length, uint32_t weighting, uint32_t depth, uca_error *error);

/* Opens `other`, which is closed, as one more collator with all that `collator` keys texts by, and with its book. Both share the
   table and the data file. From then on each may be in a call of another thread at the same time, and may be closed before the
   other. The two are not the same uca_collator. A call writes its uca_collator, so threads are faster where theirs are 128 bytes
   apart.

   UCA_OK: the keys, ranges and comparisons of `other` are those of `collator`, until uca_close of `other`.
   UCA_CLOSED: `collator` is closed.
   UCA_ALREADY_OPEN: both are open.
   UCA_CLOSED, UCA_ALREADY_OPEN, UCA_MEMORY: `other` is as before. */
uint32_t uca_share(uca_collator *collator, uca_collator *other);

/* The sort key of a text (UTS #10, section 7.3), which is UTF-8 and may have any bytes, also 0. It is the compact key where the
   collator has a book, else the whole key.

   UCA_OK: the first `*needed` bytes of `out` are the key, and those after them are as before.
   UCA_SMALL: the key has `*needed` bytes, and `room` is less.
   UCA_CLOSED, UCA_UTF8, UCA_TOO_LONG, UCA_LONG_RUN, UCA_MEMORY: `*needed` is 0.
   Unless the status is UCA_OK, `out` is as before.

   Keys of one collator compare as bytes (memcmp, and then the length) as their texts do. Of whole keys, uca_compare_keys tells the
   level too. Canonically equivalent texts have one key. At UCA_IDENTICAL no other texts have. */
uint32_t uca_key(uca_collator *collator, const uint8_t *text, size_t length, uint8_t *out, size_t room, size_t *needed);

/* The first bytes of the key that uca_key makes of a text: as many as there is room for. An index that sorts by the first
   bytes, and looks at the rest where these are equal, needs no more. The call makes the whole key first: it saves room at `out`, and
   no time.

   UCA_OK: the key has `*needed` bytes. The first of them, as many as fit, are at the beginning of `out`, and the bytes after
   them are as before.
   UCA_CLOSED, UCA_UTF8, UCA_TOO_LONG, UCA_LONG_RUN, UCA_MEMORY: `out` is as before, and `*needed` is 0. */
uint32_t uca_key_beginning(uca_collator *collator, const uint8_t *text, size_t length, uint8_t *out, size_t room, size_t *needed);

/* How many bytes the key of a text of at most `length` bytes has at most. Room for so many is enough for every such text, so that
   one call of uca_key makes the key. Most keys are far shorter: without a book the bound is 518 times `length`, and 8 more. With
   a book it is twice that, and one more.

   UCA_OK: no key that uca_key makes of a text of at most `length` bytes has more than `*bound` bytes. Where the bound has no room
   in a size_t, it is SIZE_MAX.
   UCA_CLOSED: `*bound` is 0. */
uint32_t uca_key_bound(uca_collator *collator, size_t length, size_t *bound);

/* Whether a text is accepted, and where an error is. Ask it where another call rejects a text. Of two texts, ask it of the left
   one, and then of the right one.

   UCA_OK: the text is accepted, and `*position` is 0.
   UCA_UTF8: `*position` is the first byte, from 0 on, that is not part of UTF-8.
   UCA_LONG_RUN: `*position` is the index, from 0 on, of a code point of the text in Normalization Form D. The first run of more
   than 64 non-starters begins there. At UCA_NUMERIC it is that of what is read of the text.
   UCA_CLOSED, UCA_TOO_LONG, UCA_MEMORY: `*position` is 0. */
uint32_t uca_check_text(uca_collator *collator, const uint8_t *text, size_t length, size_t *position);

/* The compact key of a whole key, by the book of the collator. The key need not be that of a text.

   UCA_OK: the first `*needed` bytes of `out` are the compact key, and those after them are as before.
   UCA_SMALL: the compact key has `*needed` bytes, and `room` is less.
   UCA_NO_KEY: the bytes are no whole key of the weighting and the depth. `*needed` is 0.
   UCA_CLOSED, UCA_NO_BOOK, UCA_MEMORY: `*needed` is 0.
   Unless the status is UCA_OK, `out` is as before. */
uint32_t uca_compact(uca_collator *collator, const uint8_t *key, size_t length, uint8_t *out, size_t room, size_t *needed);

/* The whole key of which these bytes are the compact key, by the book of the collator.

   UCA_OK: the first `*needed` bytes of `out` are the whole key, and those after them are as before.
   UCA_SMALL: the whole key has `*needed` bytes, and `room` is less.
   UCA_NO_KEY: the bytes are the compact key of no whole key. `*needed` is 0.
   UCA_CLOSED, UCA_NO_BOOK, UCA_MEMORY: `*needed` is 0.
   Unless the status is UCA_OK, `out` is as before. */
uint32_t uca_expand(uca_collator *collator, const uint8_t *compact, size_t length, uint8_t *out, size_t room, size_t *needed);

/* One end of the range of keys that a lookup by this text scans: all keys from the low end up to, and without, the high end.
   `range` is a uca_range_of, and `end` is a uca_end. The keys are those that uca_key makes with this collator: compact ones where it
   has a book, else whole ones.

   For example, the range UCA_SAME_LETTERS of `cafe` has the keys of `cafe`, `Cafe` and `café`, and no key of `cafes`. The range
   UCA_SAME_ACCENTS of `cafe` has those of `cafe` and `Cafe`. The range UCA_BEGINS of `caf` has all these, and that of
   `cafes`. Among whole keys, UCA_BEGINS has no key in which the weight FFFF comes after the letters of the text.

   At UCA_NUMERIC a number is found as a whole. The range UCA_BEGINS of `file 1` has the keys of `file 1` and `file 1a`,
   and not that of `file 10`.

   The low end of UCA_SAME_LETTERS or UCA_SAME_ACCENTS can be kept as a key of its own: two texts have the same low end exactly if
   they have the same letters, or the same letters and accents. So a unique index on it lets no second such text in.

   UCA_OK: the first `*needed` bytes of `out` are the end, and those after them are as before.
   UCA_SMALL: the end has `*needed` bytes, and `room` is less.
   UCA_ARGUMENT: the range or the end is none of those. `*needed` is 0.
   UCA_CLOSED, UCA_UTF8, UCA_TOO_LONG, UCA_LONG_RUN, UCA_MEMORY: `*needed` is 0.
   Unless the status is UCA_OK, `out` is as before. */
uint32_t uca_range(uca_collator *collator, const uint8_t *text, size_t length, uint32_t range, uint32_t end, uint8_t *out,
                   size_t room, size_t *needed);

/* Compares two texts without keys. It tells what uca_compare_keys tells of their whole keys. A book changes nothing here.

   UCA_OK: the comparison is that of the texts.
   UCA_CLOSED, UCA_UTF8, UCA_TOO_LONG, UCA_LONG_RUN, UCA_MEMORY: the comparison is 0 and 0. The left text is judged first. */
uint32_t uca_compare(uca_collator *collator, const uint8_t *left, size_t left_length, const uint8_t *right, size_t right_length,
                     uca_comparison *comparison);

/* Orders any two byte strings, for what has to place each row of a table. Texts that are accepted are in their order, as
   uca_compare says. All other bytes come after them, in the order of bytes. `*order` is -1, 0 or 1.

   UCA_OK: the order is that of the bytes.
   UCA_CLOSED, UCA_MEMORY: `*order` is 0. */
uint32_t uca_order(uca_collator *collator, const uint8_t *left, size_t left_length, const uint8_t *right, size_t right_length, int32_t *order);

/* Compares two whole keys of as many levels: 3, one more under UCA_SHIFTED, and one more at UCA_IDENTICAL. Any bytes can be
   compared. Compact keys are compared as bytes instead. */
void uca_compare_keys(const uint8_t *left, size_t left_length, const uint8_t *right, size_t right_length, uint8_t levels,
                      uca_comparison *comparison);

/* The fingerprint of what whole keys are made by. Keep it beside stored keys: two collators of one fingerprint make the same keys. It is
   the SHA-256 of this text, in which each line ends with a line feed (10):

     uca keys 1
     unicode 18.0.0
     weighting shifted
     depth weights
     table 64 lower-case hexadecimal digits
     data 64 lower-case hexadecimal digits

   `unicode` is the edition of the normalization. The weighting is `shifted` or `non-ignorable`; for UCA_BY_TABLE it is that of the
   table. The depth is `weights` or `identical`. The digits are the SHA-256 of each file. At UCA_NUMERIC one more line
   comes after that of the depth: `numbers by value`. The arguments and the error are those of uca_open.

   UCA_OK: uca_open could open these files, and the 32 bytes at `out` are the fingerprint.
   UCA_ARGUMENT, UCA_TABLE, UCA_DATA, UCA_MEMORY: `out` is as before. */
uint32_t uca_fingerprint(const uint8_t *table, size_t table_length, const uint8_t *data, size_t data_length, uint32_t weighting,
                         uint32_t depth, uint8_t *out, uca_error *error);

/* The fingerprint of what compact keys are made by: the fingerprint of the whole keys, 32 bytes at `keys` that uca_fingerprint wrote,
   and the bytes of a book. Keep it beside stored compact keys. It is the SHA-256 of this text, in which each line ends with a line
   feed (10):

     uca compact keys 1
     keys 64 lower-case hexadecimal digits
     book 64 lower-case hexadecimal digits

   The first digits are those of the 32 bytes, and the others are the SHA-256 of the book. The bytes of the book are not judged:
   uca_open_compact rejects what is no book. The 32 bytes at `out` are written. */
void uca_compact_fingerprint(const uint8_t *keys, const uint8_t *book, size_t book_length, uint8_t *out);

/* Gives back all memory of a collator, which is closed then. A closed one stays so. */
void uca_close(uca_collator *collator);

/* sizeof(uca_upgrade), as the library was built. */
size_t uca_upgrade_size(void);

/* Opens a closed upgrade by the bytes of six files: the table and the data file that the stored keys were made by, the new
   table and data file, and the file of changes and the certificate that `uca changes` made of these four. The files are judged
   in this order. Then the change that they mean is audited, as `uca audit-changes` does. `weighting` and `depth` are those that
   the stored keys were made with, also where that is UCA_BY_TABLE. So UCA_NUMERIC is given if they were made with it.

   UCA_OK: the audit accepts the change. Take any text of UTF-8 that the change does not affect, by uca_affected. uca_rekey makes
   of its key by the old files its key by the new files. Two such texts compare by the new files as by the old ones.
   UCA_ALREADY_OPEN, UCA_ARGUMENT, UCA_FILE, UCA_DIGITS, UCA_NOT_MET, UCA_MEMORY: the upgrade is as before. */
uint32_t uca_open_upgrade(uca_upgrade *upgrade, const uint8_t *old_table, size_t old_table_length, const uint8_t *old_data,
                          size_t old_data_length, const uint8_t *new_table, size_t new_table_length, const uint8_t *new_data,
                          size_t new_data_length, const uint8_t *changes, size_t changes_length, const uint8_t *certificate,
                          size_t certificate_length, uint32_t weighting, uint32_t depth, uca_upgrade_error *error);

/* Whether the key of a text has to be made anew, by a collator of the new files. `uca affected --changes` prints exactly the
   lines of such texts; at UCA_NUMERIC, `uca affected --changes --numeric` does. What is read of the text is judged. So
   there a change of the digit 2 affects `10`, which is read as `210`.

   UCA_OK: `*affected` is 1 if the change affects the text, else 0.
   UCA_CLOSED, UCA_UTF8, UCA_TOO_LONG, UCA_LONG_RUN, UCA_MEMORY: `*affected` is 0. */
uint32_t uca_affected(uca_upgrade *upgrade, const uint8_t *text, size_t length, uint32_t *affected);

/* The new key of the old key of a text that the change does not affect. Give it whole keys of the first fingerprint of
   uca_upgrade_fingerprints alone. No call detects a key of other files or settings. The key of an affected text has to be made
   anew: here it becomes other bytes, or has no image. Compact keys are expanded before (uca_expand), and the new keys are made compact after
   (uca_compact).

   UCA_OK: the first `*needed` bytes of `out` are the new key, and those after them are as before.
   UCA_SMALL: the new key has `*needed` bytes, and `room` is less.
   UCA_NO_IMAGE: a weight of the key has no image. So it is if the bytes are no key of the weighting and the depth. `*needed` is 0.
   UCA_CLOSED, UCA_MEMORY: `*needed` is 0.
   Unless the status is UCA_OK, `out` is as before. */
uint32_t uca_rekey(uca_upgrade *upgrade, const uint8_t *key, size_t length, uint8_t *out, size_t room, size_t *needed);

/* What uca_rekey does, in the place of the key. The new key has as many bytes as the old one.

   UCA_OK: the bytes at `key` are the new key.
   UCA_NO_IMAGE: as for uca_rekey.
   UCA_CLOSED, UCA_NO_IMAGE, UCA_MEMORY: the bytes at `key` are as before. */
uint32_t uca_rekey_in_place(uca_upgrade *upgrade, uint8_t *key, size_t length);

/* The fingerprints of the old keys and of the new keys, as uca_fingerprint makes them of the old files and of the new ones.
   The upgrade is for keys of the old one alone: compare it with the fingerprint that is kept beside the stored keys.

   UCA_OK: the 32 bytes at `old_out` and those at `new_out` are written.
   UCA_CLOSED: they are as before. */
uint32_t uca_upgrade_fingerprints(uca_upgrade *upgrade, uint8_t *old_out, uint8_t *new_out);

/* Gives back all memory of an upgrade, which is closed then. A closed one stays so. */
void uca_close_upgrade(uca_upgrade *upgrade);

/* How much a command wrote. */
typedef struct uca_lengths {
    size_t out;   /* the bytes of its output */
    size_t err;   /* the bytes of its error lines */
    size_t kept;  /* the bytes of the file that it made */
    size_t files; /* how many files it made: 0 or 1 */
} uca_lengths;

/* What a call of uca_run returns where no command ran. */
typedef enum uca_run_status {
    UCA_RUN_ARGUMENT = 256, /* the arguments or the names are not UTF-8 */
    UCA_RUN_MEMORY = 257,   /* out of memory before the command began */
    UCA_RUN_SMALL = 258     /* of the functions below: what is written has more bytes than there is room for */
} uca_run_status;

/* Runs the command `uca` over files in memory, and returns its status, which is 0 to 4 (docs/MESSAGES.md). It does what the
   program does with these arguments: all commands, with their output, their error lines and the file that they make. uca_tailor,
   uca_audit, uca_find_changes and uca_audit_changes below are calls of it. uca_status_text is not for these statuses.

   `arguments` are UTF-8, with a 0 between two of them, and none at the end. The first one is the name of the program, as in
   `uca\0check\0t\0d`. `names` are those of the files, in the same form: the first name is that of `first`, and so on. No bytes
   are one empty name. Give a file without a name no bytes: it cannot be read. `input` is what the command reads from its
   standard input. A file that it makes, such as a certificate, may have any name but that of a file that it reads.

   It takes up to 640 KB of the stack, so give a thread that calls it one megabyte.

   The first bytes of the output are at the beginning of `out`, as many as there is room for, and so it is with the error lines
   and `err`, and with the file and `kept`. The rest of each is as before. The lengths are those of all bytes. So compare each
   with its room, also where the status is 0. Where one is more, call it again with that much room.

   UCA_RUN_ARGUMENT, UCA_RUN_MEMORY: no command ran. Nothing is written, and the lengths are 0. */
uint32_t uca_run(const uint8_t *arguments, size_t arguments_length, const uint8_t *names, size_t names_length, const uint8_t *first,
                 size_t first_length, const uint8_t *second, size_t second_length, const uint8_t *third, size_t third_length,
                 const uint8_t *fourth, size_t fourth_length, const uint8_t *fifth, size_t fifth_length, const uint8_t *sixth,
                 size_t sixth_length, const uint8_t *input, size_t input_length, uint8_t *out, size_t out_room, uint8_t *err,
                 size_t err_room, uint8_t *kept, size_t kept_room, uca_lengths *lengths);

/* ---- Settings as one struct. Its calls are in this header, over the calls above, so nothing is proved of them. */

/* Bytes of a file. */
typedef struct uca_bytes {
    const uint8_t *bytes;
    size_t length;
} uca_bytes;

#define UCA_BYTES_OF(text) (const uint8_t *)(text), sizeof(text) - 1
#define UCA_FILE_OF(file) (file).bytes, (file).length

/* How texts are keyed. A program names the members that it wants to be other than 0:

     uca_settings settings = {.depth = UCA_IDENTICAL, .numeric = true};

   Zeros are the weighting of the table, the levels of weights, numbers as text, and no book. A later uca.h may add members at the end.
   Where a program does not name these they are 0, and all is as before. The library never sees this struct, so a program that was
   compiled before works as before. Parts of a program that pass it to each other are compiled with one uca.h. */
typedef struct uca_settings {
    uint32_t weighting; /* a uca_weighting */
    uint32_t depth;     /* a uca_depth, as for uca_open */
    bool numeric;       /* whether UCA_NUMERIC is added to the depth: numbers are compared by their values */
    uca_bytes book;     /* the book of compact keys. Where its `bytes` are NULL there is none, and keys are whole. The bytes of an empty
                           file are not NULL, and rejected: UCA_BOOK, line 1 */
} uca_settings;

#define UCA_DEFAULT_SETTINGS {0, 0, 0, {0, 0}}

/* The depth of the settings, as uca_open takes it. */
static inline uint32_t uca_depth_of(const uca_settings *settings)
{
    return settings->numeric ? settings->depth | (uint32_t)UCA_NUMERIC : settings->depth;
}

/* Opens a closed collator by a table, a data file and settings. It is uca_open_compact where there is a book, and else uca_open: the
   status and the error are those of that call. */
static inline uint32_t uca_open_with(uca_collator *collator, uca_bytes table, uca_bytes data, const uca_settings *settings,
                                     uca_error *error)
{
    uint32_t depth = uca_depth_of(settings);
    if (!settings->book.bytes) {
        return uca_open(collator, UCA_FILE_OF(table), UCA_FILE_OF(data), settings->weighting, depth, error);
    }
    return uca_open_compact(collator, UCA_FILE_OF(table), UCA_FILE_OF(data), UCA_FILE_OF(settings->book), settings->weighting, depth,
                            error);
}

/* The fingerprint of the keys of a collator that uca_open_with opens by the same table, data file and settings. Keep it beside these
   keys. Where there is no book it is that of uca_fingerprint. Where there is one it is that of uca_compact_fingerprint, and the book
   is not judged. The status and the error are those of uca_fingerprint.

   UCA_OK: the 32 bytes at `out` are the fingerprint.
   UCA_ARGUMENT, UCA_TABLE, UCA_DATA, UCA_MEMORY: `out` is as before. */
static inline uint32_t uca_fingerprint_with(uca_bytes table, uca_bytes data, const uca_settings *settings, uint8_t *out, uca_error *error)
{
    uint8_t keys[32];
    bool has_book = settings->book.bytes != NULL;
    uint32_t status = uca_fingerprint(UCA_FILE_OF(table), UCA_FILE_OF(data), settings->weighting, uca_depth_of(settings),
                                      has_book ? keys : out, error);
    if (status == UCA_OK && has_book) {
        uca_compact_fingerprint(keys, UCA_FILE_OF(settings->book), out);
    }
    return status;
}

/* Opens a closed upgrade by the six files of uca_open_upgrade, and by the settings that the stored keys were made with. The status and
   the error are those of uca_open_upgrade. The book plays no part: the keys and the fingerprints of an upgrade are those of whole
   keys. */
static inline uint32_t uca_open_upgrade_with(uca_upgrade *upgrade, uca_bytes old_table, uca_bytes old_data, uca_bytes new_table,
                                             uca_bytes new_data, uca_bytes changes, uca_bytes certificate, const uca_settings *settings,
                                             uca_upgrade_error *error)
{
    return uca_open_upgrade(upgrade, UCA_FILE_OF(old_table), UCA_FILE_OF(old_data), UCA_FILE_OF(new_table), UCA_FILE_OF(new_data),
                            UCA_FILE_OF(changes), UCA_FILE_OF(certificate), settings->weighting, uca_depth_of(settings), error);
}

/* ---- Tables, certificates and their audits. These are calls of uca_run with the arguments of one command. They are in this header,
   so nothing is proved of them. Each returns 0 where the command did its work. It returns UCA_RUN_SMALL where the output or the
   file has more bytes than its room: call it again, with the room that the lengths say. Else it returns the status of uca_run.
   Then the bytes at `err` are error lines as `uca` prints them, such as `rules byte 12: Utf8` and a line that begins with `help: `,
   as many as there is room for. An audit that rejects returns 1 with a verdict, and without error lines. The lengths are those of
   uca_run. */

/* Memory of the caller for what is written. */
typedef struct uca_room {
    uint8_t *bytes;
    size_t room;
} uca_room;

/* The status of a command: UCA_RUN_SMALL where it wrote more than there is room for. */
static inline uint32_t uca_fitted(uint32_t status, const uca_lengths *lengths, size_t out_room, size_t kept_room)
{
    return lengths->out > out_room || lengths->kept > kept_room ? (uint32_t)UCA_RUN_SMALL : status;
}

#define UCA_ROOM_OF(to) (to).bytes, (to).room

/* Tailors a table by rules (UTS #35 Part 5): the table goes to `tailored`, and its certificate to `certificate`. */
static inline uint32_t uca_tailor(uca_bytes table, uca_bytes data, uca_bytes rules, uca_room tailored, uca_room certificate,
                                  uca_room err, uca_lengths *lengths)
{
    static const uint8_t none[1] = {0};
    uint32_t status = uca_run(UCA_BYTES_OF("uca\0tailor\0table\0data\0rules\0certificate"), UCA_BYTES_OF("table\0data\0rules"),
                              UCA_FILE_OF(table), UCA_FILE_OF(data), UCA_FILE_OF(rules), none, 0, none, 0, none, 0, none, 0,
                              UCA_ROOM_OF(tailored), UCA_ROOM_OF(err), UCA_ROOM_OF(certificate), lengths);
    return uca_fitted(status, lengths, tailored.room, certificate.room);
}

/* Audits a tailored table. The verdict goes to `verdict`: a line that begins with `accepted`, or with `refused` and the condition
   that is not met. */
static inline uint32_t uca_audit(uca_bytes base, uca_bytes data, uca_bytes rules, uca_bytes tailored, uca_bytes certificate,
                                 uca_room verdict, uca_room err, uca_lengths *lengths)
{
    static uint8_t none[1] = {0};
    uint32_t status = uca_run(UCA_BYTES_OF("uca\0audit\0base\0data\0rules\0tailored\0certificate"),
                              UCA_BYTES_OF("base\0data\0rules\0tailored\0certificate"), UCA_FILE_OF(base), UCA_FILE_OF(data),
                              UCA_FILE_OF(rules), UCA_FILE_OF(tailored), UCA_FILE_OF(certificate), none, 0, none, 0,
                              UCA_ROOM_OF(verdict), UCA_ROOM_OF(err), none, 0, lengths);
    return uca_fitted(status, lengths, verdict.room, 0);
}

/* Finds what a new table and its data file change: the file of changes goes to `changes`, and the certificate to `certificate`.
   uca_open_upgrade takes both. The new table may be a new edition, or the old table tailored. */
static inline uint32_t uca_find_changes(uca_bytes old_table, uca_bytes old_data, uca_bytes new_table, uca_bytes new_data,
                                        uca_room changes, uca_room certificate, uca_room err, uca_lengths *lengths)
{
    static const uint8_t none[1] = {0};
    uint32_t status = uca_run(UCA_BYTES_OF("uca\0changes\0old\0old-data\0new\0new-data\0certificate"),
                              UCA_BYTES_OF("old\0old-data\0new\0new-data"), UCA_FILE_OF(old_table), UCA_FILE_OF(old_data),
                              UCA_FILE_OF(new_table), UCA_FILE_OF(new_data), none, 0, none, 0, none, 0, UCA_ROOM_OF(changes),
                              UCA_ROOM_OF(err), UCA_ROOM_OF(certificate), lengths);
    return uca_fitted(status, lengths, changes.room, certificate.room);
}

/* Audits a file of changes and its certificate. The verdict goes to `verdict`, as that of uca_audit does. */
static inline uint32_t uca_audit_changes(uca_bytes old_table, uca_bytes old_data, uca_bytes new_table, uca_bytes new_data,
                                         uca_bytes changes, uca_bytes certificate, uca_room verdict, uca_room err, uca_lengths *lengths)
{
    static uint8_t none[1] = {0};
    uint32_t status = uca_run(UCA_BYTES_OF("uca\0audit-changes\0old\0old-data\0new\0new-data\0changes\0certificate"),
                              UCA_BYTES_OF("old\0old-data\0new\0new-data\0changes\0certificate"), UCA_FILE_OF(old_table),
                              UCA_FILE_OF(old_data), UCA_FILE_OF(new_table), UCA_FILE_OF(new_data), UCA_FILE_OF(changes),
                              UCA_FILE_OF(certificate), none, 0, UCA_ROOM_OF(verdict), UCA_ROOM_OF(err), none, 0, lengths);
    return uca_fitted(status, lengths, verdict.room, 0);
}

/* ---- Texts of numbers. They are in this header, so nothing is proved of them. A number of another kind is "unknown". */

/* What a uca_status says, for a line of a log. */
static inline const char *uca_status_text(uint32_t status)
{
    static const char *const texts[] = {
        "done",
        "closed",
        "already open",
        "no such weighting, depth, range or end",
        "the table is rejected",
        "the data file is rejected",
        "out of memory",
        "the text is not UTF-8",
        "the text has more than 1,048,576 code points in Normalization Form D",
        "the text has more than 64 non-starters in a row in Normalization Form D",
        "there is too little room",
        "the book is rejected",
        "the collator has no book",
        "the bytes are no such key",
        "a file of the upgrade is rejected",
        "the audit rejects the upgrade",
        "a weight of the key has no image",
        "the table does not order numbers",
    };
    return status < sizeof texts / sizeof *texts ? texts[status] : "unknown";
}

/* The name of a uca_kind, as `uca` prints it after the line: `line 21: DuplicateKey`. */
static inline const char *uca_kind_text(uint32_t kind)
{
    static const char *const texts[] = {
        "no error", "Line", "Order", "CodePoint", "Weight", "DuplicateKey", "Range", "Limit", "Read", "Memory",
        "Map Empty", "Map NotRising", "Map OutOfRange", "Map Fixed",
    };
    return kind < sizeof texts / sizeof *texts ? texts[kind] : "unknown";
}

/* The name of a uca_condition, as `uca audit-changes` prints it: `refused 5 RowChanged old row 3`. */
static inline const char *uca_condition_text(uint32_t condition)
{
    static const char *const texts[] = {
        "no condition", "OldIllFormed", "NewIllFormed", "RangeChanged", "Uncovered",
        "RowChanged", "RowMissing", "RowExtra", "PointChanged", "SettingChanged",
    };
    return condition < sizeof texts / sizeof *texts ? texts[condition] : "unknown";
}

/* What a uca_upgrade_file is, before the line of an error: `old table line 2: Weight`. */
static inline const char *uca_upgrade_file_text(uint32_t file)
{
    static const char *const texts[] = {
        "no file", "old table", "old data file", "new table", "new data file", "file of changes", "certificate",
    };
    return file < sizeof texts / sizeof *texts ? texts[file] : "unknown";
}

/* What the number of a position counts, as `uca audit-changes` prints it before the number: `old row 3`, `code point 0301`. */
static inline const char *uca_place_text(uint32_t place)
{
    static const char *const texts[] = {"no position", "old row", "new row", "code point"};
    return place < sizeof texts / sizeof *texts ? texts[place] : "unknown";
}

/* Writes one line that says why uca_open_upgrade returned this status, with this error:

     refused 5 RowChanged old row 3
     refused 8 PointChanged code point 0301
     refused 9 SettingChanged
     old table line 2: Weight
     new table row 9: Digits
     out of memory

   At UCA_NOT_MET it is the verdict that `uca audit-changes` prints. At UCA_FILE it names the file, the line and the kind, and at
   UCA_DIGITS the table and the row, if there is one. At any other status it is the text of the status. It writes as snprintf
   does: at most `room` bytes, a 0 at the end, and no line feed. It returns how many bytes the line has without the 0, also where
   there is less room. 128 bytes are enough for each line. */
static inline int uca_upgrade_error_text(uint32_t status, const uca_upgrade_error *error, char *out, size_t room)
{
    const char *condition = uca_condition_text(error->condition), *place = uca_place_text(error->place);
    unsigned number = (unsigned)error->number, met = (unsigned)error->condition;
    if (status == UCA_FILE) {
        return snprintf(out, room, "%s line %u: %s", uca_upgrade_file_text(error->file), (unsigned)error->line, uca_kind_text(error->kind));
    }
    if (status == UCA_DIGITS && error->line) {
        return snprintf(out, room, "%s row %u: Digits", uca_upgrade_file_text(error->file), (unsigned)error->line);
    }
    if (status == UCA_DIGITS) {
        return snprintf(out, room, "%s: Digits", uca_upgrade_file_text(error->file));
    }
    if (status != UCA_NOT_MET) {
        return snprintf(out, room, "%s", uca_status_text(status));
    }
    if (error->place == UCA_NOWHERE) {
        return snprintf(out, room, "refused %u %s", met, condition);
    }
    return snprintf(out, room, error->place == UCA_AT_CODE_POINT ? "refused %u %s %s %04X" : "refused %u %s %s %u", met, condition,
                    place, number);
}

#ifdef __cplusplus
}
#endif

#endif
