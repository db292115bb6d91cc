/* Lets allocations of the extension fail, for tests/by_hand/postgresql_memory.py. `make uca_memory.so` links it with the extension's own
   objects and with the library, by --wrap for each function that is wrapped here. So calls of these objects come here first, and no call of
   PostgreSQL's own code does.

   The variable UCA_MEMORY names a file with four numbers of 8 bytes: the first and the last allocation that fail, how many there were, and how
   many blocks the library took and did not give back. All processes of a server share them, and the test sets them.

   An allocation is here

   - each call of malloc and of realloc by the library. It returns NULL when it fails;
   - each call of fdopen and of opendir by the extension, for which the C library takes memory. It returns NULL too;
   - each call by the extension of one of PostgreSQL's functions below, which take memory, or may. It raises PostgreSQL's error "out of memory",
     and the function is not called. PostgreSQL itself might raise it in the middle of the function. The extension would see no difference,
     since it catches no error.

   What never fails here is memory that PostgreSQL takes elsewhere: in code of its own, in functions that only read on (systable_getnext), and in
   those that are called by a pointer (table_beginscan). In a critical section such an error would end the server, with or without the
   extension. */
#include "postgres.h"

#include <dirent.h>
#include <fcntl.h>
#include <stdio.h>
#include <sys/mman.h>
#include <unistd.h>

#include "access/genam.h"
#include "access/table.h"
#include "access/tableam.h"
#include "catalog/dependency.h"
#include "executor/spi.h"
#include "lib/stringinfo.h"
#include "utils/acl.h"
#include "utils/builtins.h"
#include "utils/guc.h"
#include "utils/lsyscache.h"
#include "utils/snapmgr.h"
#include "utils/syscache.h"
#include "utils/typcache.h"

typedef struct {
    int64 first, last, count, blocks;
} Counts;

/* The numbers of the file. A process that is forked has those of its parent. */
static Counts *counts(void)
{
    static Counts *shared;
    const char *name = getenv("UCA_MEMORY");
    int file;

    if (shared)
        return shared;
    file = name ? open(name, O_RDWR) : -1;
    shared = mmap(NULL, sizeof *shared, PROT_READ | PROT_WRITE, MAP_SHARED, file, 0);
    if (shared == MAP_FAILED)
        ereport(FATAL, (errmsg("the file that UCA_MEMORY names cannot be shared")));
    close(file);
    return shared;
}

static int64 add(int64 *number, int64 more)
{
    return __atomic_add_fetch(number, more, __ATOMIC_SEQ_CST);
}

/* Whether this allocation fails. */
static bool fails(void)
{
    Counts *all = counts();
    int64 number = add(&all->count, 1);
    bool is_failing = all->first <= number && number <= all->last;

    if (is_failing)
        errno = ENOMEM;
    return is_failing;
}

/* ---- Memory of the C library */

extern void *__real_malloc(size_t size);
extern void *__real_realloc(void *block, size_t size);
extern void __real_free(void *block);
extern FILE *__real_fdopen(int number, const char *mode);
extern DIR *__real_opendir(const char *folder);
extern void *__wrap_malloc(size_t size);
extern void *__wrap_realloc(void *block, size_t size);
extern void __wrap_free(void *block);
extern FILE *__wrap_fdopen(int number, const char *mode);
extern DIR *__wrap_opendir(const char *folder);

void *__wrap_malloc(size_t size)
{
    void *block = fails() ? NULL : __real_malloc(size);

    add(&counts()->blocks, block != NULL);
    return block;
}

void *__wrap_realloc(void *block, size_t size)
{
    void *moved = fails() ? NULL : __real_realloc(block, size);

    add(&counts()->blocks, moved != NULL && block == NULL);
    return moved;
}

void __wrap_free(void *block)
{
    add(&counts()->blocks, block ? -1 : 0);
    __real_free(block);
}

FILE *__wrap_fdopen(int number, const char *mode)
{
    return fails() ? NULL : __real_fdopen(number, mode);
}

DIR *__wrap_opendir(const char *folder)
{
    return fails() ? NULL : __real_opendir(folder);
}

/* ---- Memory of PostgreSQL */

static void need_memory(void)
{
    if (fails())
        ereport(ERROR, (errcode(ERRCODE_OUT_OF_MEMORY), errmsg("out of memory"), errdetail("A test lets this allocation fail.")));
}

/* A function that takes memory: its type, its name, its parameters, and these as arguments. */
#define TAKES_MEMORY(type, name, parameters, arguments) \
    extern type __real_##name parameters;               \
    extern type __wrap_##name parameters;               \
    type __wrap_##name parameters                       \
    {                                                   \
        need_memory();                                  \
        return __real_##name arguments;                 \
    }

TAKES_MEMORY(void *, palloc, (Size size), (size))
TAKES_MEMORY(void *, repalloc, (void *block, Size size), (block, size))
TAKES_MEMORY(char *, pstrdup, (const char *given), (given))
TAKES_MEMORY(char *, pnstrdup, (const char *given, Size length), (given, length))
TAKES_MEMORY(text *, cstring_to_text, (const char *given), (given))
TAKES_MEMORY(char *, text_to_cstring, (const text *given), (given))
TAKES_MEMORY(char *, quote_literal_cstr, (const char *given), (given))
TAKES_MEMORY(void, initStringInfo, (StringInfo bytes), (bytes))
TAKES_MEMORY(void, enlargeStringInfo, (StringInfo bytes, int needed), (bytes, needed))
TAKES_MEMORY(Relation, table_open, (Oid table, LOCKMODE lock), (table, lock))
TAKES_MEMORY(Relation, try_table_open, (Oid table, LOCKMODE lock), (table, lock))
TAKES_MEMORY(TupleTableSlot *, table_slot_create, (Relation table, List **slots), (table, slots))
TAKES_MEMORY(SysScanDesc, systable_beginscan, (Relation table, Oid by_index, bool is_by_index, Snapshot now, int count, ScanKey keys),
             (table, by_index, is_by_index, now, count, keys))
TAKES_MEMORY(Snapshot, GetTransactionSnapshot, (void), ())
TAKES_MEMORY(Snapshot, RegisterSnapshot, (Snapshot now), (now))
TAKES_MEMORY(HeapTuple, SearchSysCache1, (int cache, Datum key), (cache, key))
TAKES_MEMORY(Datum, SysCacheGetAttr, (int cache, HeapTuple row, AttrNumber column, bool *is_null), (cache, row, column, is_null))
TAKES_MEMORY(Oid, getExtensionOfObject, (Oid class, Oid object), (class, object))
TAKES_MEMORY(TypeCacheEntry *, lookup_type_cache, (Oid type, int flags), (type, flags))
TAKES_MEMORY(TupleDesc, lookup_rowtype_tupdesc, (Oid type, int32 modifier), (type, modifier))
TAKES_MEMORY(char *, get_rel_name, (Oid table), (table))
TAKES_MEMORY(Oid, getBaseType, (Oid type), (type))
TAKES_MEMORY(Oid, get_element_type, (Oid type), (type))
TAKES_MEMORY(Oid, get_range_subtype, (Oid range), (range))
TAKES_MEMORY(Oid, get_multirange_range, (Oid multirange), (multirange))
TAKES_MEMORY(bool, type_is_range, (Oid type), (type))
TAKES_MEMORY(bool, type_is_multirange, (Oid type), (type))
TAKES_MEMORY(bool, type_is_rowtype, (Oid type), (type))
TAKES_MEMORY(Oid, get_opfamily_proc, (Oid family, Oid left, Oid right, int16 number), (family, left, right, number))
TAKES_MEMORY(bool, get_collation_isdeterministic, (Oid collation), (collation))
TAKES_MEMORY(int, SPI_connect, (void), ())
TAKES_MEMORY(int, SPI_execute, (const char *statement, bool only_reads, long most), (statement, only_reads, most))
TAKES_MEMORY(int, NewGUCNestLevel, (void), ())
TAKES_MEMORY(void, check_is_member_of_role, (Oid member, Oid role), (member, role))

/* It takes memory only for a value that is compressed, or is not in the row itself. */
extern struct varlena *__real_pg_detoast_datum_packed(struct varlena *given);
extern struct varlena *__wrap_pg_detoast_datum_packed(struct varlena *given);
struct varlena *__wrap_pg_detoast_datum_packed(struct varlena *given)
{
    if (VARATT_IS_COMPRESSED(given) || VARATT_IS_EXTERNAL(given))
        need_memory();
    return __real_pg_detoast_datum_packed(given);
}

/* The extension asks for short texts alone. */
extern char *__wrap_psprintf(const char *format, ...);
char *__wrap_psprintf(const char *format, ...)
{
    char made[200];
    va_list arguments;

    need_memory();
    va_start(arguments, format);
    vsnprintf(made, sizeof made, format, arguments);
    va_end(arguments);
    return pstrdup(made);
}
