/* The order of texts, for the type uca_text and for the operator class uca_ops of text.

   Texts are ordered as uca_order says: by their keys, and rejected texts after all others. Different texts of one key are ordered by
   their bytes. So texts are equal exactly if their bytes are, whatever the files are. What depends on the files is what is before what.

   Each comparison is an error where the database is for other files than the server's, as uca_key(text) is. A scan of a whole index in its
   order makes no comparison. Nor does one of an index on keys, or of one with a condition, as on (id) WHERE name < 'c'. So where the files
   are others, the planner does not get to see these indexes. */
#include "uca_postgresql.h"

#include "access/htup_details.h"
#include "access/nbtree.h"
#include "access/transam.h"
#include "catalog/pg_am.h"
#include "catalog/pg_language.h"
#include "catalog/pg_proc.h"
#include "catalog/pg_type.h"
#include "mb/pg_wchar.h"
#include "miscadmin.h"
#include "nodes/nodeFuncs.h"
#include "optimizer/plancat.h"
#include "port/pg_bswap.h"
#include "utils/builtins.h"
#include "utils/lsyscache.h"
#include "utils/sortsupport.h"
#include "utils/syscache.h"
#include "utils/typcache.h"

/* ---- Comparisons */

/* The order of two byte strings: byte by byte, and one before all longer ones that begin with it. */
static int order_of_bytes(const uint8 *left, size_t left_length, const uint8 *right, size_t right_length)
{
    int order = memcmp(left, right, Min(left_length, right_length));

    return order ? order : (left_length > right_length) - (left_length < right_length);
}

static void memory_error(void)
{
    ereport(ERROR, (errcode(ERRCODE_OUT_OF_MEMORY), errmsg("uca: out of memory")));
}

/* The order of two texts. The collator is open. */
static int order_of(const struct varlena *left, const struct varlena *right)
{
    const uint8 *left_bytes = (const uint8 *) VARDATA_ANY(left), *right_bytes = (const uint8 *) VARDATA_ANY(right);
    size_t left_length = VARSIZE_ANY_EXHDR(left), right_length = VARSIZE_ANY_EXHDR(right);
    int by_bytes = order_of_bytes(left_bytes, left_length, right_bytes, right_length);
    int32 order = 0;

    if (by_bytes != 0 && uca_order(present_collator(), left_bytes, left_length, right_bytes, right_length, &order) != UCA_OK)
        memory_error();
    return order ? order : by_bytes;
}

/* Texts that are equal by a collation of the column and have other bytes would be lost, as in an index that is read for `=`. */
static void need_deterministic(Oid collation)
{
    static Oid known = InvalidOid;

    if (collation == known || !OidIsValid(collation))
        return;
    if (!get_collation_isdeterministic(collation))
        ereport(ERROR, (errcode(ERRCODE_FEATURE_NOT_SUPPORTED), errmsg("uca: nondeterministic collations are not supported for this order")));
    known = collation;
}

/* The order of both arguments, which are texts. */
static int compared(FunctionCallInfo fcinfo)
{
    struct varlena *left = (struct varlena *) PG_GETARG_TEXT_PP(0), *right = (struct varlena *) PG_GETARG_TEXT_PP(1);
    int order;

    need_files(fcinfo->flinfo->fn_oid);
    need_deterministic(PG_GET_COLLATION());
    order = order_of(left, right);
    PG_FREE_IF_COPY(left, 0);
    PG_FREE_IF_COPY(right, 1);
    return order;
}

/* Memory for the key of a text. */
typedef struct {
    uint8 *bytes;
    size_t room;
} Room;

/* Makes the key of a text, and returns UCA_OK, or why the text is rejected. */
static uint32 make_key(const struct varlena *given, Room *key, size_t *length)
{
    const uint8 *bytes = (const uint8 *) VARDATA_ANY(given);
    size_t text_length = VARSIZE_ANY_EXHDR(given);
    uint32 status;

    if (is_too_long(given))
        return UCA_TOO_LONG;
    status = uca_key(present_collator(), bytes, text_length, key->bytes, key->room, length);
    if (status == UCA_SMALL) {
        key->room = *length;
        key->bytes = repalloc(key->bytes, key->room);
        status = uca_key(present_collator(), bytes, text_length, key->bytes, key->room, length);
    }
    if (status == UCA_MEMORY)
        memory_error();
    return status;
}

/* Room for the keys of most texts. */
#define MOST_KEYS 512

static Room new_room(void)
{
    Room key = {palloc(MOST_KEYS), MOST_KEYS};

    return key;
}

/* The order of the key of a text, which is the first argument, and of other bytes. A rejected text comes after all bytes. */
static int compared_with_key(FunctionCallInfo fcinfo)
{
    struct varlena *left = (struct varlena *) PG_GETARG_TEXT_PP(0), *right = (struct varlena *) PG_GETARG_BYTEA_PP(1);
    Room key = new_room();
    size_t length;
    int order = 1;

    need_files(fcinfo->flinfo->fn_oid);
    need_deterministic(PG_GET_COLLATION());
    if (make_key(left, &key, &length) == UCA_OK)
        order = order_of_bytes(key.bytes, length, (const uint8 *) VARDATA_ANY(right), VARSIZE_ANY_EXHDR(right));
    pfree(key.bytes);
    PG_FREE_IF_COPY(left, 0);
    PG_FREE_IF_COPY(right, 1);
    return order;
}

#define FUNCTION(name, value)    \
    PG_FUNCTION_INFO_V1(name);   \
    Datum name(PG_FUNCTION_ARGS) \
    {                            \
        return value;            \
    }

/* The order of two texts, and the operators and the greater and the lesser text by it. */
FUNCTION(uca_text_compare, Int32GetDatum(compared(fcinfo)))
FUNCTION(uca_text_less, BoolGetDatum(compared(fcinfo) < 0))
FUNCTION(uca_text_not_greater, BoolGetDatum(compared(fcinfo) <= 0))
FUNCTION(uca_text_not_less, BoolGetDatum(compared(fcinfo) >= 0))
FUNCTION(uca_text_greater, BoolGetDatum(compared(fcinfo) > 0))
FUNCTION(uca_text_least, compared(fcinfo) <= 0 ? PG_GETARG_DATUM(0) : PG_GETARG_DATUM(1))
FUNCTION(uca_text_greatest, compared(fcinfo) >= 0 ? PG_GETARG_DATUM(0) : PG_GETARG_DATUM(1))

/* The order of a text and of bytes that are a key, or an end of a range of keys. */
FUNCTION(uca_text_compare_key, Int32GetDatum(compared_with_key(fcinfo)))
FUNCTION(uca_text_less_key, BoolGetDatum(compared_with_key(fcinfo) < 0))
FUNCTION(uca_text_not_greater_key, BoolGetDatum(compared_with_key(fcinfo) <= 0))
FUNCTION(uca_text_not_less_key, BoolGetDatum(compared_with_key(fcinfo) >= 0))
FUNCTION(uca_text_greater_key, BoolGetDatum(compared_with_key(fcinfo) > 0))

/* ---- Sorting

   A sort compares first 8 bytes for each text, its beginning, and two texts only where these are the same. Where the server has a book,
   the beginning is that of the compact key. Else it is made of the weights of level 1: a frequent weight takes one byte, and each other one
   three. Beginnings are never stored, so what is frequent is chosen here, and no promise of an order depends on it. */

/* The letters whose weights are frequent, those that matter most first. */
static const char FREQUENT[] = " abcdefghijklmnopqrstuvwxyz0123456789-.,'абвгдежзийклмнопрстуфхцчшщъыьэюяαβγδεζηθικλμνξοπρστυφχψω"
                               "ابتثجحخدذرزسشصضطظعغفقكلمنهوي一";

/* Each frequent weight has an odd byte of its own, and all between two of them share an even one. */
#define MOST_FREQUENT 126

/* The byte of each weight. It is 0 for the end of level 1. */
static uint8 byte_of[65536];

/* Marks the first weight of this letter as frequent, unless it is already. Returns whether it did. Where numbers are
   ordered by their values, a digit is read after the number of digits. So its weight is the second one. */
static bool mark_frequent(const char *letter, size_t length)
{
    uint8 key[MOST_KEYS];
    size_t at = has_numbers_by_value() && *letter >= '0' && *letter <= '9' ? 2 : 0, key_length;
    uint32 status = uca_key(present_collator(), (const uint8 *) letter, length, key, sizeof key, &key_length);
    uint16 weight;

    if (status != UCA_OK || key_length < at + 2)
        return false;
    weight = (uint16) (key[at] << 8 | key[at + 1]);
    if (weight == 0 || byte_of[weight] != 0)
        return false;
    byte_of[weight] = 1;
    return true;
}

static void choose_bytes(void)
{
    int count = 0, byte = 2;
    size_t length;

    for (const char *letter = FREQUENT; *letter && count < MOST_FREQUENT; letter += length) {
        length = pg_utf_mblen((const unsigned char *) letter);
        count += mark_frequent(letter, length);
    }
    for (int weight = 1; weight < lengthof(byte_of); weight++) {
        byte += byte_of[weight];
        byte_of[weight] = byte;
        byte += byte % 2;
    }
}

/* The beginning of a whole key. */
static uint64 beginning_of_weights(const uint8 *key, size_t length)
{
    uint8 begun[10] = {0};
    uint64 beginning;
    int count = 0;

    for (size_t at = 0; at + 1 < length && count < sizeof beginning; at += 2) {
        uint8 byte = byte_of[key[at] << 8 | key[at + 1]];

        if (byte == 0)
            break;
        begun[count++] = byte;
        if (byte % 2 == 0) {
            begun[count++] = key[at];
            begun[count++] = key[at + 1];
        }
    }
    memcpy(&beginning, begun, sizeof beginning);
    return pg_ntoh64(beginning);
}

static uint64 beginning_of_compact(const uint8 *key, size_t length)
{
    uint64 beginning = 0;

    memcpy(&beginning, key, Min(length, sizeof beginning));
    return pg_ntoh64(beginning);
}

/* The beginning of a text. That of a rejected text is the greatest. */
static Datum converted(Datum original, SortSupport support)
{
    struct varlena *given = (struct varlena *) DatumGetTextPP(original);
    Room *key = support->ssup_extra;
    uint64 beginning = PG_UINT64_MAX;
    size_t length;

    if (make_key(given, key, &length) == UCA_OK)
        beginning = has_present_book() ? beginning_of_compact(key->bytes, length) : beginning_of_weights(key->bytes, length);
    if ((Pointer) given != DatumGetPointer(original))
        pfree(given);
#if SIZEOF_DATUM == 8
    return UInt64GetDatum(beginning);
#else
    return UInt32GetDatum((uint32) (beginning >> 32));
#endif
}

static int compared_whole(Datum left, Datum right, SortSupport support)
{
    struct varlena *left_text = (struct varlena *) DatumGetTextPP(left), *right_text = (struct varlena *) DatumGetTextPP(right);
    int order = order_of(left_text, right_text);

    if ((Pointer) left_text != DatumGetPointer(left))
        pfree(left_text);
    if ((Pointer) right_text != DatumGetPointer(right))
        pfree(right_text);
    return order;
}

/* Beginnings are always used, since they are cheap beside comparisons. */
static bool never_given_up(int count, SortSupport support)
{
    return false;
}

/* The sort of one statement is by the files that the server has, which do not change. So one look at uca_files is enough for it. */
PG_FUNCTION_INFO_V1(uca_text_sort_support);
Datum uca_text_sort_support(PG_FUNCTION_ARGS)
{
    SortSupport support = (SortSupport) PG_GETARG_POINTER(0);
    MemoryContext before = MemoryContextSwitchTo(support->ssup_cxt);

    need_files(fcinfo->flinfo->fn_oid);
    need_deterministic(support->ssup_collation);
    support->comparator = compared_whole;
    if (support->abbreviate) {
        Room *key = palloc(sizeof *key);

        *key = new_room();
        support->ssup_extra = key;
        support->comparator = ssup_datum_unsigned_cmp;
        support->abbrev_converter = converted;
        support->abbrev_abort = never_given_up;
        support->abbrev_full_comparator = compared_whole;
    }
    MemoryContextSwitchTo(before);
    PG_RETURN_VOID();
}

/* ---- Indexes of other files */

static get_relation_info_hook_type earlier_hook;

static bool ends_with(const char *text, const char *end)
{
    size_t length = strlen(text), end_length = strlen(end);

    return length >= end_length && strcmp(text + length - end_length, end) == 0;
}

/* Whether a function in C is one of this extension that reads the files, and does not name them. Its library need not be loaded for that. */
static bool reads_files(HeapTuple function)
{
    bool is_null = true, reads = false;
    Datum source = SysCacheGetAttr(PROCOID, function, Anum_pg_proc_prosrc, &is_null);

    if (!is_null && ((Form_pg_proc) GETSTRUCT(function))->prolang == ClanguageId) {
        char *name = TextDatumGetCString(source);

        reads = strncmp(name, "uca_", 4) == 0 && !ends_with(name, "_by_fingerprint") && !ends_with(name, "_by_fingerprints");
        pfree(name);
    }
    return reads;
}

static Oid order_in_type(Oid type);

/* The function of the extension by which values of a type of rows are ordered, or InvalidOid. */
static Oid order_in_row(Oid type)
{
    TupleDesc row = lookup_rowtype_tupdesc(type, -1);
    Oid found = InvalidOid;

    for (int at = 0; at < row->natts && !OidIsValid(found); at++)
        if (!TupleDescAttr(row, at)->attisdropped)
            found = order_in_type(TupleDescAttr(row, at)->atttypid);
    ReleaseTupleDesc(row);
    return found;
}

/* This function, if it is one of the extension that reads the files, or else InvalidOid. */
static Oid if_of_files(Oid function)
{
    HeapTuple row = function >= FirstNormalObjectId ? SearchSysCache1(PROCOID, ObjectIdGetDatum(function)) : NULL;
    bool reads = HeapTupleIsValid(row) && reads_files(row);

    if (HeapTupleIsValid(row))
        ReleaseSysCache(row);
    return reads ? function : InvalidOid;
}

/* The function of the extension by which values of a type are ordered, or InvalidOid. Types may hold others: arrays, rows, ranges. */
static Oid order_in_type(Oid type)
{
    Oid base = getBaseType(type), element = get_element_type(base);

    check_stack_depth();
    if (OidIsValid(element))
        return order_in_type(element);
    if (type_is_multirange(base))
        return order_in_type(get_range_subtype(get_multirange_range(base)));
    if (type_is_range(base))
        return order_in_type(get_range_subtype(base));
    if (base == RECORDOID || base < FirstNormalObjectId)
        return InvalidOid;
    if (type_is_rowtype(base))
        return order_in_row(base);
    return if_of_files(lookup_type_cache(base, TYPECACHE_CMP_PROC)->cmp_proc);
}

/* Whether a function reads the files: one of the extension, or another one that is given values of uca_text. `context` is an Oid, which becomes that
   of a function of the extension. */
static bool is_of_files(Oid function, void *context)
{
    Oid *found = context;
    HeapTuple row = function >= FirstNormalObjectId ? SearchSysCache1(PROCOID, ObjectIdGetDatum(function)) : NULL;
    Form_pg_proc about;

    if (!HeapTupleIsValid(row))
        return false;
    about = (Form_pg_proc) GETSTRUCT(row);
    if (reads_files(row))
        *found = function;
    else if (about->prolang != INTERNALlanguageId)
        for (int at = 0; at < about->pronargs && !OidIsValid(*found); at++)
            *found = order_in_type(about->proargtypes.values[at]);
    ReleaseSysCache(row);
    return OidIsValid(*found);
}

/* Whether an expression calls such a function. */
static bool calls_of_files(Node *node, void *context)
{
    return node && (check_functions_in_node(node, is_of_files, context) || expression_tree_walker(node, calls_of_files, context));
}

/* A function of the extension by which an index is ordered, or which its expressions or its condition call, or InvalidOid. Most indexes are of
   columns, and have operator classes of PostgreSQL itself over types that hold no others. */
static Oid function_of_index(const IndexOptInfo *index)
{
    Oid found = InvalidOid;

    for (int at = 0; index->relam == BTREE_AM_OID && at < index->nkeycolumns && !OidIsValid(found); at++) {
        Oid family = index->opfamily[at], type = index->opcintype[at];

        if (type == ANYARRAYOID || type == RECORDOID || type == ANYRANGEOID || type == ANYMULTIRANGEOID)
            found = order_in_type(exprType((Node *) list_nth_node(TargetEntry, index->indextlist, at)->expr));
        else if (family >= FirstNormalObjectId)
            found = if_of_files(get_opfamily_proc(family, type, type, BTORDER_PROC));
    }
    if (!OidIsValid(found) && !calls_of_files((Node *) index->indexprs, &found))
        calls_of_files((Node *) index->indpred, &found);
    return found;
}

/* Leaves out the indexes of a table whose order, values or rows may be those of other files than the server's. All other ways to read it call
   functions of the extension. */
static void leave_out_indexes(PlannerInfo *planner, Oid relation, bool is_parent, RelOptInfo *about)
{
    ListCell *it;

    if (earlier_hook)
        earlier_hook(planner, relation, is_parent, about);
    foreach(it, about->indexlist) {
        Oid function = function_of_index(lfirst_node(IndexOptInfo, it));

        if (OidIsValid(function) && !has_its_files(function))
            about->indexlist = foreach_delete_current(about->indexlist, it);
    }
}

void start_texts(void)
{
    if (present_collator()->is_open && !has_present_book())
        choose_bytes();
    earlier_hook = get_relation_info_hook;
    get_relation_info_hook = leave_out_indexes;
}
