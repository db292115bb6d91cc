/* What page_heap.mjs calls: the heap and the arithmetic of page/heap.c, and calls by a table of functions. */
typedef unsigned char u8;
typedef unsigned long long u64;
typedef unsigned __int128 u128;

struct tried {
    u64 ok, place;
};

struct tried rattle_alloc(u64 bytes, u64 alignment);
struct tried rattle_realloc(u8 *place, u64 kept, u64 bytes, u64 alignment);
void rattle_dealloc(u8 *place);

static u64 sum(u64 left, u64 right) { return left + right; }
static u64 difference(u64 left, u64 right) { return left - right; }
static u64 (*volatile functions[])(u64, u64) = {sum, difference};
static u128 found;

static u128 whole(u64 low, u64 high) { return (u128)high << 64 | low; }
static u64 place_of(struct tried tried) { return tried.ok ? tried.place : 0; }

u64 call_by_table(u64 index, u64 left, u64 right) { return functions[index](left, right); }
void multiply(u64 low, u64 high, u64 other_low, u64 other_high) { found = whole(low, high) * whole(other_low, other_high); }
void shift_left(u64 low, u64 high, unsigned count) { found = whole(low, high) << count; }
void shift_right(u64 low, u64 high, unsigned count) { found = whole(low, high) >> count; }
u64 low_half(void) { return found; }
u64 high_half(void) { return found >> 64; }
u64 allocate(u64 bytes) { return place_of(rattle_alloc(bytes, 16)); }
u64 reallocate(u64 place, u64 kept, u64 bytes) { return place_of(rattle_realloc((u8 *)place, kept, bytes, 16)); }
void deallocate(u64 place) { rattle_dealloc((u8 *)place); }
