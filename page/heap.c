/* What the proved code calls by name in a WebAssembly module: a heap, and some arithmetic. Nothing here is proved.

   A block has 16 bytes before it, which hold its class. A block of class c has 2^c bytes in all, those 16 too. Blocks
   that are given back are kept in a list for each class. Other blocks are cut from the end of the memory, which is made
   larger as needed. */
typedef unsigned char u8;
typedef unsigned long long u64;
typedef __UINTPTR_TYPE__ address;

enum { HEAD = 16, SMALLEST_CLASS = 5, CLASSES = 40, PAGE = 65536, FEWEST_PAGES = 16 };

struct tried {
    u64 ok, place;
};

extern u8 __heap_base;
static address cut_to;
static u8 *given_back[CLASSES];
static u8 no_block;

/* The least class whose blocks hold so many bytes after their head, or CLASSES if none does. */
static u64 class_for(u64 bytes) {
    u64 class = SMALLEST_CLASS;
    if (bytes >= (u64)1 << (CLASSES - 1)) return CLASSES;
    while (((u64)1 << class) < bytes + HEAD) class++;
    return class;
}

static u64 *class_of(u8 *place) { return (u64 *)(place - HEAD); }

static address end_of_memory(void) { return (address)__builtin_wasm_memory_size(0) * PAGE; }

/* Makes the memory larger until it has so many bytes after what is cut. The size is asked for each time: what
   memory.grow returns where it fails is another number in a module whose addresses wasm-opt has narrowed. */
static int has_room(u64 bytes) {
    if (!cut_to) cut_to = ((address)&__heap_base + HEAD - 1) & ~(address)(HEAD - 1);
    address room = end_of_memory() - cut_to;
    if (room >= bytes) return 1;
    address pages = (bytes - room + PAGE - 1) / PAGE;
    __builtin_wasm_memory_grow(0, pages < FEWEST_PAGES ? FEWEST_PAGES : pages);
    return end_of_memory() - cut_to >= bytes;
}

static u8 *take(u64 bytes) {
    u64 class = class_for(bytes);
    if (class >= CLASSES) return 0;
    u8 *place = given_back[class];
    if (place) {
        given_back[class] = *(u8 **)place;
        return place;
    }
    if (!has_room((u64)1 << class)) return 0;
    place = (u8 *)cut_to + HEAD;
    cut_to += (address)1 << class;
    *class_of(place) = class;
    return place;
}

static void give_back(u8 *place) {
    u64 class = *class_of(place);
    *(u8 **)place = given_back[class];
    given_back[class] = place;
}

static struct tried tried(u8 *place) { return (struct tried){place != 0, (u64)(address)(place ? place : &no_block)}; }

/* The three calls of the kit's heap. An alignment is 16 at most, which each block has. */
struct tried rattle_alloc(u64 bytes, u64 alignment) { return tried(take(bytes)); }

struct tried rattle_realloc(u8 *place, u64 kept, u64 bytes, u64 alignment) {
    if (*class_of(place) == class_for(bytes)) return tried(place);
    u8 *moved = take(bytes);
    if (moved) {
        __builtin_memcpy(moved, place, kept < bytes ? kept : bytes);
        give_back(place);
    }
    return tried(moved);
}

void rattle_dealloc(u8 *place) { give_back(place); }

/* Memory for what the page passes. 0 says that there is none. */
__attribute__((export_name("page_take"))) u64 page_take(u64 bytes) { return (u64)(address)take(bytes); }
__attribute__((export_name("page_give_back"))) void page_give_back(u64 place) { give_back((u8 *)(address)place); }

/* What LLVM calls by name. */
int memcmp(const void *left, const void *right, address count) {
    const u8 *l = left, *r = right;
    for (address i = 0; i < count; i++)
        if (l[i] != r[i]) return l[i] < r[i] ? -1 : 1;
    return 0;
}

int bcmp(const void *left, const void *right, address count) { return memcmp(left, right, count); }

/* Products and shifts of 128 bits, by halves. None of them may need one itself. */
typedef unsigned __int128 u128;
union halves {
    u128 whole;
    struct {
        u64 low, high;
    };
};

/* The product of two numbers of 64 bits, by four products of 32 bits. */
static u128 product(u64 x, u64 y) {
    u64 half = 0xffffffff, low = (x & half) * (y & half), left = (x >> 32) * (y & half), right = (x & half) * (y >> 32);
    u64 middle = (low >> 32) + (left & half) + (right & half);
    union halves made;
    made.low = middle << 32 | (low & half);
    made.high = (x >> 32) * (y >> 32) + (left >> 32) + (right >> 32) + (middle >> 32);
    return made.whole;
}

u128 __multi3(u128 x, u128 y) {
    union halves a = {x}, b = {y}, made = {product(a.low, b.low)};
    made.high += a.low * b.high + a.high * b.low;
    return made.whole;
}

u128 __ashlti3(u128 x, int count) {
    union halves a = {x};
    if (count & 64) {
        a.high = a.low << (count & 63);
        a.low = 0;
    } else if (count) {
        a.high = a.high << count | a.low >> (64 - count);
        a.low <<= count;
    }
    return a.whole;
}

u128 __lshrti3(u128 x, int count) {
    union halves a = {x};
    if (count & 64) {
        a.low = a.high >> (count & 63);
        a.high = 0;
    } else if (count) {
        a.low = a.low >> count | a.high << (64 - count);
        a.high >>= count;
    }
    return a.whole;
}
