// What the library's module calls beyond itself, for WebAssembly: memory by size classes over a memory that grows,
// and arithmetic on 128 bits, for which WebAssembly has no instructions.
typedef unsigned char u8;
typedef unsigned int u32;
typedef unsigned long u64;
typedef unsigned __int128 u128;

// ---- memory

enum { LEAST_CLASS = 5, CLASSES = 31, HEAD = 16, PAGE = 65536, LEAST_GROWTH = 256 };
// What a call for memory answers: whether there was any, and where it begins.
struct found {
    u64 is_there;
    void *at;
};
// Each block has 16 bytes in front of it: its class, and where it is free the next free one of that class.
struct head {
    u64 class;
    struct head *next;
};
extern u8 __heap_base;
static u64 top, end;
static struct head *free_of[CLASSES];
static u8 nothing;

// A block of at least so many bytes, or null.
static void *take(u64 size) {
    int class = LEAST_CLASS;
    while (class < CLASSES && ((u64)1 << class) < size + HEAD)
        class++;
    if (class >= CLASSES || size > (u64)1 << CLASSES)
        return 0;
    struct head *head = free_of[class];
    if (head) {
        free_of[class] = head->next;
        return head + 1;
    }
    if (!top) {
        top = ((u64)&__heap_base + HEAD - 1) & ~(u64)(HEAD - 1);
        end = (u64)__builtin_wasm_memory_size(0) * PAGE;
    }
    u64 whole = (u64)1 << class;
    if (end - top < whole) {
        u64 pages = (whole - (end - top) + PAGE - 1) / PAGE;
        if (pages < LEAST_GROWTH)
            pages = LEAST_GROWTH;
        // (a memory of 32 bits answers no more than that of -1)
        if ((u32)__builtin_wasm_memory_grow(0, pages) == ~(u32)0)
            return 0;
        end += pages * PAGE;
    }
    head = (struct head *)top;
    top += whole;
    head->class = class;
    return head + 1;
}

static void give(void *block) {
    struct head *head = (struct head *)block - 1;
    head->next = free_of[head->class];
    free_of[head->class] = head;
}

struct found rattle_alloc(u64 size, u64 align) {
    void *at = take(size ? size : align);
    return at ? (struct found){1, at} : (struct found){0, &nothing};
}

void rattle_dealloc(void *block) {
    if (block)
        give(block);
}

struct found rattle_realloc(void *block, u64 kept, u64 size, u64 align) {
    u64 wanted = size ? size : align, room = ((u64)1 << ((struct head *)block - 1)->class) - HEAD;
    if (wanted <= room)
        return (struct found){1, block};
    void *at = take(wanted);
    if (!at)
        return (struct found){0, &nothing};
    __builtin_memcpy(at, block, kept < room ? kept : room);
    give(block);
    return (struct found){1, at};
}

// Buffers for whoever calls the module.
void *zw_take(u64 size) { return take(size); }
void zw_give(void *block) { give(block); }

// ---- 128 bits

union halves {
    u128 whole;
    struct {
        u64 low, high;
    } of;
};

u128 __ashlti3(u128 x, int by) {
    union halves v = {x};
    if (by >= 64) {
        v.of.high = v.of.low << (by - 64);
        v.of.low = 0;
    } else if (by) {
        v.of.high = v.of.high << by | v.of.low >> (64 - by);
        v.of.low <<= by;
    }
    return v.whole;
}

u128 __lshrti3(u128 x, int by) {
    union halves v = {x};
    if (by >= 64) {
        v.of.low = v.of.high >> (by - 64);
        v.of.high = 0;
    } else if (by) {
        v.of.low = v.of.low >> by | v.of.high << (64 - by);
        v.of.high >>= by;
    }
    return v.whole;
}

u128 __multi3(u128 x, u128 y) {
    union halves a = {x}, b = {y}, product;
    u64 mask = 0xffffffff, a0 = a.of.low & mask, a1 = a.of.low >> 32, b0 = b.of.low & mask, b1 = b.of.low >> 32;
    u64 low = a0 * b0, one = a1 * b0, other = a0 * b1, middle = (low >> 32) + (one & mask) + (other & mask);
    product.of.low = (low & mask) | middle << 32;
    product.of.high = a1 * b1 + (one >> 32) + (other >> 32) + (middle >> 32);
    product.of.high += a.of.high * b.of.low + a.of.low * b.of.high;
    return product.whole;
}

static int is_below(union halves a, union halves b) {
    return a.of.high < b.of.high || (a.of.high == b.of.high && a.of.low < b.of.low);
}

// Bit by bit, from the highest on.
u128 __udivti3(u128 x, u128 y) {
    union halves number = {x}, divisor = {y}, quotient = {0}, rest = {0};
    for (int bit = 127; bit >= 0; bit--) {
        u64 next = (bit > 63 ? number.of.high >> (bit - 64) : number.of.low >> bit) & 1;
        rest.of.high = rest.of.high << 1 | rest.of.low >> 63;
        rest.of.low = rest.of.low << 1 | next;
        if (is_below(rest, divisor))
            continue;
        rest.of.high -= divisor.of.high + (rest.of.low < divisor.of.low);
        rest.of.low -= divisor.of.low;
        if (bit > 63)
            quotient.of.high |= (u64)1 << (bit - 64);
        else
            quotient.of.low |= (u64)1 << bit;
    }
    return quotient.whole;
}
