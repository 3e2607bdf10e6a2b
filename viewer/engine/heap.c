// The heap of the engine in a page: the three calls by which a program of the kit takes memory and gives it back.
//
// A block has a size of 2^k or of 3 * 2^(k-1) bytes, its class, and behind a head of 16 bytes that tells the class; so each block lies
// at a multiple of 16. Each class has a list of the blocks that were given back. New blocks are cut off the end of the memory, which
// grows. Nothing goes back to the host, since an instance of the engine answers one call.

typedef unsigned long u64;
typedef struct { u64 is_made; void *at; } Made;

// The head of a block, and the block while it is in a list.
typedef struct { u64 class, unused; } Head;
typedef struct Free { struct Free *next; } Free;

enum { ALIGN = 16, PAGE = 16, CLASSES = 128 };
static const u64 LARGEST = 1UL << 40, FIRST_STEP = 1UL << 20, LAST_STEP = 1UL << 28;

extern unsigned char __heap_base;
static u64 top, end;
static Free *lists[CLASSES];

// The class of the smallest blocks of at least n bytes: 0 for 16 bytes, then 24, 32, 48, ..
static unsigned class_of(u64 n) {
    if (n <= ALIGN) return 0;
    unsigned power = 63 - __builtin_clzl(n - 1);  // 2^power < n <= 2^(power + 1)
    return 2 * (power - 3) - (n <= 3UL << (power - 1));
}

static u64 size_of(unsigned class) {
    unsigned power = (class + 1) / 2 + 3;
    return class == 0 ? ALIGN : class & 1 ? 3UL << (power - 1) : 2UL << power;
}

// Grows the memory by at least n bytes, and by a quarter of what there is where the host gives as much.
static int grow(u64 n) {
    u64 step = end / 4 < FIRST_STEP ? FIRST_STEP : end / 4 > LAST_STEP ? LAST_STEP : end / 4;
    u64 wanted[2] = {n < step ? step : n, n};
    for (int at = 0; at < 2; at++) {
        u64 pages = (wanted[at] + (1UL << PAGE) - 1) >> PAGE;
        if (__builtin_wasm_memory_grow(0, pages) != (u64)-1) {
            end += pages << PAGE;
            return 1;
        }
    }
    return 0;
}

// Cuts n bytes, a multiple of 16, off the end of the memory.
static void *cut(u64 n) {
    if (top == 0) {
        top = ((u64)&__heap_base + ALIGN - 1) & ~(u64)(ALIGN - 1);
        end = __builtin_wasm_memory_size(0) << PAGE;
    }
    if (n > end - top && !grow(n - (end - top))) return 0;
    void *at = (void *)top;
    top += n;
    return at;
}

static void *take(u64 n) {
    if (n > LARGEST) return 0;
    unsigned class = class_of(n);
    Free *first = lists[class];
    if (first) {
        lists[class] = first->next;
        return first;
    }
    Head *head = cut((sizeof(Head) + size_of(class) + ALIGN - 1) & ~(u64)(ALIGN - 1));
    if (!head) return 0;
    head->class = class;
    return head + 1;
}

static Head *head_of(void *at) { return (Head *)at - 1; }

static void give(void *at) {
    u64 class = head_of(at)->class;
    ((Free *)at)->next = lists[class];
    lists[class] = at;
}

// A block of n bytes at a multiple of `align`, or that none is made.
Made rattle_alloc(u64 n, u64 align) {
    void *at = align > ALIGN ? 0 : take(n);
    return (Made){at != 0, at};
}

// The block with n bytes in place of `kept`, moved where it has to be; or that it stays as it is.
Made rattle_realloc(void *at, u64 kept, u64 n, u64 align) {
    if (align <= ALIGN && n <= size_of(head_of(at)->class)) return (Made){1, at};
    void *moved = align > ALIGN ? 0 : take(n);
    if (!moved) return (Made){0, at};
    __builtin_memcpy(moved, at, kept < n ? kept : n);
    give(at);
    return (Made){1, moved};
}

void rattle_dealloc(void *at) { give(at); }
