/* The heap of the module web/lispm.wasm: what the proofs assume of an allocator, in C that nothing proves.

   A block has a header of 16 bytes, which holds its class c, and room for 2^c bytes. Blocks that are freed are kept in a
   list for each class, and new ones are taken from the end of the memory, which grows. The memory is that of 32-bit
   WebAssembly, at most 65,536 pages of 64 KiB; the last page is never used, so that no address after a block wraps. */
typedef unsigned char u8;
typedef unsigned int u32;
typedef unsigned long u64;

struct tried { u64 ok; void *at; };

#define HEADER 16
#define PAGE ((u64)65536)
#define MOST (65535 * PAGE)

extern u8 __heap_base;
static u64 top;                     /* the address of unused memory; 0 before the first block is taken */
static void *lists[33];             /* for each class the first block that is free */
static u8 nothing[16];              /* what the pointer of a failed call points to */

static int class_of(u64 size) {
    int class = 4;
    while (((u64)1 << class) < size) class++;
    return class;
}

/* Makes the memory at least this long. */
static int grow(u64 end) {
    u64 have = (u64)__builtin_wasm_memory_size(0) * PAGE;
    if (end <= have) return 1;
    /* Lowered to 32-bit memory a failed memory.grow answers 2^32 - 1, and not 2^64 - 1. */
    return (u32)__builtin_wasm_memory_grow(0, (end - have + PAGE - 1) / PAGE) != (u32)-1;
}

static void *take(u64 size) {
    if (size > MOST) return 0;
    int class = class_of(size);
    u8 *block = lists[class];
    if (block) {
        lists[class] = *(void **)(block + HEADER);
        return block + HEADER;
    }
    if (!top) top = ((u64)&__heap_base + 15) & ~(u64)15;
    u64 end = top + HEADER + ((u64)1 << class);
    if (end > MOST || !grow(end)) return 0;
    block = (u8 *)top;
    top = end;
    *(u64 *)block = class;
    return block + HEADER;
}

static int class_at(void *at) {
    return (int)*(u64 *)((u8 *)at - HEADER);
}

static void give(void *at) {
    int class = class_at(at);
    *(void **)at = lists[class];
    lists[class] = (u8 *)at - HEADER;
}

/* What compiled code calls. The alignments that it passes divide 16; a value of no bytes has a place, too. */
struct tried rattle_alloc(u64 size, u64 alignment) {
    void *at = take(size ? size : alignment);
    return (struct tried){ at != 0, at ? at : nothing };
}

struct tried rattle_realloc(void *at, u64 kept, u64 size, u64 alignment) {
    u64 wanted = size ? size : alignment;
    if (wanted <= MOST && class_of(wanted) == class_at(at)) return (struct tried){ 1, at };
    void *moved = take(wanted);
    if (!moved) return (struct tried){ 0, nothing };
    __builtin_memmove(moved, at, kept < size ? kept : size);
    give(at);
    return (struct tried){ 1, moved };
}

void rattle_dealloc(void *at) {
    give(at);
}

/* What JavaScript calls: room for what it passes, 0 if there is none. */
void *host_room(u64 size) {
    return take(size);
}

void host_free(void *at) {
    give(at);
}

/* What compiled code calls by the names of the C library. */
void *memmove(void *to, const void *from, u64 size) {
    return __builtin_memmove(to, from, size);
}

void *memcpy(void *to, const void *from, u64 size) {
    return __builtin_memcpy(to, from, size);
}

void *memset(void *to, int value, u64 size) {
    return __builtin_memset(to, value, size);
}

int memcmp(const void *one, const void *other, u64 size) {
    const u8 *a = one, *b = other;
    for (u64 at = 0; at < size; at++)
        if (a[at] != b[at]) return a[at] < b[at] ? -1 : 1;
    return 0;
}

int bcmp(const void *one, const void *other, u64 size) {
    return memcmp(one, other, size);
}
