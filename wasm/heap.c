/* The heap of the module: what the compiler's library of C gives a program on Linux, for WebAssembly.
 * SPDX-License-Identifier: MIT
 *
 * Blocks are powers of two of bytes, each with 16 bytes before what it lends, and each power has a list of those that were given back.
 * Where no block is out, all is as at the start. The memory grows and never shrinks. Nothing here is proved; .ci/browser tries it.
 *
 * It is compiled for 64-bit memories, and may be lowered to 32-bit ones afterwards: so no size is asked that these haven't, and of what
 * memory.grow answers only the lower 32 bits count.
 */
typedef unsigned char byte;
typedef unsigned int u32;
typedef unsigned long long u64;

enum { PAGE = 65536, LEAST = 5, POWERS = 33 };

/* What stands before what a block lends: its power, and while it is free the next free one. Both in 16 bytes. */
struct block {
    u64 power;
    struct block *next;
};

struct tried {
    u64 ok;
    void *at;
};

extern byte __heap_base;

static struct block *free_blocks[POWERS];
static byte *top;  /* what lies below it was lent at some time since the start */
static u64 blocks; /* how many are out */

#ifdef COUNTED
/* For tests: the number of the request that fails, from 1, or 0 for none; how many were made since; and how many blocks are out. */
static u64 failing, requests;
__attribute__((export_name("fail"))) void fail(u64 number) { failing = number, requests = 0; }
__attribute__((export_name("requests_made"))) u64 requests_made(void) { return requests; }
__attribute__((export_name("blocks_out"))) u64 blocks_out(void) { return blocks; }
static int fails(void) { return ++requests == failing; }
#else
static int fails(void) { return 0; }
#endif

static int has_pages_up_to(byte *end) {
    u64 most = (u64)__builtin_wasm_memory_size(0) * PAGE;
    if ((u64)end <= most)
        return 1;
    return (u32)__builtin_wasm_memory_grow(0, ((u64)end - most + PAGE - 1) / PAGE) != 0xffffffffu;
}

static u64 power_for(u64 size) {
    u64 power = LEAST;
    while (((u64)1 << power) - sizeof(struct block) < size)
        power++;
    return power;
}

static void *lend(u64 size) {
    struct block *block;
    u64 power;
    if (fails() || size > ((u64)1 << (POWERS - 1)) - sizeof(struct block))
        return 0;
    power = power_for(size);
    block = free_blocks[power];
    if (block) {
        free_blocks[power] = block->next;
    } else {
        if (!top)
            top = (byte *)(((u64)&__heap_base + 15) & ~(u64)15);
        if (!has_pages_up_to(top + ((u64)1 << power)))
            return 0;
        block = (struct block *)top;
        top += (u64)1 << power;
    }
    block->power = power;
    blocks++;
    return block + 1;
}

static void give_back(void *at) {
    struct block *block = (struct block *)at - 1;
    block->next = free_blocks[block->power];
    free_blocks[block->power] = block;
    if (--blocks)
        return;
    for (u32 power = 0; power < POWERS; power++)
        free_blocks[power] = 0;
    top = 0;
}

static struct tried tried(void *at) {
    struct tried answer = {at != 0, at};
    return answer;
}

/* The alignments that are asked divide 16. */
struct tried rattle_alloc(u64 size, u64 align) {
    (void)align;
    return tried(lend(size));
}

struct tried rattle_realloc(void *at, u64 kept, u64 size, u64 align) {
    struct block *block = (struct block *)at - 1;
    void *other;
    (void)align;
    if (size <= ((u64)1 << block->power) - sizeof *block)
        return tried(fails() ? 0 : at);
    other = lend(size);
    if (other) {
        __builtin_memcpy(other, at, kept);
        give_back(at);
    }
    return tried(other);
}

void rattle_dealloc(void *at) { give_back(at); }

/* What the page lends to a call: room for so many bytes, 0 where memory is wanting, and its end. */
__attribute__((export_name("room"))) void *room(u64 size) { return lend(size); }
__attribute__((export_name("leave"))) void leave(void *at) { give_back(at); }
