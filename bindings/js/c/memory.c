/* The heap of the WebAssembly module: what the kit's c/heap.c is to programs, over the module's own memory.
 *
 * Blocks lie side by side from __heap_base to the end of the memory. In front of each stand the block before it and its room, so
 * that one that is freed joins free neighbours. Free blocks stand in lists, four for each doubling of the room, and a request is met
 * from the first list whose blocks are all large enough. Where there is none the memory grows. */
#include "memory.h"

#define PAGE 65536ul
#define STEP 16ul             /* every room is a multiple of it, and every block is aligned to it */
#define HEAD sizeof(struct head)
#define LEAST_REST 64ul       /* a rest that is smaller stays with the block that it is cut from */
#define MOST (1ul << 46)      /* bytes of one request: over what any engine gives */
#define LISTS 192
#define IS_FREE 1ul

struct head {
    struct block *before; /* the one in memory, null of the first */
    size_t room;          /* bytes behind the head, with IS_FREE where it is in a list */
};

struct block {
    struct head head;
    struct block *next, *previous; /* in its list, and only there */
};

extern unsigned char __heap_base;

static struct block *lists[LISTS];
static uint64_t filled[LISTS / 64]; /* which lists are not empty */
static struct block *last;          /* a head without room at the end of the memory, never free; null before the first request */
static size_t in_use;               /* bytes of the blocks that are not free, with their heads */
static size_t limit = ~0ul;         /* which in_use is not to pass */

static size_t room_of(const struct block *block) { return block->head.room & ~IS_FREE; }
static int is_free(const struct block *block) { return block->head.room & IS_FREE; }
static void *data_of(struct block *block) { return (unsigned char *)block + HEAD; }
static struct block *block_of(void *data) { return (struct block *)((unsigned char *)data - HEAD); }
static struct block *after(struct block *block) { return (struct block *)((unsigned char *)block + HEAD + room_of(block)); }

/* The list of a room: which power of two it reaches, and how many quarters of that it is beyond. */
static unsigned list_of(size_t room)
{
    unsigned power = 63 - __builtin_clzl(room);
    return (power - 4) * 4 + ((room >> (power - 2)) & 3);
}

/* A room that the blocks of no list before its own have, and that is at most a quarter more. */
static size_t with_quarter(size_t room) { return room + (1ul << (61 - __builtin_clzl(room))) - 1; }

/* The first list whose blocks all have the room. */
static unsigned first_list_for(size_t room) { return list_of(with_quarter(room)); }

static void put(struct block *block)
{
    unsigned list = list_of(block->head.room);
    block->head.room |= IS_FREE;
    block->previous = 0;
    block->next = lists[list];
    if (block->next)
        block->next->previous = block;
    lists[list] = block;
    filled[list / 64] |= 1ul << list % 64;
}

static void take(struct block *block)
{
    unsigned list = list_of(room_of(block));
    if (block->next)
        block->next->previous = block->previous;
    if (block->previous)
        block->previous->next = block->next;
    else if (!(lists[list] = block->next))
        filled[list / 64] &= ~(1ul << list % 64);
    block->head.room &= ~IS_FREE;
}

/* The first block of the first list from this one on that is not empty, or null. */
static struct block *first_from(unsigned list)
{
    for (unsigned word = list / 64; word < LISTS / 64; word++) {
        uint64_t bits = filled[word] & (word == list / 64 ? ~0ul << list % 64 : ~0ul);
        if (bits)
            return lists[word * 64 + __builtin_ctzl(bits)];
    }
    return 0;
}

/* Joins a block with the one behind it, which is in no list. */
static void join(struct block *block, struct block *behind)
{
    block->head.room += HEAD + behind->head.room;
    after(block)->head.before = block;
}

/* Frees a block that is in no list: with its free neighbours it becomes one. */
static void free_block(struct block *block)
{
    struct block *behind = after(block), *before = block->head.before;
    if (is_free(behind)) {
        take(behind);
        join(block, behind);
    }
    if (before && is_free(before)) {
        take(before);
        join(before, block);
        block = before;
    }
    put(block);
}

/* Cuts a block that is in no list to this room, where the rest is worth a block of its own. */
static void cut(struct block *block, size_t room)
{
    if (block->head.room < room + HEAD + LEAST_REST)
        return;
    struct block *rest = (struct block *)((unsigned char *)block + HEAD + room);
    rest->head.before = block;
    rest->head.room = block->head.room - room - HEAD;
    after(rest)->head.before = rest;
    block->head.room = room;
    free_block(rest);
}

/* Makes the end of the memory the last head. */
static void end_at(struct block *end, struct block *before)
{
    end->head.before = before;
    end->head.room = 0;
    last = end;
}

/* Has the first block begin behind what the linker placed. */
static int begin(void)
{
    size_t first = ((size_t)&__heap_base + STEP - 1) & ~(STEP - 1);
    if (first + HEAD > __builtin_wasm_memory_size(0) * PAGE && __builtin_wasm_memory_grow(0, 1) == ~0ul)
        return 0;
    end_at((struct block *)first, 0);
    return 1;
}

/* Makes a free block at the end that the first list for this room takes, and answers whether the engine gave the memory. It asks
 * for an eighth of what there is at least, so that a heap that grows asks seldom, and where that is refused for what is needed. */
static int grow(size_t room)
{
    size_t begins = (size_t)last, ends = __builtin_wasm_memory_size(0) * PAGE, wanted = begins + with_quarter(room) + 2 * HEAD;
    size_t needed = wanted > ends ? (wanted - ends + PAGE - 1) / PAGE : 0;
    size_t ample = needed > ends / PAGE / 8 ? needed : ends / PAGE / 8;
    if (needed > 0 && __builtin_wasm_memory_grow(0, ample) == ~0ul && __builtin_wasm_memory_grow(0, needed) == ~0ul)
        return 0;
    struct block *made = last;
    made->head.room = __builtin_wasm_memory_size(0) * PAGE - begins - 2 * HEAD;
    end_at(after(made), made);
    free_block(made);
    return 1;
}

/* The room that holds these bytes, or 0 where no engine has it. */
static size_t room_for(size_t bytes)
{
    if (bytes > MOST)
        return 0;
    return bytes < STEP ? STEP : (bytes + STEP - 1) & ~(STEP - 1);
}

static int is_over_limit(size_t more) { return more > limit || in_use > limit - more; }

void *allocate(size_t bytes)
{
    size_t room = room_for(bytes);
    if (room == 0 || is_over_limit(room + HEAD) || (!last && !begin()))
        return 0;
    struct block *block = first_from(first_list_for(room));
    if (!block && grow(room))
        block = first_from(first_list_for(room));
    if (!block)
        return 0;
    take(block);
    cut(block, room);
    in_use += HEAD + block->head.room;
    return data_of(block);
}

void release(void *data)
{
    if (!data)
        return;
    struct block *block = block_of(data);
    in_use -= HEAD + block->head.room;
    free_block(block);
}

/* Whether the block has the room once it has joined what is free behind it. */
static int stretch(struct block *block, size_t room)
{
    struct block *behind = after(block);
    size_t had = block->head.room;
    if (had >= room)
        return 1;
    if (!is_free(behind) || had + HEAD + room_of(behind) < room || is_over_limit(room - had))
        return 0;
    take(behind);
    join(block, behind);
    in_use += block->head.room - had;
    return 1;
}

void *resize(void *data, size_t kept, size_t bytes)
{
    struct block *block = block_of(data);
    size_t room = room_for(bytes);
    if (room == 0)
        return 0;
    if (stretch(block, room)) {
        size_t had = block->head.room;
        cut(block, room);
        in_use -= had - block->head.room;
        return data;
    }
    void *moved = allocate(bytes);
    if (!moved)
        return 0;
    memcpy(moved, data, kept);
    release(data);
    return moved;
}

void limit_memory(size_t bytes) { limit = bytes; }

size_t memory_in_use(void) { return in_use; }

/* What the kit's heap.rt declares. The pointer that goes with a refusal is one that nobody frees or follows. */
static struct tried told(void *data)
{
    static unsigned char nowhere;
    return (struct tried){data != 0, data ? data : &nowhere};
}

struct tried rattle_alloc(size_t bytes, size_t align) { return told(allocate(bytes ? bytes : align)); }

struct tried rattle_realloc(void *data, size_t kept, size_t bytes, size_t align)
{
    return told(resize(data, kept, bytes ? bytes : align));
}

void rattle_dealloc(void *data) { release(data); }

/* What the compiler calls by these names. With the bulk instructions of WebAssembly each of the first three is one of them. */
void *memcpy(void *to, const void *from, size_t count) { return __builtin_memcpy(to, from, count); }
void *memmove(void *to, const void *from, size_t count) { return __builtin_memmove(to, from, count); }
void *memset(void *to, int byte, size_t count) { return __builtin_memset(to, byte, count); }

int memcmp(const void *one, const void *other, size_t count)
{
    const unsigned char *left = one, *right = other;
    for (; count > 0; count--, left++, right++)
        if (*left != *right)
            return *left - *right;
    return 0;
}
