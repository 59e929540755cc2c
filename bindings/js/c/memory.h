/* The heap of the module, and what the compiler and the kit's libraries call by name. The kit's clang has no headers of its own. */
#ifndef PBCUBE_MEMORY_H
#define PBCUBE_MEMORY_H

typedef __SIZE_TYPE__ size_t;
typedef __UINT64_TYPE__ uint64_t;

/* Whether there is memory, and where: as the kit's libraries take it. */
struct tried {
    uint64_t ok;
    void *data;
};

/* A block of this size, aligned to 16; null where it is refused. */
void *allocate(size_t bytes);

/* Gives a block another size. It may move, and its first `kept` bytes are as they were. Null where that is refused, and then the block
 * is as it was. */
void *resize(void *data, size_t kept, size_t bytes);

/* Frees a block. Null is no block. */
void release(void *data);

/* Has each request refused that would bring the blocks and their heads over this number of bytes. */
void limit_memory(size_t bytes);

/* How many bytes the blocks have, with their heads. */
size_t memory_in_use(void);

struct tried rattle_alloc(size_t bytes, size_t align);
struct tried rattle_realloc(void *data, size_t kept, size_t bytes, size_t align);
void rattle_dealloc(void *data);
void *memcpy(void *to, const void *from, size_t count);
void *memmove(void *to, const void *from, size_t count);
void *memset(void *to, int byte, size_t count);
int memcmp(const void *one, const void *other, size_t count);

#endif
