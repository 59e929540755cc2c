/* A library to be preloaded that counts what a program asks for: the requests for memory, and the most bytes that it held at once.
 * They stand in the file MEMORY_FILE, which has room for three numbers of 64 bits, all 0.
 */
#include "requests.h"

#include <fcntl.h>
#include <stdatomic.h>
#include <sys/mman.h>

/* What is counted: the requests, the bytes that are held, and the most that were. In the file, so that they outlive the program. */
static struct {
    atomic_long requests;
    atomic_long held;
    atomic_long most;
} of_no_file, *counts = &of_no_file;

/* Runs after the C library's own start and before the program's. */
__attribute__((constructor)) static void begin(void)
{
    const char *name = getenv("MEMORY_FILE");
    int file = name ? open(name, O_RDWR) : -1;
    void *room = file < 0 ? MAP_FAILED : mmap(NULL, sizeof *counts, PROT_READ | PROT_WRITE, MAP_SHARED, file, 0);
    if (room != MAP_FAILED)
        counts = room;
}

static void *taken(void *made)
{
    atomic_fetch_add(&counts->requests, 1);
    long size = (long)malloc_usable_size(made);
    long now = atomic_fetch_add(&counts->held, size) + size;
    long before = atomic_load(&counts->most);
    while (now > before && !atomic_compare_exchange_weak(&counts->most, &before, now))
        continue;
    return made;
}

static void left(void *old)
{
    atomic_fetch_sub(&counts->held, (long)malloc_usable_size(old));
}

void *malloc(size_t size)
{
    return taken(__libc_malloc(size));
}

void *calloc(size_t count, size_t size)
{
    return taken(__libc_calloc(count, size));
}

/* A failure would leave the old memory held; no run that is counted here is refused any. */
void *realloc(void *old, size_t size)
{
    left(old);
    return taken(__libc_realloc(old, size));
}

void *memalign(size_t alignment, size_t size)
{
    return taken(__libc_memalign(alignment, size));
}

void free(void *old)
{
    left(old);
    __libc_free(old);
}
