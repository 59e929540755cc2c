/* What the libraries to be preloaded have in common that take a program's requests for memory. */
#include <errno.h>
#include <malloc.h>
#include <stdlib.h>

/* The C library's own calls for memory, under the names that no preloaded library takes. */
extern void *__libc_malloc(size_t size);
extern void *__libc_calloc(size_t count, size_t size);
extern void *__libc_realloc(void *old, size_t size);
extern void *__libc_memalign(size_t alignment, size_t size);
extern void __libc_free(void *old);

/* Requests for aligned memory all come to the library's `memalign`. */
void *aligned_alloc(size_t alignment, size_t size)
{
    return memalign(alignment, size);
}

int posix_memalign(void **made, size_t alignment, size_t size)
{
    *made = memalign(alignment, size);
    return *made ? 0 : ENOMEM;
}
