/* Refuses requests for memory in a program that is linked with it and with -Wl,--wrap=malloc and its like: where the environment
 * has REFUSE_AT=N the N-th request, and with REFUSE_ON all that follow. With TELL_REQUESTS the end of the program tells on standard
 * error how many there were.
 */
#include <stdbool.h>
#include <stdio.h>
#include <stdlib.h>

void *__real_malloc(size_t size);
void *__real_calloc(size_t count, size_t size);
void *__real_realloc(void *old, size_t size);

static long refuse_at, requests;
static bool refuses_on;

static void tell(void)
{
    fprintf(stderr, "%ld requests\n", requests);
}

/* Runs before the program's own start. */
__attribute__((constructor)) static void begin(void)
{
    const char *at = getenv("REFUSE_AT");
    refuse_at = at ? atol(at) : 0;
    refuses_on = getenv("REFUSE_ON") != NULL;
    if (getenv("TELL_REQUESTS"))
        atexit(tell);
}

static bool is_refused(void)
{
    requests++;
    return refuse_at && (requests == refuse_at || (refuses_on && requests > refuse_at));
}

/* The linker takes these for the library's requests and the program's. */
void *__wrap_malloc(size_t size) { return is_refused() ? NULL : __real_malloc(size); }
void *__wrap_calloc(size_t count, size_t size) { return is_refused() ? NULL : __real_calloc(count, size); }
void *__wrap_realloc(void *old, size_t size) { return is_refused() ? NULL : __real_realloc(old, size); }
