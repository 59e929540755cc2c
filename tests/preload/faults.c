/* A library to be preloaded, with which some calls of a program to the system fail. The environment says which:
 *
 *   FAULT_KIND  memory, thread, open, read or write
 *   FAULT_AT    the number of the call of this kind, from 1, counted from the program's own start
 *   FAULT_HOW   once: this call fails; on: it and all that follow; short: it moves one byte
 *   FAULT_TELL  a file descriptor on which a byte is written when the call came
 */
#define _GNU_SOURCE
#include "requests.h"

#include <dlfcn.h>
#include <fcntl.h>
#include <pthread.h>
#include <stdarg.h>
#include <stdatomic.h>
#include <stdbool.h>
#include <string.h>
#include <sys/syscall.h>
#include <unistd.h>

static const char *kind;
static const char *how;
static unsigned long at;
static int tell;
static atomic_ulong calls;

static long number_of(const char *name)
{
    const char *text = getenv(name);
    return text ? strtol(text, NULL, 10) : -1;
}

/* Runs after the C library's own start and before the program's. */
__attribute__((constructor)) static void begin(void)
{
    how = getenv("FAULT_HOW");
    at = (unsigned long)number_of("FAULT_AT");
    tell = (int)number_of("FAULT_TELL");
    kind = getenv("FAULT_KIND");
}

/* Counts a call of this kind, and says whether the fault is to come at it. */
static bool comes(const char *of_kind)
{
    if (!kind || strcmp(kind, of_kind) != 0)
        return false;
    unsigned long number = atomic_fetch_add(&calls, 1) + 1;
    if (number == at)
        syscall(SYS_write, tell, "!", 1);
    return number == at || (number > at && strcmp(how, "on") == 0);
}

static bool fails(const char *of_kind, int error)
{
    bool is_refused = comes(of_kind);
    if (is_refused)
        errno = error;
    return is_refused;
}

void *malloc(size_t size)
{
    return fails("memory", ENOMEM) ? NULL : __libc_malloc(size);
}

void *calloc(size_t count, size_t size)
{
    return fails("memory", ENOMEM) ? NULL : __libc_calloc(count, size);
}

void *realloc(void *old, size_t size)
{
    return fails("memory", ENOMEM) ? NULL : __libc_realloc(old, size);
}

void *memalign(size_t alignment, size_t size)
{
    return fails("memory", ENOMEM) ? NULL : __libc_memalign(alignment, size);
}

int pthread_create(pthread_t *thread, const pthread_attr_t *attributes, void *(*start)(void *), void *given)
{
    if (comes("thread"))
        return EAGAIN;
    int (*next)(pthread_t *, const pthread_attr_t *, void *(*)(void *), void *) = dlsym(RTLD_NEXT, "pthread_create");
    return next(thread, attributes, start, given);
}

int openat(int folder, const char *name, int flags, ...)
{
    va_list rest;
    va_start(rest, flags);
    mode_t mode = flags & (O_CREAT | O_TMPFILE) ? va_arg(rest, mode_t) : 0;
    va_end(rest);
    return fails("open", EIO) ? -1 : (int)syscall(SYS_openat, folder, name, flags, mode);
}

int open(const char *name, int flags, ...)
{
    va_list rest;
    va_start(rest, flags);
    mode_t mode = flags & (O_CREAT | O_TMPFILE) ? va_arg(rest, mode_t) : 0;
    va_end(rest);
    return openat(AT_FDCWD, name, flags, mode);
}

/* How many bytes a read or write of count bytes moves at most, or -1 where it fails. */
static ssize_t most_moved(const char *of_kind, size_t count)
{
    if (!comes(of_kind))
        return (ssize_t)count;
    if (strcmp(how, "short") == 0)
        return count > 1 ? 1 : (ssize_t)count;
    errno = EIO;
    return -1;
}

ssize_t read(int file, void *into, size_t count)
{
    ssize_t most = most_moved("read", count);
    return most < 0 ? -1 : syscall(SYS_read, file, into, most);
}

ssize_t write(int file, const void *from, size_t count)
{
    ssize_t most = most_moved("write", count);
    return most < 0 ? -1 : syscall(SYS_write, file, from, most);
}
