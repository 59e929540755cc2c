/* A library to be preloaded that adds up how long a program's calls on files take. The nanoseconds stand in the file FILES_FILE,
 * which has room for a number of 64 bits, at first 0.
 */
#define _GNU_SOURCE
#include <dlfcn.h>
#include <fcntl.h>
#include <stdarg.h>
#include <stdatomic.h>
#include <stdio.h>
#include <stdlib.h>
#include <sys/mman.h>
#include <sys/stat.h>
#include <sys/syscall.h>
#include <time.h>
#include <unistd.h>

static atomic_long of_no_file, *taken = &of_no_file;

/* Runs before the program's own start. */
__attribute__((constructor)) static void begin(void)
{
    const char *name = getenv("FILES_FILE");
    int file = name ? open(name, O_RDWR) : -1;
    void *room = file < 0 ? MAP_FAILED : mmap(NULL, sizeof *taken, PROT_READ | PROT_WRITE, MAP_SHARED, file, 0);
    if (room != MAP_FAILED)
        taken = room;
}

static long now(void)
{
    struct timespec time;
    clock_gettime(CLOCK_MONOTONIC, &time);
    return time.tv_sec * 1000000000L + time.tv_nsec;
}

/* A call of the C library under its own name, with a clock around it. */
#define TIMED(type, name, parameters, arguments)                  \
    type name parameters                                          \
    {                                                             \
        static type(*real) parameters;                            \
        if (!real)                                                \
            real = (type(*) parameters)dlsym(RTLD_NEXT, #name);   \
        long start = now();                                       \
        type result = real arguments;                             \
        atomic_fetch_add(taken, now() - start);                   \
        return result;                                            \
    }

int open(const char *path, int flags, ...)
{
    va_list more;
    va_start(more, flags);
    mode_t mode = va_arg(more, mode_t); /* whatever it is where a file is not to be made */
    va_end(more);
    long start = now();
    int file = (int)syscall(SYS_openat, AT_FDCWD, path, flags, mode);
    atomic_fetch_add(taken, now() - start);
    return file;
}

TIMED(int, close, (int file), (file))
TIMED(ssize_t, read, (int file, void *bytes, size_t count), (file, bytes, count))
TIMED(ssize_t, write, (int file, const void *bytes, size_t count), (file, bytes, count))
TIMED(int, statx, (int at, const char *path, int flags, unsigned mask, struct statx *told), (at, path, flags, mask, told))
TIMED(int, rename, (const char *old, const char *new), (old, new))
TIMED(int, link, (const char *old, const char *new), (old, new))
TIMED(int, unlink, (const char *path), (path))
TIMED(int, mkdir, (const char *path, mode_t mode), (path, mode))
