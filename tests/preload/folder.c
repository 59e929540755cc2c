/* A library to be preloaded, with which a folder goes wrong while a program works in it. The environment says:
 *
 *   FOLDER       the folder, by the name that the program has for it
 *   FOLDER_HOW   kept: no file is made, renamed or removed there, as where only others may write, and the folder is not made
 *                full: a file there takes half of what is first written to it, and then nothing
 *                single: no file there gets a second name
 *                gone: the folder moves away, to its name and `.gone`
 *                taken: a draft is not there any more as it gets its name, at this call alone, as where another run took it
 *   FOLDER_AT    the number of the call on a file of the folder, from 1, from which on it is wrong
 *   FOLDER_TELL  a file descriptor on which a byte is written when that call came
 */
#define _GNU_SOURCE
#include <dlfcn.h>
#include <errno.h>
#include <fcntl.h>
#include <stdarg.h>
#include <stdatomic.h>
#include <stdbool.h>
#include <stdio.h>
#include <stdlib.h>
#include <string.h>
#include <sys/stat.h>
#include <sys/syscall.h>
#include <unistd.h>

#define NEXT(name) ((__typeof__(&name))dlsym(RTLD_NEXT, #name))

enum { FILES = 1024 };

static atomic_ulong calls;
static atomic_bool is_of_folder[FILES]; /* by file descriptor */

static const char *told(const char *name)
{
    const char *text = getenv(name);
    return text ? text : "";
}

static bool lies_in_folder(const char *name)
{
    size_t length = strlen(told("FOLDER"));
    return length > 0 && strncmp(name, told("FOLDER"), length) == 0 && name[length] == '/';
}

static void move_away(void)
{
    char away[4096];
    snprintf(away, sizeof away, "%s.gone", told("FOLDER"));
    NEXT(rename)(told("FOLDER"), away);
}

/* Whether the last call of this thread was the one of the number FOLDER_AT. */
static _Thread_local bool has_just_come;

/* Counts a call on a file of the folder, and says whether the folder is wrong by then. */
static bool counts(void)
{
    unsigned long number = atomic_fetch_add(&calls, 1) + 1, at = strtoul(told("FOLDER_AT"), NULL, 10);
    has_just_come = number == at;
    if (has_just_come) {
        syscall(SYS_write, atoi(told("FOLDER_TELL")), "!", 1);
        if (strcmp(told("FOLDER_HOW"), "gone") == 0)
            move_away();
    }
    return at > 0 && number >= at;
}

/* Whether a call on this file fails where the folder is wrong in this way. */
static bool fails(const char *name, const char *how, int error)
{
    bool is_refused = lies_in_folder(name) && counts() && strcmp(told("FOLDER_HOW"), how) == 0;
    if (is_refused)
        errno = error;
    return is_refused;
}

int open(const char *name, int flags, ...)
{
    va_list rest;
    va_start(rest, flags);
    mode_t mode = flags & (O_CREAT | O_TMPFILE) ? va_arg(rest, mode_t) : 0;
    va_end(rest);
    if (fails(name, flags & O_CREAT ? "kept" : "", EACCES))
        return -1;
    int file = NEXT(open)(name, flags, mode);
    if (file >= 0 && file < FILES)
        atomic_store(&is_of_folder[file], lies_in_folder(name));
    return file;
}

ssize_t write(int file, const void *from, size_t count)
{
    bool is_there = file >= 0 && file < FILES && atomic_load(&is_of_folder[file]);
    if (is_there && counts() && strcmp(told("FOLDER_HOW"), "full") == 0) {
        if (lseek(file, 0, SEEK_CUR) > 0) {
            errno = ENOSPC;
            return -1;
        }
        count = (count + 1) / 2;
    }
    return syscall(SYS_write, file, from, count);
}

int statx(int place, const char *name, int flags, unsigned mask, struct statx *found)
{
    return fails(name, "", 0) ? -1 : NEXT(statx)(place, name, flags, mask, found);
}

/* Takes the draft away before it gets its name, where this is the call. */
static void take(const char *draft)
{
    if (has_just_come && strcmp(told("FOLDER_HOW"), "taken") == 0)
        NEXT(unlink)(draft);
}

int link(const char *from, const char *to)
{
    const char *how = strcmp(told("FOLDER_HOW"), "kept") == 0 ? "kept" : "single";
    if (fails(to, how, strcmp(how, "kept") == 0 ? EACCES : EPERM))
        return -1;
    take(from);
    return NEXT(link)(from, to);
}

int mkdir(const char *name, mode_t mode)
{
    bool is_missing = strcmp(name, told("FOLDER")) == 0 && access(name, F_OK) != 0;
    if (is_missing && strcmp(told("FOLDER_HOW"), "kept") == 0) {
        errno = EACCES;
        return -1;
    }
    return NEXT(mkdir)(name, mode);
}

int rename(const char *from, const char *to)
{
    if (fails(to, "kept", EACCES))
        return -1;
    take(from);
    return NEXT(rename)(from, to);
}

int unlink(const char *name)
{
    return fails(name, "kept", EACCES) ? -1 : NEXT(unlink)(name);
}
