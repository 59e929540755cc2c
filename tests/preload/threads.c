/* A library to be preloaded, which watches the threads that a program makes. The environment says:
 *
 *   THREADS_ALL   how many threads the program is to make beside its own: before all are made none is waited for, until
 *                 TURNS turns have passed
 *   THREADS_HELD  the number of a thread, from 1, which begins only when all others have ended or wait; 0: none, and only
 *                 then THREADS_ALL counts
 *   THREADS_TELL  a file descriptor on which a line is written for each thread that is made (`made`), for one that was
 *                 waited for too early (`early`), and for each that ends (`ended`, its number, and the nanoseconds of
 *                 processor time that it took since it was let go)
 */
#define _GNU_SOURCE
#include <dlfcn.h>
#include <pthread.h>
#include <stdatomic.h>
#include <stdio.h>
#include <stdlib.h>
#include <time.h>
#include <unistd.h>

enum { TURNS = 20000, TURN = 1000 /* microseconds */ };

struct beginning {
    void *(*start)(void *);
    void *given;
    int number;
};

static atomic_int made;
static atomic_int at_rest; /* threads that have ended or wait for another, the first one among them */

static int number_of(const char *name)
{
    const char *text = getenv(name);
    return text ? atoi(text) : 0;
}

static void tell(const char *what, long number, long more)
{
    dprintf(number_of("THREADS_TELL"), "%s %ld %ld\n", what, number, more);
}

static long processor_time(void)
{
    struct timespec now;
    clock_gettime(CLOCK_THREAD_CPUTIME_ID, &now);
    return now.tv_sec * 1000000000L + now.tv_nsec;
}

static void *watched(void *given)
{
    struct beginning it = *(struct beginning *)given;
    free(given);
    if (it.number == number_of("THREADS_HELD"))
        while (atomic_load(&at_rest) < atomic_load(&made))
            usleep(TURN);
    long waited = processor_time();
    void *answer = it.start(it.given);
    tell("ended", it.number, processor_time() - waited);
    atomic_fetch_add(&at_rest, 1);
    return answer;
}

int pthread_create(pthread_t *thread, const pthread_attr_t *attributes, void *(*start)(void *), void *given)
{
    int (*next)(pthread_t *, const pthread_attr_t *, void *(*)(void *), void *) = dlsym(RTLD_NEXT, "pthread_create");
    struct beginning *it = malloc(sizeof *it);
    *it = (struct beginning){start, given, atomic_fetch_add(&made, 1) + 1};
    tell("made", it->number, 0);
    return next(thread, attributes, watched, it);
}

int pthread_join(pthread_t thread, void **answer)
{
    int (*next)(pthread_t, void **) = dlsym(RTLD_NEXT, "pthread_join");
    atomic_fetch_add(&at_rest, 1);
    int turns = 0;
    if (!number_of("THREADS_HELD"))
        while (atomic_load(&made) < number_of("THREADS_ALL") && turns++ < TURNS)
            usleep(TURN);
    if (turns > TURNS)
        tell("early", 0, 0);
    int status = next(thread, answer);
    atomic_fetch_sub(&at_rest, 1);
    return status;
}
