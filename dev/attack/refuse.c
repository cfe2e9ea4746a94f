/* Refuses calls of a program for what the system may not have: the allocation that the variable REFUSE numbers, from 1,
   or the thread that REFUSE_THREAD numbers, or every thread where that is `all`. Where it refuses one, it makes the
   file that the variable REFUSED names. refusing.py has it loaded before the C library. */
#define _GNU_SOURCE
#include <dlfcn.h>
#include <errno.h>
#include <fcntl.h>
#include <pthread.h>
#include <stdlib.h>
#include <string.h>
#include <unistd.h>

static long allocations;
static long threads;

/* Whether this call is one to refuse: the variable numbers it, or says `all`. */
static int is_refused(const char *variable, long *count) {
    const char *which = getenv(variable);
    const char *mark = getenv("REFUSED");
    if (!which || !mark)
        return 0;
    long number = __atomic_add_fetch(count, 1, __ATOMIC_SEQ_CST);
    if (strcmp(which, "all") != 0 && number != atol(which))
        return 0;
    int file = open(mark, O_WRONLY | O_CREAT, 0600);
    if (file >= 0)
        close(file);
    return 1;
}

void *malloc(size_t octets) {
    static void *(*next)(size_t);
    if (!next)
        next = (void *(*)(size_t))dlsym(RTLD_NEXT, "malloc");
    return is_refused("REFUSE", &allocations) ? NULL : next(octets);
}

void *realloc(void *old, size_t octets) {
    static void *(*next)(void *, size_t);
    if (!next)
        next = (void *(*)(void *, size_t))dlsym(RTLD_NEXT, "realloc");
    return is_refused("REFUSE", &allocations) ? NULL : next(old, octets);
}

int pthread_create(pthread_t *thread, const pthread_attr_t *how, void *(*run)(void *), void *given) {
    static int (*next)(pthread_t *, const pthread_attr_t *, void *(*)(void *), void *);
    if (!next)
        next = (int (*)(pthread_t *, const pthread_attr_t *, void *(*)(void *), void *))dlsym(
            RTLD_NEXT, "pthread_create");
    return is_refused("REFUSE_THREAD", &threads) ? EAGAIN : next(thread, how, run, given);
}
