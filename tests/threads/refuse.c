// Preloaded into a program: refuses its thread number REFUSE_AT, counted from 1, and leaves a file REFUSE_LOG where it did.
#define _GNU_SOURCE
#include <dlfcn.h>
#include <errno.h>
#include <fcntl.h>
#include <pthread.h>
#include <stdlib.h>
#include <unistd.h>

static int made;

int pthread_create(pthread_t *thread, const pthread_attr_t *how, void *(*begin)(void *), void *given) {
    static int (*next)(pthread_t *, const pthread_attr_t *, void *(*)(void *), void *);
    if (!next) next = dlsym(RTLD_NEXT, "pthread_create");
    const char *at = getenv("REFUSE_AT");
    if (__atomic_add_fetch(&made, 1, __ATOMIC_SEQ_CST) != (at ? atoi(at) : 0)) return next(thread, how, begin, given);
    const char *log = getenv("REFUSE_LOG");
    if (log) close(open(log, O_CREAT | O_WRONLY, 0600));
    return EAGAIN;
}
