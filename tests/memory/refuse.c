// Preloaded into a program: refuses one of its allocations.
//
//     REFUSE_AT=N           the one of this number, counted from 1; 0 refuses none
//     REFUSE_THREAD=NAME    of this thread alone: `0` is the first one, and `0.2` the second that it made; without it all of them count
//     REFUSE_ASLEEP=1       counted from the first time on that the program has slept
//     REFUSE_LOG=FILE       is made where an allocation was refused
//     REFUSE_COUNTS=FILE    gets a line for each thread at the end of the program: its name, how many allocations were counted, how many bytes these
//                           were together, and how many the largest was
#define _GNU_SOURCE
#include <dlfcn.h>
#include <fcntl.h>
#include <pthread.h>
#include <stdatomic.h>
#include <stdio.h>
#include <stdlib.h>
#include <string.h>
#include <sys/syscall.h>
#include <time.h>
#include <unistd.h>

#define MOST_THREADS 256

// What is known of a thread, and what it was made to run. It lies in room of its own, so that none of this takes memory.
struct thread {
    char name[64];
    int made;
    long count, bytes, largest;
    void *(*run)(void *);
    void *with;
};

static struct thread threads[MOST_THREADS] = {{.name = "0"}};
static atomic_int made = 1;
static atomic_int has_slept;
static _Thread_local struct thread *own __attribute__((tls_model("initial-exec")));

static struct thread *self(void) { return own ? own : &threads[0]; }

static int refused(long size) {
    static atomic_long all;
    struct thread *mine = self();
    const char *at = getenv("REFUSE_AT"), *thread = getenv("REFUSE_THREAD"), *log = getenv("REFUSE_LOG");
    if (getenv("REFUSE_ASLEEP") && !has_slept) return 0;
    long count = ++mine->count, place = ++all;
    mine->bytes += size;
    if (size > mine->largest) mine->largest = size;
    if (thread && strcmp(thread, mine->name) != 0) return 0;
    if ((thread ? count : place) != (at ? atol(at) : 0)) return 0;
    if (log) close(open(log, O_CREAT | O_WRONLY, 0600));
    return 1;
}

void *malloc(size_t size) {
    static void *(*next)(size_t);
    if (!next) next = dlsym(RTLD_NEXT, "malloc");
    return refused(size) ? NULL : next(size);
}

void *realloc(void *old, size_t size) {
    static void *(*next)(void *, size_t);
    if (!next) next = dlsym(RTLD_NEXT, "realloc");
    return refused(size) ? NULL : next(old, size);
}

static void *begin(void *made) {
    own = made;
    return own->run(own->with);
}

int pthread_create(pthread_t *id, const pthread_attr_t *how, void *(*run)(void *), void *with) {
    static int (*next)(pthread_t *, const pthread_attr_t *, void *(*)(void *), void *);
    if (!next) next = dlsym(RTLD_NEXT, "pthread_create");
    int place = atomic_fetch_add(&made, 1);
    if (place >= MOST_THREADS) abort();
    struct thread *child = &threads[place];
    snprintf(child->name, sizeof child->name, "%.48s.%d", self()->name, ++self()->made);
    child->run = run;
    child->with = with;
    return next(id, how, begin, child);
}

int nanosleep(const struct timespec *span, struct timespec *left) {
    static int (*next)(const struct timespec *, struct timespec *);
    if (!next) next = dlsym(RTLD_NEXT, "nanosleep");
    int status = next(span, left);
    has_slept = 1;
    return status;
}

static void tell(void) {
    const char *path = getenv("REFUSE_COUNTS");
    int to = path ? open(path, O_CREAT | O_WRONLY | O_TRUNC, 0600) : -1;
    for (int place = 0; to >= 0 && place < made && place < MOST_THREADS; place++) {
        struct thread *it = &threads[place];
        dprintf(to, "%s %ld %ld %ld\n", it->name, it->count, it->bytes, it->largest);
    }
}

__attribute__((destructor)) static void end(void) { tell(); }

// A program with threads ends by this, at which no destructor runs.
void _exit(int status) {
    tell();
    for (;;) syscall(SYS_exit_group, status);
}
