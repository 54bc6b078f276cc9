// Refuses one request of a program and lets all others through, or refuses all from one on.
//
//     cc -shared -fPIC -O1 -o refuse.so refuse.c
//     LD_PRELOAD=./refuse.so REFUSE_MEMORY=5 REFUSED=told program
//
// REFUSE_MEMORY=N refuses the Nth request for memory, counted from 1, REFUSE_MEMORY_FROM=N that one and all after it, and
// REFUSE_THREAD=N the Nth start of a thread. Where the program came so far, the file that REFUSED names is made.
#define _GNU_SOURCE
#include <dlfcn.h>
#include <errno.h>
#include <fcntl.h>
#include <pthread.h>
#include <stdatomic.h>
#include <stddef.h>
#include <stdlib.h>
#include <unistd.h>

void *__libc_malloc(size_t);
void *__libc_calloc(size_t, size_t);
void *__libc_realloc(void *, size_t);
void *__libc_memalign(size_t, size_t);

static atomic_long memory, threads;

static int refuses(atomic_long *made, const char *which, int goes_on) {
    const char *wanted = getenv(which), *told = getenv("REFUSED");
    if (!wanted)
        return 0;
    long number = atomic_fetch_add(made, 1) + 1, first = atol(wanted);
    if (number < first || (number > first && !goes_on))
        return 0;
    int file = told ? open(told, O_CREAT | O_WRONLY, 0600) : -1;
    if (file >= 0)
        close(file);
    return 1;
}

static int refuses_memory(void) {
    if (!refuses(&memory, "REFUSE_MEMORY", 0) && !refuses(&memory, "REFUSE_MEMORY_FROM", 1))
        return 0;
    errno = ENOMEM;
    return 1;
}

void *malloc(size_t size) { return refuses_memory() ? NULL : __libc_malloc(size); }

void *calloc(size_t count, size_t size) { return refuses_memory() ? NULL : __libc_calloc(count, size); }

void *realloc(void *old, size_t size) { return refuses_memory() ? NULL : __libc_realloc(old, size); }

void *memalign(size_t align, size_t size) { return refuses_memory() ? NULL : __libc_memalign(align, size); }

void *aligned_alloc(size_t align, size_t size) { return memalign(align, size); }

int posix_memalign(void **place, size_t align, size_t size) {
    void *got = memalign(align, size);
    if (!got)
        return ENOMEM;
    *place = got;
    return 0;
}

int pthread_create(pthread_t *thread, const pthread_attr_t *how, void *(*start)(void *), void *of) {
    if (refuses(&threads, "REFUSE_THREAD", 0))
        return EAGAIN;
    int (*create)(pthread_t *, const pthread_attr_t *, void *(*)(void *), void *) = dlsym(RTLD_NEXT, "pthread_create");
    return create(thread, how, start, of);
}
