// Counts what a program has of the heap: a library that is loaded before the C library, by LD_PRELOAD. When the program ends it
// writes to standard error how many bytes were in use when it started its first thread (its locks are open then), the most that were in
// use at a time, and the most of its memory that was resident: open=.. live=.. resident=..
#include <atomic>
#include <cerrno>
#include <cstdio>
#include <dlfcn.h>
#include <malloc.h>
#include <pthread.h>
#include <sys/syscall.h>
#include <unistd.h>

extern "C" {
void* __libc_malloc(size_t);
void* __libc_calloc(size_t, size_t);
void* __libc_realloc(void*, size_t);
void* __libc_memalign(size_t, size_t);
void __libc_free(void*);
}

namespace {
std::atomic<long> live { 0 }, most { 0 }, open { -1 };

void* come(void* block) {
    long now = live += long(malloc_usable_size(block));
    long before = most.load();
    while (now > before && !most.compare_exchange_weak(before, now)) { }
    return block;
}

void go(void* block) { live -= long(malloc_usable_size(block)); }

// The most that was resident, in bytes, as the system tells it.
long resident() {
    char line[256];
    long kibibytes = 0;
    if (FILE* file = fopen("/proc/self/status", "r")) {
        while (fgets(line, sizeof line, file))
            sscanf(line, "VmHWM: %ld", &kibibytes);
        fclose(file);
    }
    return kibibytes * 1024;
}

void tell() {
    static std::atomic<bool> told { false };
    long used = most.load();
    if (!told.exchange(true))
        fprintf(stderr, "open=%ld live=%ld resident=%ld\n", open.load(), used, resident());
}

struct AtTheEnd {
    ~AtTheEnd() { tell(); }
} at_the_end;
}

extern "C" {
// A program may end by this, past all destructors.
void _exit(int status) {
    tell();
    syscall(SYS_exit_group, status);
    __builtin_unreachable();
}
int pthread_create(pthread_t* thread, const pthread_attr_t* how, void* (*work)(void*), void* of) {
    static auto real = reinterpret_cast<decltype(&pthread_create)>(dlsym(RTLD_NEXT, "pthread_create"));
    long none = -1;
    open.compare_exchange_strong(none, live.load());
    return real(thread, how, work, of);
}
void* malloc(size_t size) { return come(__libc_malloc(size)); }
void* calloc(size_t count, size_t size) { return come(__libc_calloc(count, size)); }
void* memalign(size_t alignment, size_t size) { return come(__libc_memalign(alignment, size)); }
void* aligned_alloc(size_t alignment, size_t size) { return come(__libc_memalign(alignment, size)); }
int posix_memalign(void** block, size_t alignment, size_t size) {
    void* made = __libc_memalign(alignment, size);
    if (!made)
        return ENOMEM;
    *block = come(made);
    return 0;
}
void* realloc(void* block, size_t size) {
    long before = long(malloc_usable_size(block));
    void* moved = __libc_realloc(block, size);
    if (moved || !size)
        live -= before;
    return moved ? come(moved) : moved;
}
void free(void* block) {
    go(block);
    __libc_free(block);
}
}
