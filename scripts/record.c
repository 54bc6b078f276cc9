// Writes down the accesses of a recording copy (scripts/recorded): each thread has a list of its own, in a mapped file of the folder that RECORD
// names, so that the lists stay where the program ends at once. Without RECORD nothing is written.
//
// A list is a head of 64 bytes and entries of 80. The head: the mark, the clock, how many entries there are, and whether there were more than fit.
#define _GNU_SOURCE
#include <fcntl.h>
#include <stdatomic.h>
#include <stdint.h>
#include <stdio.h>
#include <stdlib.h>
#include <sys/mman.h>
#include <time.h>
#include <unistd.h>
#if defined(__x86_64__)
#include <x86intrin.h>
#endif

enum { MOST = 1 << 17, MARK = 0x7365656e };

struct entry {
    uint64_t from, to, kind, thread, key, found, of[4];
};

struct list {
    uint64_t mark, clock;
    _Atomic uint64_t count, overflow;
    uint64_t spare[4];
    struct entry entries[MOST];
};

static _Thread_local struct list *mine;
static _Thread_local int is_open;
static _Thread_local uint64_t last_key;
static atomic_int lists;

// 1: the processor's time-stamp counter, where RECORD_CLOCK says that it can be trusted; 2: the system's monotonic clock.
static int which_clock(void) {
    static int known;
    if (!known) {
        const char *wanted = getenv("RECORD_CLOCK");
        known = wanted && *wanted == '1' ? 1 : 2;
    }
    return known;
}

// The clock, once all accesses before it are done, and before any after it begins.
uint64_t record_clock(void) {
    atomic_thread_fence(memory_order_seq_cst);
#if defined(__x86_64__)
    if (which_clock() == 1) {
        _mm_mfence();
        _mm_lfence();
        uint64_t now = __rdtsc();
        _mm_lfence();
        return now;
    }
#endif
    struct timespec now;
    clock_gettime(CLOCK_MONOTONIC, &now);
    atomic_thread_fence(memory_order_seq_cst);
    return (uint64_t)now.tv_sec * 1000000000u + (uint64_t)now.tv_nsec;
}

static void stop(const char *why) {
    perror(why);
    _exit(99);
}

static void open_list(void) {
    const char *folder = getenv("RECORD");
    is_open = 1;
    if (!folder)
        return;
    char path[4096];
    snprintf(path, sizeof path, "%s/list-%d", folder, atomic_fetch_add(&lists, 1));
    int file = open(path, O_RDWR | O_CREAT | O_EXCL, 0600);
    if (file < 0 || ftruncate(file, sizeof(struct list)))
        stop("a list can't be made");
    mine = mmap(NULL, sizeof(struct list), PROT_READ | PROT_WRITE, MAP_SHARED, file, 0);
    if (mine == MAP_FAILED)
        stop("a list can't be mapped");
    close(file);
    mine->clock = which_clock();
    mine->mark = MARK;
}

// One access, which began at `from` and is over.
void record_access(uint64_t from, uint64_t kind, uint64_t thread, uint64_t key, uint64_t found, uint64_t a, uint64_t b, uint64_t c, uint64_t d) {
    uint64_t to = record_clock();
    last_key = key;
    if (!is_open)
        open_list();
    if (!mine)
        return;
    uint64_t count = atomic_load(&mine->count);
    if (count == MOST) {
        atomic_store(&mine->overflow, 1);
        return;
    }
    mine->entries[count] = (struct entry){from, to, kind, thread, key, found, {a, b, c, d}};
    atomic_store(&mine->count, count + 1);
}

// The key of the access that this thread made last.
uint64_t record_last_key(void) {
    return last_key;
}

// How many threads the table of buckets is to serve by now: one more with each fourth call, up to so many.
uint64_t record_grown(uint64_t most) {
    static _Atomic uint64_t calls;
    uint64_t wanted = 1 + atomic_fetch_add(&calls, 1) / 4;
    return wanted < most ? wanted : most;
}
