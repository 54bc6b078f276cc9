// What it costs that words and values lie in two blocks: the round of `count`, with each value beside its word, or apart from it.
//
//     c++ -O2 -pthread bench/two_blocks.cpp -o /tmp/two_blocks && /tmp/two_blocks apart 4 1024 2000000
//
// The first word is one of
//   beside           one line of the cache for each lock
//   word             the same, and the value is an atomic word, read and written by single steps that are sequentially consistent
//   apart            two lines, as the lot has them
//   asked            apart, where the value's line is asked for before the exchange, to be read
//   asked_to_write   the same, to be written: x86's prefetchw, which a compiler gives for __builtin_prefetch under -mprfchw alone
//   written_first    apart, where the slot's tag is written at once and the value is read some fifteen cycles later
// It prints the nanoseconds of a round of all threads.
#include <atomic>
#include <chrono>
#include <cstdint>
#include <cstdio>
#include <cstdlib>
#include <cstring>
#include <sched.h>
#include <thread>
#include <vector>

struct alignas(16) Word {
    std::atomic<uint64_t> held{0};
    union {
        volatile uint64_t value = 0;
        std::atomic<uint64_t> atomic_value;
    };
};

struct alignas(16) Slot {
    volatile uint64_t tag = 1;
    volatile uint64_t value = 0;
};

enum class Way { beside, word, apart, asked, asked_to_write, written_first };

static std::atomic<int> here{0};

static void ask_to_write(const Slot& slot) {
#if defined(__x86_64__)
    asm volatile("prefetchw %0" : : "m"(slot));
#else
    __builtin_prefetch(&slot, 1);
#endif
}

static const char* const WORDS[] = {"beside", "word", "apart", "asked", "asked_to_write", "written_first"};

static bool read_way(const char* word, Way& way) {
    for (int each = 0; each < 6; each++)
        if (!strcmp(word, WORDS[each])) {
            way = Way(each);
            return true;
        }
    return false;
}

// A number that is 0 and that the processor knows fifteen cycles after the word's exchange: by five multiplications, each of the one before.
static uint64_t known_late(uint64_t found) {
#if defined(__x86_64__)
    for (int each = 0; each < 5; each++)
        asm volatile("imulq %0, %0" : "+r"(found));
#endif
    return found;
}

static void add_one(Word& word, Slot& slot, Way way, uint64_t found) {
    if (way == Way::beside) {
        word.value = word.value + 1;
        return;
    }
    if (way == Way::word) {
        word.atomic_value.store(word.atomic_value.load() + 1);
        return;
    }
    if (way == Way::written_first)
        slot.tag = 0;
    uint64_t value = way == Way::written_first ? (&slot.value)[known_late(found)] : slot.value;
    slot.tag = 0;
    slot.value = value + 1;
    slot.tag = 1;
}

// Gets the lock. The answer is 0, the word that was found, as the exchange gives it: the compiler doesn't know which number it is.
static uint64_t get(Word& word) {
    for (;;) {
        uint64_t found = 0;
#if defined(__x86_64__)
        asm volatile("lock cmpxchgq %2, %1" : "+a"(found), "+m"(word.held) : "r"(uint64_t(1)) : "memory", "cc");
        uint64_t answer = found;
        asm volatile("" : "+r"(answer));
#else
        word.held.compare_exchange_strong(found, 1);
        uint64_t answer = found;
#endif
        if (found == 0)
            return answer;
        for (int yields = 0; yields < 8; yields++)
            sched_yield();
    }
}

static void work(int thread, int threads, long rounds, std::vector<Word>& words, std::vector<Slot>& slots, Way way) {
    uint64_t random = 88172645463325252u + uint64_t(thread) * 0x9E3779B97F4A7C15u;
    here.fetch_add(1);
    while (here.load() < threads)
        sched_yield();
    for (long round = 0; round < rounds; round++) {
        random ^= random << 13;
        random ^= random >> 7;
        random ^= random << 17;
        size_t key = random % words.size();
        if (way == Way::asked)
            __builtin_prefetch(&slots[key], 0);
        if (way == Way::asked_to_write)
            ask_to_write(slots[key]);
        uint64_t found = get(words[key]);
        add_one(words[key], slots[key], way, found);
        uint64_t owned = 1;
        words[key].held.compare_exchange_strong(owned, 0);
    }
}

int main(int count, char** arguments) {
    Way way;
    if (count != 5 || !read_way(arguments[1], way))
        return 1;
    int threads = atoi(arguments[2]);
    std::vector<Word> words(strtoul(arguments[3], nullptr, 10));
    std::vector<Slot> slots(words.size());
    long rounds = atol(arguments[4]);
    std::vector<std::thread> all;
    auto begin = std::chrono::steady_clock::now();
    for (int thread = 0; thread < threads; thread++)
        all.emplace_back([&, thread] { work(thread, threads, rounds, words, slots, way); });
    for (auto& one : all)
        one.join();
    std::chrono::duration<double, std::nano> time = std::chrono::steady_clock::now() - begin;
    printf("%s %d %zu: %.1f\n", arguments[1], threads, words.size(), time.count() / (double(threads) * rounds));
}
