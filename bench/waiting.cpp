// The waiting of the lot's lock in C++, for trying other numbers of yields and looks: the same word, queue, wake tokens and fair releases, over one
// lock or many, without proofs. The environment sets how a thread waits that has missed its exchange:
//
//   YIELDS=k1   how often it yields before each look, a digit for each, the last one for all that follow (a is 10, b is 11, ..)
//   FEW=01      the same where fewer than two seek a lock now, by a count of those that missed their exchange
//   ONE=81      the same where one other seeks a lock now; where it is not set, but YIELDS is, that
//   PAUSES=     how many pauses of the processor come before each look of a thread that seeks a lock alone; then it yields by FEW
//   FOUND=1     the first look is the word that the missed exchange found. 0: it is a load more; 2: a lock that was found free, with threads
//               parked, is lined up for too, and so taken at once
//   FIRST=0     1: where a thread that seeks alone sees at its first look that the lock is free, it takes it (with FOUND=0)
//   VALUE=0     1: a lock has a value in a cache line of its own, which its owner takes out and puts back, as a lot's does
//   TRIES=2     how often a thread whose exchange missed tries again, after eight pauses each, where nobody seeks
//   DIRECT=1    a thread that seeks among others tries after its yields by one exchange, without a look. 0: it looks; 2: by a load and an exchange
//   SEEKING=2   0: FEW is where at most two threads are there
//   CROWD=4     where so many seek a lock now, it yields by CROWDED=c1
//   PARKED=0    0: where it sees that somebody is parked, it lines up at once; 1: it yields first, as where the lock is taken
//   QUEUED=8    how often it yields when it is queued, before it sleeps
//
// The values above are the lot's own, and hold where none is set. It takes the commands of the peers: YIELDS=c1 waiting count 4 1 100000.
// What came of it stands in docs/log/bench.md.
#include <algorithm>
#include <cstdlib>
#include <cstring>
#include <immintrin.h>
#include <linux/futex.h>
#include <sys/syscall.h>
#include <unistd.h>
#include <utility>
#include "peers/work.h"

namespace {

constexpr int MOST_SPINS = 40;
constexpr uint64_t HELD = 1, PARKED = 2, BOTH = 3;

struct Ways {
    int few[32], one[32], many[32], crowded[32], pauses[32];
    int last_few = 0, last_one = 0, last_many = 0, last_crowded = 0, last_pauses = 0, queued = 8;
    bool yields_where_parked = false, takes_at_first = false, has_value = false;
    size_t threads = 0;
    int seeking_few = 0, crowd = 9, tries = 2, direct = 1, found = 1;
    alignas(64) std::atomic<int> seeking { 0 };
    char rest_of_its_line[60];

    static bool is_set(const char* name) { return getenv(name) && !strcmp(getenv(name), "1"); }
    static void read(const char* name, const char* usual, int* ways, int& last) {
        const char* text = getenv(name) ? getenv(name) : usual;
        for (last = -1; *text && last < 31; text++)
            ways[++last] = *text <= '9' ? *text - '0' : *text - 'a' + 10;
    }
    int seek_now() const { return seeking_few ? seeking.load() : threads <= 2 ? 0 : 2; }
    bool are_few(int now) const { return now < std::max(seeking_few, 1); }
    int before_look(int look) const {
        int now = seek_now();
        if (are_few(now))
            return few[std::min(look, last_few)];
        if (seeking_few && now == 2)
            return one[std::min(look, last_one)];
        return now < crowd ? many[std::min(look, last_many)] : crowded[std::min(look, last_crowded)];
    }
} ways;

void sleep_on(std::atomic<uint64_t>& word, uint32_t value) { syscall(SYS_futex, &word, FUTEX_WAIT_PRIVATE, value, nullptr, nullptr, 0); }
void wake_one(std::atomic<uint64_t>& word) { syscall(SYS_futex, &word, FUTEX_WAKE_PRIVATE, 1, nullptr, nullptr, 0); }

struct Mutex {
    std::atomic<uint64_t> word { 0 };
    void lock() {
        uint64_t free = 0;
        if (word.compare_exchange_strong(free, 1))
            return;
        while (word.exchange(2) != 0)
            sleep_on(word, 2);
    }
    void unlock() {
        if (word.exchange(0) == 2)
            wake_one(word);
    }
};

// Where a thread sleeps: 0 idle, 1 woken, 2 asleep; and its wake token and 1.
struct alignas(64) Record {
    std::atomic<uint64_t> state { 0 }, letter { 0 };
    Record* next = nullptr;
    const void* key = nullptr;

    bool has_been_woken() { return state.load() != 0 && state.exchange(0) == 1; }
    void sleep_once() {
        for (int i = 0; i < ways.queued; i++) {
            if (has_been_woken())
                return;
            sched_yield();
        }
        while (!has_been_woken()) {
            uint64_t idle = 0;
            if (state.compare_exchange_strong(idle, 2))
                sleep_on(state, 2);
        }
    }
    uint64_t await_letter() {
        for (;;) {
            if (uint64_t found = letter.exchange(0))
                return found;
            sleep_once();
        }
    }
    void wake() {
        if (state.exchange(1) == 2)
            wake_one(state);
    }
};
Record& mine() {
    static Record records[256];
    static std::atomic<size_t> taken { 0 };
    static thread_local Record* own = nullptr;
    if (!own)
        own = &records[taken.fetch_add(1)];
    return *own;
}
uint64_t random_word() {
    static thread_local bench::Random random(reinterpret_cast<uintptr_t>(&mine()));
    return random.next();
}

struct alignas(64) Bucket {
    Mutex lock;
    Record *first = nullptr, *last = nullptr;
    uint64_t next_fair = 0;

    void enqueue(Record& record, const void* key) {
        record.next = nullptr;
        record.key = key;
        (last ? last->next : first) = &record;
        last = &record;
    }
    Record* dequeue(const void* key) {
        Record *before = nullptr, *found = first;
        while (found && found->key != key)
            before = std::exchange(found, found->next);
        if (!found)
            return nullptr;
        (before ? before->next : first) = found->next;
        if (last == found)
            last = before;
        return found;
    }
};
Bucket& bucket_of(const void* key) {
    static Bucket buckets[1021];
    return buckets[reinterpret_cast<uintptr_t>(key) / 128 % 1021];
}

struct alignas(128) Lock {
    std::atomic<uint64_t> word { 0 };
    // The slot: whether the value lies there, and the value; and the value while it is out.
    alignas(64) volatile uint64_t lies = 1;
    volatile uint64_t value = 0;
    uint64_t out = 0;

    void lock() {
        uint64_t found = 0;
        if (!word.compare_exchange_strong(found, HELD))
            get_slowly(ways.found ? found : word.load());
        if (ways.has_value && lies) {
            out = value;
            lies = 0;
        }
    }
    void unlock() {
        if (ways.has_value) {
            value = out;
            lies = 1;
        }
        uint64_t held = HELD;
        if (!word.compare_exchange_strong(held, 0))
            unpark();
    }
    // As the lot's fetch-or: a load, and exchanges.
    bool take() {
        uint64_t found = word.load();
        while (!word.compare_exchange_strong(found, found | HELD)) { }
        return !(found & HELD);
    }
    bool take_free() {
        uint64_t free = 0;
        return word.compare_exchange_strong(free, HELD);
    }
    bool try_again(uint64_t first) {
        for (int i = first == HELD && ways.seek_now() == 0 ? ways.tries : 0; i > 0; i--) {
            for (int pause = 0; pause < 8; pause++)
                _mm_pause();
            if (take_free())
                return true;
        }
        return false;
    }

    // The first look tells whether somebody is parked; where the lock is free again, it is left to its owner.
    __attribute__((noinline, cold)) void get_slowly(uint64_t first) {
        if (ways.found == 2 && (first & PARKED))
            first = BOTH;
        if (first != BOTH && !ways.takes_at_first)
            first = HELD;
        if (try_again(first))
            return;
        if (ways.seeking_few)
            ways.seeking.fetch_add(1);
        seek(first);
        if (ways.seeking_few)
            ways.seeking.fetch_sub(1);
    }
    void seek(uint64_t seen) {
        bool alone = ways.are_few(ways.seek_now());
        int made = 0, looks = 0, paused = alone ? 0 : ways.last_pauses + 1;
        if (seen != BOTH && !alone)
            seen = HELD;
        for (;;) {
            if (!(seen & HELD)) {
                if (take())
                    return;
            } else if (made < MOST_SPINS && (seen == HELD || (ways.yields_where_parked && looks == 0))) {
                if (paused <= ways.last_pauses) {
                    for (int i = ways.pauses[paused++]; i > 0; i--)
                        _mm_pause();
                } else {
                    int end = std::min(MOST_SPINS, made + ways.before_look(looks++));
                    for (; made < end; made++)
                        sched_yield();
                    if (ways.direct && !alone && (ways.direct == 1 ? take_free() : take()))
                        return;
                }
            } else if (line_up(seen == BOTH)) {
                return;
            }
            seen = word.load();
        }
    }
    bool line_up(bool marked) {
        if (take())
            return true;
        uint64_t held = HELD;
        if (!marked && !word.compare_exchange_strong(held, BOTH))
            return false;
        Record& record = mine();
        Bucket& bucket = bucket_of(this);
        bucket.lock.lock();
        bool queued = word.load() == BOTH;
        if (queued)
            bucket.enqueue(record, this);
        bucket.lock.unlock();
        return queued && record.await_letter() == 2;
    }
    __attribute__((noinline, cold)) void unpark() {
        Bucket& bucket = bucket_of(this);
        uint64_t now = bench::now();
        bucket.lock.lock();
        Record* sleeper = bucket.dequeue(this);
        bool fair = sleeper && now > bucket.next_fair;
        if (fair)
            bucket.next_fair = now + random_word() % 1000000;
        else
            word.store(sleeper && bucket.first ? PARKED : 0);
        if (sleeper)
            sleeper->letter.store(fair ? 2 : 1);
        bucket.lock.unlock();
        if (sleeper)
            sleeper->wake();
    }
};

struct alignas(128) Condition {
    std::atomic<uint64_t> flag { 0 };

    void wait(Lock& lock) {
        Record& record = mine();
        Bucket& bucket = bucket_of(this);
        bucket.lock.lock();
        flag.store(1);
        bucket.enqueue(record, this);
        bucket.lock.unlock();
        lock.unlock();
        record.await_letter();
        lock.lock();
    }
    void notify_one() {
        if (!flag.load())
            return;
        Bucket& bucket = bucket_of(this);
        bucket.lock.lock();
        Record* sleeper = bucket.dequeue(this);
        if (!sleeper || !bucket.first)
            flag.store(0);
        if (sleeper)
            sleeper->letter.store(1);
        bucket.lock.unlock();
        if (sleeper)
            sleeper->wake();
    }
};

struct Peer {
    static constexpr const char* name = "waiting";
    using Lock = ::Lock;
    using Condition = ::Condition;
};

} // namespace

int main(int argc, char** argv) {
    Ways::read("YIELDS", "k1", ways.many, ways.last_many);
    Ways::read("FEW", "01", ways.few, ways.last_few);
    Ways::read("ONE", getenv("YIELDS") ? getenv("YIELDS") : "81", ways.one, ways.last_one);
    Ways::read("PAUSES", "", ways.pauses, ways.last_pauses);
    Ways::read("CROWDED", "c1", ways.crowded, ways.last_crowded);
    ways.tries = getenv("TRIES") ? atoi(getenv("TRIES")) : 2;
    ways.direct = getenv("DIRECT") ? atoi(getenv("DIRECT")) : 1;
    ways.seeking_few = getenv("SEEKING") ? atoi(getenv("SEEKING")) : 2;
    ways.found = getenv("FOUND") ? atoi(getenv("FOUND")) : 1;
    ways.crowd = getenv("CROWD") ? atoi(getenv("CROWD")) : 4;
    ways.queued = getenv("QUEUED") ? atoi(getenv("QUEUED")) : 8;
    ways.yields_where_parked = Ways::is_set("PARKED");
    ways.takes_at_first = Ways::is_set("FIRST");
    ways.has_value = Ways::is_set("VALUE");
    for (int i = 2; i < argc && i < (argc > 1 && !strcmp(argv[1], "relay") ? 4 : 3); i++)
        ways.threads += strtoull(argv[i], nullptr, 10);
    return bench::main<Peer>(argc, argv);
}
