// The work that every peer in C++ does, over a lock and a condition of its own. See docs/BENCH.md for what each command means.
#pragma once
#include <algorithm>
#include <atomic>
#include <chrono>
#include <cstdint>
#include <cstdio>
#include <cstdlib>
#include <cstring>
#include <memory>
#include <sched.h>
#include <thread>
#include <type_traits>
#include <utility>
#include <vector>

namespace bench {

inline uint64_t now() {
    timespec time;
    clock_gettime(CLOCK_MONOTONIC, &time);
    return uint64_t(time.tv_sec) * 1000000000u + uint64_t(time.tv_nsec);
}

inline void spend(uint64_t nanos) {
    uint64_t begin = now();
    for (uint64_t i = 0; i < nanos; i++) {
        if (now() - begin >= nanos)
            return;
    }
}

struct Random {
    uint64_t word;
    explicit Random(uint64_t worker) : word(worker * 0x9e3779b97f4a7c15u) {}
    uint64_t next() {
        word = word * 6364136223846793005u + 1442695040888963407u;
        return word >> 32;
    }
};

inline size_t key_of(uint64_t word, size_t locks) {
    return std::min<size_t>((word * locks) >> 32, locks - 1);
}

constexpr size_t CLASSES = 992;

struct Times {
    std::vector<uint64_t> counts = std::vector<uint64_t>(CLASSES);
    uint64_t most = 0;

    static size_t class_of(uint64_t nanos) {
        size_t doubling = 0;
        while (nanos >= 32) {
            nanos /= 2;
            doubling++;
        }
        return 16 * doubling + nanos;
    }
    static uint64_t least_of(size_t index) {
        if (index < 32)
            return index;
        return uint64_t(index % 16 + 16) << (index / 16 - 1);
    }
    void note(uint64_t nanos) {
        counts[class_of(nanos)]++;
        most = std::max(most, nanos);
    }
    // Counts a time as often as it has nanoseconds.
    void weigh(uint64_t nanos) {
        counts[class_of(nanos)] += nanos;
        most = std::max(most, nanos);
    }
    void add(const Times& other) {
        for (size_t i = 0; i < CLASSES; i++)
            counts[i] += other.counts[i];
        most = std::max(most, other.most);
    }
    uint64_t part(uint64_t of_thousand) const {
        uint64_t all = 0, seen = 0;
        for (uint64_t count : counts)
            all += count;
        for (size_t i = 0; i < CLASSES; i++) {
            seen += counts[i];
            if (seen >= std::max<uint64_t>(all * of_thousand / 1000, 1))
                return least_of(i);
        }
        return most;
    }
};

// How evenly threads share the rounds, in parts of all.
struct Shares {
    static constexpr uint64_t PARTS = 500000;
    uint64_t count = 0, sum = 0, squares = 0, low = PARTS, high = 0;
    void note(uint64_t rounds, uint64_t all) {
        uint64_t part = rounds * PARTS / std::max<uint64_t>(all, 1);
        count++, sum += part, squares += part * part;
        low = std::min(low, part), high = std::max(high, part);
    }
    uint64_t of_mean(uint64_t part) const { return sum ? part * count * 1000 / sum : 0; }
    uint64_t jain() const { return squares ? 1000 * (sum * sum) / (count * squares) : 0; }
};

// Whether a lock has an unlock that hands it over.
template<typename L, typename = void> struct HandsOver : std::false_type {};
template<typename L> struct HandsOver<L, std::void_t<decltype(std::declval<L&>().unlockFairly())>> : std::true_type {};

struct Done {
    uint64_t begin = 0, end = 0, rounds = 0;
    Times times;
};

struct Meeting {
    std::atomic<uint64_t> here { 0 };
    std::atomic<uint64_t> over { 0 };
    void join(uint64_t threads) {
        here.fetch_add(1);
        while (here.load() < threads)
            sched_yield();
    }
};

// Steps that threads take one after the other.
struct Steps {
    std::atomic<uint64_t> made { 0 };
    void make() { made.fetch_add(1); }
    void await_made(uint64_t steps) {
        while (made.load() < steps)
            sched_yield();
    }
};

// How often a thread sleeps and is woken, and how many nanoseconds after it asked for a held lock it sleeps.
constexpr uint64_t SLEEPS = 100, ASLEEP_AFTER = 200000;

constexpr uint64_t PLACES = 16;

// P has: name, Lock (lock, unlock), Condition (wait(Lock&), notify_one).
template<typename P>
struct Work {
    struct Cell {
        typename P::Lock lock;
        uint64_t number = 0;
    };
    size_t threads = 0, locks = 1, producers = 0;
    uint64_t rounds = 0, millis = 0, held = 0, outside = 0, permits = 0;
    uint64_t opening = 0, sleeping = 0;
    bool fairly = false;
    std::unique_ptr<Cell[]> cells;
    typename P::Condition not_full, not_empty;
    std::unique_ptr<typename P::Condition[]> turns;
    Meeting meeting;
    std::vector<Done> done;

    void count(size_t worker) {
        Random random(worker);
        for (uint64_t i = 0; i < rounds; i++) {
            Cell& cell = cells[key_of(random.next(), locks)];
            cell.lock.lock();
            cell.number++;
            cell.lock.unlock();
        }
        done[worker].rounds = rounds;
    }
    void share(size_t worker) {
        uint64_t made = 0;
        Cell& cell = cells[0];
        while (!meeting.over.load()) {
            cell.lock.lock();
            cell.number++;
            cell.lock.unlock();
            made++;
        }
        done[worker].rounds = made;
    }
    void wait(size_t worker) {
        Times& times = done[worker].times;
        uint64_t made = 0;
        Cell& cell = cells[0];
        while (!meeting.over.load()) {
            uint64_t asked = now();
            cell.lock.lock();
            uint64_t owned = now();
            cell.number++;
            spend(held);
            cell.lock.unlock();
            times.note(owned - asked);
            made++;
            spend(outside);
        }
        done[worker].rounds = made;
    }
    void let_go(Cell& cell) {
        if constexpr (HandsOver<typename P::Lock>::value) {
            if (fairly)
                return cell.lock.unlockFairly();
        }
        cell.lock.unlock();
    }
    void fair(size_t worker) {
        Times& times = done[worker].times;
        Random random(worker);
        uint64_t made = 0;
        while (!meeting.over.load()) {
            Cell& cell = cells[key_of(random.next(), locks)];
            uint64_t asked = now();
            cell.lock.lock();
            uint64_t owned = now();
            cell.number++;
            spend(held);
            let_go(cell);
            times.weigh(owned - asked);
            made++;
            spend(outside);
        }
        done[worker].rounds = made;
    }
    void relay(size_t worker) {
        Cell& cell = cells[0];
        bool produces = worker < producers;
        uint64_t consumers = threads - producers, all = producers * rounds;
        uint64_t mine = produces ? rounds : all / consumers + (worker - producers < all % consumers ? 1 : 0);
        for (uint64_t i = 0; i < mine; i++) {
            cell.lock.lock();
            if (produces) {
                while (cell.number >= PLACES)
                    not_full.wait(cell.lock);
                cell.number++;
            } else {
                while (cell.number == 0)
                    not_empty.wait(cell.lock);
                cell.number--;
            }
            cell.lock.unlock();
            if (produces)
                not_empty.notify_one();
            else
                not_full.notify_one();
        }
        done[worker].rounds = produces ? rounds : 0;
    }

    void notify(size_t worker) {
        for (uint64_t i = 0; i < rounds; i++)
            not_empty.notify_one();
        done[worker].rounds = rounds;
    }
    void take_turns(size_t worker) {
        Cell& cell = cells[0];
        for (uint64_t i = 0; i < rounds; i++) {
            cell.lock.lock();
            while (cell.number % threads != worker)
                turns[worker].wait(cell.lock);
            cell.number++;
            cell.lock.unlock();
            turns[(worker + 1) % threads].notify_one();
        }
        done[worker].rounds = rounds;
    }
    // The number is how many permits are left.
    void take_permits(size_t worker) {
        Cell& cell = cells[0];
        for (uint64_t i = 0; i < rounds; i++) {
            cell.lock.lock();
            while (cell.number == 0)
                not_empty.wait(cell.lock);
            cell.number--;
            cell.lock.unlock();
            cell.lock.lock();
            cell.number++;
            cell.lock.unlock();
            not_empty.notify_one();
        }
        done[worker].rounds = rounds;
    }

    using Way = void (Work::*)(size_t);

    void run(Way way) {
        uint64_t begin = now();
        cells = std::make_unique<Cell[]>(locks);
        opening = now() - begin;
        turns = std::make_unique<typename P::Condition[]>(threads);
        cells[0].number = permits;
        done = std::vector<Done>(threads);
        size_t all = threads + (millis ? 1 : 0);
        std::vector<std::thread> crew;
        for (size_t worker = 0; worker < threads; worker++) {
            crew.emplace_back([this, way, worker, all] {
                meeting.join(all);
                uint64_t begin = now();
                (this->*way)(worker);
                done[worker].begin = begin;
                done[worker].end = now();
            });
        }
        if (millis) {
            meeting.join(all);
            std::this_thread::sleep_for(std::chrono::milliseconds(millis));
            meeting.over.store(1);
        }
        for (auto& thread : crew)
            thread.join();
    }

    // The time from an unlock until the thread that slept for the lock owns it, half of the times being shorter.
    void measure_sleeper() {
        Steps steps;
        std::atomic<uint64_t> unlocked { 0 };
        Times times;
        std::thread sleeper([&] {
            Random random(1);
            for (uint64_t round = 0; round < SLEEPS; round++) {
                Cell& cell = cells[key_of(random.next(), locks)];
                steps.await_made(3 * round + 1);
                steps.make();
                cell.lock.lock();
                uint64_t owned = now();
                cell.lock.unlock();
                times.note(owned - unlocked.load());
                steps.make();
            }
        });
        Random random(1);
        for (uint64_t round = 0; round < SLEEPS; round++) {
            Cell& cell = cells[key_of(random.next(), locks)];
            cell.lock.lock();
            steps.make();
            steps.await_made(3 * round + 2);
            spend(ASLEEP_AFTER);
            unlocked.store(now());
            cell.lock.unlock();
            steps.await_made(3 * round + 3);
        }
        sleeper.join();
        sleeping = times.part(500);
    }

    void tell_fairness(const Times& times, uint64_t made) const {
        Shares shares;
        for (auto& one : done)
            shares.note(one.rounds, made);
        printf(" longest=%llu weighed50=%llu weighed99=%llu least=%llu most=%llu jain=%llu", (unsigned long long)times.most,
            (unsigned long long)times.part(500), (unsigned long long)times.part(990), (unsigned long long)shares.of_mean(shares.low),
            (unsigned long long)shares.of_mean(shares.high), (unsigned long long)shares.jain());
    }

    void tell_keys() {
        uint64_t begin = now();
        cells.reset();
        printf(" open=%llu close=%llu register=0 sleeper=%llu", (unsigned long long)opening, (unsigned long long)(now() - begin),
            (unsigned long long)sleeping);
    }

    int tell(int argc, char** argv) {
        uint64_t begin = ~uint64_t(0), end = 0, sum = 0, made = 0, least = ~uint64_t(0), most = 0;
        Times times;
        for (auto& one : done) {
            begin = std::min(begin, one.begin);
            end = std::max(end, one.end);
            made += one.rounds;
            least = std::min(least, one.rounds);
            most = std::max(most, one.rounds);
            times.add(one.times);
        }
        for (size_t i = 0; i < locks; i++)
            sum += cells[i].number;
        printf("%s", P::name);
        for (int i = 1; i < argc; i++)
            printf(" %s", argv[i]);
        printf(" sum=%llu rounds=%llu ns=%llu", (unsigned long long)sum, (unsigned long long)made, (unsigned long long)(end - begin));
        if (!strcmp(argv[1], "share"))
            printf(" least=%llu most=%llu", (unsigned long long)least, (unsigned long long)most);
        if (!strcmp(argv[1], "wait"))
            printf(" p50=%llu p99=%llu p999=%llu most=%llu", (unsigned long long)times.part(500), (unsigned long long)times.part(990),
                (unsigned long long)times.part(999), (unsigned long long)times.most);
        if (!strcmp(argv[1], "fair"))
            tell_fairness(times, made);
        if (!strcmp(argv[1], "keys"))
            tell_keys();
        printf("\n");
        return 0;
    }
};

template<typename P>
int main(int argc, char** argv) {
    Work<P> work;
    auto number = [&](int i) { return strtoull(argv[i], nullptr, 10); };
    auto is = [&](const char* word, int words) { return argc == words && !strcmp(argv[1], word); };
    if (is("count", 5)) {
        work.threads = number(2), work.locks = number(3), work.rounds = number(4);
        work.run(&Work<P>::count);
    } else if (is("share", 4)) {
        work.threads = number(2), work.millis = number(3);
        work.run(&Work<P>::share);
    } else if (is("relay", 5)) {
        work.producers = number(2), work.threads = number(2) + number(3), work.rounds = number(4);
        work.run(&Work<P>::relay);
    } else if (is("wait", 6)) {
        work.threads = number(2), work.held = number(3), work.outside = number(4), work.millis = number(5);
        work.run(&Work<P>::wait);
    } else if (is("fair", 8) && (!strcmp(argv[7], "clock") || (HandsOver<typename P::Lock>::value && !strcmp(argv[7], "always")))) {
        work.threads = number(2), work.locks = number(3), work.held = number(4), work.outside = number(5), work.millis = number(6);
        work.fairly = !strcmp(argv[7], "always");
        work.run(&Work<P>::fair);
    } else if (is("keys", 5)) {
        work.threads = number(2), work.locks = number(3), work.rounds = number(4);
        work.run(&Work<P>::count);
        if (work.threads > 1)
            work.measure_sleeper();
    } else if (is("notify", 4)) {
        work.threads = number(2), work.rounds = number(3);
        work.run(&Work<P>::notify);
    } else if (is("turns", 4)) {
        work.threads = number(2), work.rounds = number(3);
        work.run(&Work<P>::take_turns);
    } else if (is("permits", 5)) {
        work.threads = number(2), work.permits = number(3), work.rounds = number(4);
        work.run(&Work<P>::take_permits);
    } else if (argc == 2 && !strcmp(argv[1], "sizes")) {
        printf("%s lock=%zu condition=%zu\n", P::name, sizeof(typename P::Lock), sizeof(typename P::Condition));
        return 0;
    } else {
        fprintf(stderr, "bad command line\n");
        return 1;
    }
    return work.tell(argc, argv);
}

} // namespace bench
