// Abseil's absl::Mutex and absl::CondVar.
#include <absl/synchronization/mutex.h>
#include "work.h"

struct Peer {
    static constexpr const char* name = "absl";
    struct Lock {
        absl::Mutex mutex;
        void lock() { mutex.Lock(); }
        void unlock() { mutex.Unlock(); }
    };
    struct Condition {
        absl::CondVar condition;
        void wait(Lock& lock) { condition.Wait(&lock.mutex); }
        void notify_one() { condition.Signal(); }
    };
};

int main(int argc, char** argv) {
    // A library that was built for debugging would look for deadlocks at each lock.
    absl::SetMutexDeadlockDetectionMode(absl::OnDeadlockCycle::kIgnore);
    return bench::main<Peer>(argc, argv);
}
