// nsync's nsync_mu and nsync_cv.
#include <nsync.h>
#include "work.h"

struct Peer {
    static constexpr const char* name = "nsync";
    struct Lock {
        nsync::nsync_mu mutex = NSYNC_MU_INIT;
        void lock() { nsync::nsync_mu_lock(&mutex); }
        void unlock() { nsync::nsync_mu_unlock(&mutex); }
    };
    struct Condition {
        nsync::nsync_cv condition = NSYNC_CV_INIT;
        void wait(Lock& lock) { nsync::nsync_cv_wait(&condition, &lock.mutex); }
        void notify_one() { nsync::nsync_cv_signal(&condition); }
    };
};

int main(int argc, char** argv) { return bench::main<Peer>(argc, argv); }
