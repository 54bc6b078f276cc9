// The C library's mutex and condition.
#include <pthread.h>
#include "work.h"

struct Peer {
    static constexpr const char* name = "pthread";
    struct Lock {
        pthread_mutex_t mutex = PTHREAD_MUTEX_INITIALIZER;
        void lock() { pthread_mutex_lock(&mutex); }
        void unlock() { pthread_mutex_unlock(&mutex); }
    };
    struct Condition {
        pthread_cond_t condition = PTHREAD_COND_INITIALIZER;
        void wait(Lock& lock) { pthread_cond_wait(&condition, &lock.mutex); }
        void notify_one() { pthread_cond_signal(&condition); }
    };
};

int main(int argc, char** argv) { return bench::main<Peer>(argc, argv); }
