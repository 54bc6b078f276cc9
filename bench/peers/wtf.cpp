// WebKit's WTF::Lock and WTF::Condition.
#include "config.h"
#include <wtf/Condition.h>
#include <wtf/Lock.h>
#include <wtf/Threading.h>
#include "work.h"

struct Peer {
    static constexpr const char* name = "wtf";
    using Lock = WTF::Lock;
    struct Condition {
        WTF::Condition condition;
        void wait(Lock& lock) { condition.wait(lock); }
        void notify_one() { condition.notifyOne(); }
    };
};

// Dates are no concern of locks, and what sets them up needs much more of WTF.
namespace WTF { void initializeDates() {} }

int main(int argc, char** argv) {
    WTF::initialize();
    return bench::main<Peer>(argc, argv);
}
