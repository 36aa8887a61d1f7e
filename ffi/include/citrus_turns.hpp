// Turns of updates, for C++17: for programs with many more threads that update than processors. Where the system stopped a thread that has the
// lock of a node, updates of others yield until it runs again, and spin where they have locks themselves. With one update under way at a time
// none waits for the lock of another one, and who waits for a turn yields the processor, and then sleeps. With as many threads as processors
// turns make updates slower. Lookups, lists and waits take none.
//
//     citrus::turns turns;                                                  // one for all handles of an index
//     { const std::lock_guard<citrus::turns> turn(turns); mine.insert(5, 50); }
//
// A thread that is in a section of the index takes no turn: whoever has one may wait for the section. `citrus::map` has turns of its own where
// it is made with `updates::in_turn`.
#ifndef CITRUS_TURNS_HPP
#define CITRUS_TURNS_HPP

#include <mutex>
#include <thread>

namespace citrus {

class turns {
public:
    void lock() {
        for (int i = 0; i < tries; i++) {
            if (mutex_.try_lock()) return;
            std::this_thread::yield();
        }
        mutex_.lock();
    }

    bool try_lock() { return mutex_.try_lock(); }

    void unlock() { mutex_.unlock(); }

private:
    // So often a thread yields the processor before it sleeps.
    static constexpr int tries = 8;

    std::mutex mutex_;
};

} // namespace citrus
#endif
