// A map of std under one lock.
#pragma once
#include "measuring.hpp"
#include <mutex>
#include <optional>

// `Shared` is the lock that a get takes.
template <class Pairs, class Mutex, template <class> class Shared> class LockedMap {
public:
    using Key = typename Pairs::key_type;

    std::optional<uint64_t> get(const Key &key) {
        return read([&key](const Pairs &pairs) -> std::optional<uint64_t> {
            const auto found = pairs.find(key);
            if (found == pairs.end()) return {};
            return found->second;
        });
    }

    bool put(const Key &key, uint64_t value) {
        const std::lock_guard<Mutex> lock(mutex_);
        return pairs_.emplace(key, value).second;
    }

    bool del(const Key &key) {
        const std::lock_guard<Mutex> lock(mutex_);
        return pairs_.erase(key) != 0;
    }

    // Does something with the pairs, beside others that do so too where the lock is one of readers and writers.
    template <class Work> auto read(const Work &work) {
        const Shared<Mutex> lock(mutex_);
        return work(pairs_);
    }

private:
    Mutex mutex_;
    Pairs pairs_;
};
