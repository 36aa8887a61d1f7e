// The concurrent map of oneTBB, a skip list. It takes nothing out beside other calls, so a del leaves a tombstone as the value.
#pragma once
#include <atomic>
#include <cstdint>
#include <oneapi/tbb/concurrent_map.h>
#include <optional>

template <class Key> class TombstoneMap {
public:
    std::optional<uint64_t> get(const Key &key) {
        const auto found = map_.find(key);
        if (found == map_.end()) return {};
        const uint64_t value = found->second.load(std::memory_order_acquire);
        if (value == tombstone) return {};
        return value;
    }

    bool put(const Key &key, uint64_t value) {
        auto found = map_.find(key);
        if (found == map_.end()) {
            const auto [place, added] = map_.emplace(key, value);
            if (added) return true;
            found = place;
        }
        uint64_t expected = tombstone;
        return found->second.compare_exchange_strong(expected, value);
    }

    bool del(const Key &key) {
        const auto found = map_.find(key);
        if (found == map_.end()) return false;
        uint64_t value = found->second.load(std::memory_order_acquire);
        while (value != tombstone)
            if (found->second.compare_exchange_weak(value, tombstone)) return true;
        return false;
    }

    // Calls `visit(key, value)` for the first pairs from `low` on, so many at most.
    template <class Visit> void first(const Key &low, uint64_t most, const Visit &visit) {
        for (auto at = map_.lower_bound(low); at != map_.end() && most > 0; ++at) {
            const uint64_t value = at->second.load(std::memory_order_acquire);
            if (value == tombstone) continue;
            visit(at->first, value);
            most--;
        }
    }

    // Takes all pairs out, while no other call is made. To take one out would take a walk through half of the map.
    void clear() { map_.clear(); }

private:
    static constexpr uint64_t tombstone = UINT64_MAX;
    tbb::concurrent_map<Key, std::atomic<uint64_t>> map_;
};
