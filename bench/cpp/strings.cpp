// Maps from strings: that of the library, and std's under one lock of readers and writers.
#include "locked.hpp"
#include "strings.hpp"
#include <citrus_string_map.hpp>
#include <map>
#include <shared_mutex>
#include <unordered_map>

using Sorted = std::map<std::string, uint64_t>;
using Hashed = std::unordered_map<std::string, uint64_t>;

uint64_t sum_from(const Sorted &pairs, const std::string &low, uint64_t most) {
    uint64_t sum = 0;
    for (auto at = pairs.lower_bound(low); at != pairs.end() && most > 0; ++at, most--) sum += at->second + at->first.size();
    return sum;
}

// It has no order.
uint64_t sum_from(const Hashed &, const std::string &, uint64_t) { exit(2); }

class CitrusStrings {
    using Map = citrus::string_map<uint64_t>;

public:
    static constexpr bool takes_out = true;

    CitrusStrings(uint64_t pairs, size_t threads) {
        maps_.emplace_back(citrus::options{uint32_t(pairs), uint32_t(threads), citrus::waiter::eer, fixed_salt});
        while (maps_.size() < threads) maps_.push_back(maps_[0].share());
    }

    struct Client {
        Map &map;

        uint64_t get(const std::string &text) {
            const auto found = map.get(text);
            return found ? *found : 0;
        }

        uint64_t range(const std::string &low, uint64_t most) {
            uint64_t sum = 0;
            map.first(low, most, [&sum](std::string_view text, uint64_t value) { sum += value + text.size(); });
            return sum;
        }

        bool insert(const std::string &text, uint64_t value) { return map.insert(text, value); }
        bool remove(const std::string &text) { return map.retire(text); }
        void settle() { map.flush(); }
    };

    Client client(size_t place) { return {maps_[place]}; }

private:
    // So that the tree of each run is the same.
    static constexpr uint64_t fixed_salt = 0x9e3779b97f4a7c15;
    std::vector<Map> maps_;
};

template <class Pairs> class LockedStrings {
    using Map = LockedMap<Pairs, std::shared_mutex, std::shared_lock>;

public:
    static constexpr bool takes_out = true;

    LockedStrings(uint64_t, size_t) {}

    struct Client {
        Map &map;

        uint64_t get(const std::string &text) { return map.get(text).value_or(0); }
        uint64_t range(const std::string &low, uint64_t most) {
            return map.read([&](const Pairs &pairs) { return sum_from(pairs, low, most); });
        }
        bool insert(const std::string &text, uint64_t value) { return map.put(text, value); }
        bool remove(const std::string &text) { return map.del(text); }
        void settle() {}
    };

    Client client(size_t) { return {map_}; }

private:
    Map map_;
};

template <class Map> void measure_map(const char *series, const StringOptions &options) {
    measure_strings(series, options, [](uint64_t pairs, size_t threads) { return std::make_unique<Map>(pairs, threads); });
}

int main(int count, char **words) {
    const StringOptions options = string_options(count, words);
    measure_map<CitrusStrings>("string_map", options);
    measure_map<LockedStrings<Sorted>>("std::map", options);
    measure_map<LockedStrings<Hashed>>("std::unordered_map", options);
}
