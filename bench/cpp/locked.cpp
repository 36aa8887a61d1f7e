// A std::map under one lock.
#include "client.hpp"
#include "locked.hpp"
#include <map>
#include <shared_mutex>

template <class Mutex, template <class> class Shared> struct OfRoom : LockedMap<std::map<uint64_t, uint64_t>, Mutex, Shared> {
    explicit OfRoom(const Room &) {}

    PlainClient<OfRoom> client(uint32_t) { return {*this}; }
};

template <class Map> void measure_map(const char *name, const Options &options) {
    measure_all(name, options, [](const Room &room) { return std::make_unique<Map>(room); });
}

int main(int count, char **words) {
    const Options options = options_of(count, words);
    measure_map<OfRoom<std::mutex, std::lock_guard>>("std::map under mutex", options);
    measure_map<OfRoom<std::shared_mutex, std::shared_lock>>("std::map under shared_mutex", options);
}
