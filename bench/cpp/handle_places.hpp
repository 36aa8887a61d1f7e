// A handle of the C library as a place of a dictionary. Where many threads update, updates may take turns.
#pragma once
#include "../fixed_salt.h"
#include "client.hpp"
#include <citrus.hpp>
#include <mutex>
#include <optional>

struct NoTurns {
    void lock() {}
    void unlock() {}
};

template <class Turns> struct HandlePlace {
    citrus::handle &handle;
    Turns &turns;

    std::optional<uint64_t> get(uint64_t key) { return handle.get(key); }

    bool put(uint64_t key, uint64_t value) {
        const std::lock_guard<Turns> turn(turns);
        return handle.insert(key, value);
    }

    bool del(uint64_t key) {
        const std::lock_guard<Turns> turn(turns);
        return handle.remove(key).has_value();
    }
};

template <class Turns> struct HandleClient {
    HandlePlace<Turns> place;

    bool may_call() const { return true; }
    uint64_t call(const Op &op) { return PlainClient<HandlePlace<Turns>>{place}.call(op); }
};
