// Atomic words of the simulated machine, with the calls of std's that the programs here make.
#pragma once
#include "machine.hpp"
#include <atomic>

template <class T> class Atomic {
public:
    Atomic() : value_{} {}
    Atomic(T value) : value_(value) {}

    T load(std::memory_order = std::memory_order_seq_cst) const {
        machine.access(this, Access::Load);
        return value_;
    }

    void store(T value, std::memory_order order = std::memory_order_seq_cst) {
        machine.access(this, order == std::memory_order_seq_cst ? Access::Locked : Access::Store);
        value_ = value;
    }

    T exchange(T value, std::memory_order = std::memory_order_seq_cst) {
        return change([value](T) { return value; });
    }

    T fetch_add(T more, std::memory_order = std::memory_order_seq_cst) {
        return change([more](T old) { return T(old + more); });
    }

    T fetch_sub(T less, std::memory_order = std::memory_order_seq_cst) {
        return change([less](T old) { return T(old - less); });
    }

    T fetch_xor(T bits, std::memory_order = std::memory_order_seq_cst) {
        return change([bits](T old) { return T(old ^ bits); });
    }

    bool compare_exchange_strong(T &expected, T value, std::memory_order = std::memory_order_seq_cst) {
        const T old = change([expected, value](T found) { return found == expected ? value : found; });
        if (old == expected) return true;
        expected = old;
        return false;
    }

    operator T() const { return load(); }
    T operator=(T value) {
        store(value);
        return value;
    }

private:
    template <class Next> T change(const Next &next) {
        machine.access(this, Access::Locked);
        const T old = value_;
        value_ = next(old);
        return old;
    }

    T value_;
};

inline void spin_once() { machine.spin(); }
inline void yield_processor() { machine.yield(); }
inline void order_all() { machine.order(); }
