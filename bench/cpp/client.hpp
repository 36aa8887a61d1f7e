// A client of a dictionary that has `get`, `put` and `del` of its own, with no bound on its calls.
#pragma once
#include "mixes.hpp"

template <class Dictionary> struct PlainClient {
    Dictionary &dictionary;

    bool may_call() const { return true; }

    uint64_t call(const Op &op) {
        switch (op.kind) {
        case Kind::Put: return dictionary.put(op.key, op.value);
        case Kind::Del: return dictionary.del(op.key);
        default: return dictionary.get(op.key).value_or(0);
        }
    }
};
