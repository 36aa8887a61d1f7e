// A client whose gets are made many at once, in turns with programs that make them one by one. `Many` has `call` for the updates that fill
// the dictionary, and `look_up(keys, count)`, which answers the sum of the values that it found.
#pragma once
#include "mixes.hpp"
#include <algorithm>
#include <array>

template <class Many> class ManyClient {
public:
    explicit ManyClient(Many many) : many_(std::move(many)) {}

    bool may_call() const { return true; }
    uint64_t call(const Op &op) { return many_.call(op); }

    // The sum of the values of so many drawn keys.
    template <class Draw> uint64_t look_up(uint64_t count, const Draw &draw) {
        uint64_t sum = 0;
        while (count > 0) {
            const size_t now = std::min<uint64_t>(count, at_once);
            std::generate_n(keys_.begin(), now, draw);
            sum += many_.look_up(keys_.data(), now);
            count -= now;
        }
        return sum;
    }

private:
    static constexpr size_t at_once = 1024;
    Many many_;
    std::array<uint64_t, at_once> keys_;
};

template <class Many, class Mix>
uint64_t make_calls(ManyClient<Many> &client, const Mix &mix, Draws &draws, uint32_t place, uint64_t operations) {
    return client.look_up(operations, [&] { return mix.draw(draws, place).key; });
}
