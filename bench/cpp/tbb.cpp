// The concurrent map of oneTBB.
#include "client.hpp"
#include "measuring.hpp"
#include "tombstones.hpp"

struct OfRoom : TombstoneMap<uint64_t> {
    explicit OfRoom(const Room &) {}

    PlainClient<OfRoom> client(uint32_t) { return {*this}; }
};

int main(int count, char **words) {
    measure_all("TBB map", options_of(count, words), [](const Room &room) { return std::make_unique<OfRoom>(room); });
}
