// The C library's lookups of many keys at once. Each place has a handle, which fills the index, and lanes of its own.
#include "handle_places.hpp"
#include "many_client.hpp"
#include "measuring.hpp"

class HandleLanes {
public:
    HandleLanes(citrus::handle &handle, uint32_t lanes) : place_{{handle, no_turns_}}, lanes_(handle.open_lanes(lanes)) {}

    uint64_t call(const Op &op) { return place_.call(op); }

    uint64_t look_up(const uint64_t *keys, size_t count) {
        answers_.resize(count);
        lanes_.get_many(keys, count, answers_.data());
        uint64_t sum = 0;
        for (const citrus_answer &answer : answers_) sum += answer.value;
        return sum;
    }

private:
    inline static NoTurns no_turns_;
    HandleClient<NoTurns> place_;
    citrus::lanes lanes_;
    std::vector<citrus_answer> answers_;
};

// An index with room for each key, in which each place may open so many lanes.
class LanesOfRoom {
public:
    LanesOfRoom(const Room &room, uint32_t lanes) : lanes_(lanes) {
        const uint32_t handles = lanes + 1;
        handles_.emplace_back(citrus::options{uint32_t(room.keys), room.places * handles, citrus::waiter::eer, FIXED_SALT});
        for (uint32_t place = 1; place < room.places; place++) handles_.push_back(handles_[0].share(handles, 0));
    }

    ManyClient<HandleLanes> client(uint32_t place) { return ManyClient(HandleLanes(handles_[place], lanes_)); }

private:
    uint32_t lanes_;
    std::vector<citrus::handle> handles_;
};

int main(int count, char **words) {
    const Options options = options_of(count, words);
    for (const uint32_t lanes : {4, 8}) {
        const auto make = [=](const Room &room) { return std::make_unique<LanesOfRoom>(room, lanes); };
        measure_many(std::to_string(lanes) + " lanes", options, make);
    }
}
