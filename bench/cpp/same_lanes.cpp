// The same steps as the proved lanes', in C++, with the first waiter.
#include "many_client.hpp"
#include "measuring.hpp"
#include "same_lanes.hpp"

class SeatLanes {
public:
    SeatLanes(SameLanes<Eer<Spaced>> &tree, std::vector<TreeSeat> seats) : tree_(tree), seats_(std::move(seats)) {}

    // Only what fills the tree.
    uint64_t call(const Op &op) { return tree_.put(seats_[0], op.key, op.value); }
    uint64_t look_up(const uint64_t *keys, size_t count) { return tree_.look_up(seats_, keys, count); }

private:
    SameLanes<Eer<Spaced>> &tree_;
    std::vector<TreeSeat> seats_;
};

// A tree with some more slots than keys, in which each place has so many seats.
class SameLanesOfRoom {
public:
    SameLanesOfRoom(const Room &room, uint32_t lanes)
        : tree_(room.keys + (room.kept_back + 5) * lanes * room.places, lanes * room.places, room.kept_back), lanes_(lanes),
          tickets_(4 * (room.operations + room.keys)) {}

    ManyClient<SeatLanes> client(uint32_t place) {
        std::vector<TreeSeat> seats;
        for (uint32_t lane = 0; lane < lanes_; lane++) seats.push_back(tree_.seat(place * lanes_ + lane, tickets_));
        return ManyClient(SeatLanes(tree_, std::move(seats)));
    }

private:
    SameLanes<Eer<Spaced>> tree_;
    uint32_t lanes_;
    uint64_t tickets_;
};

int main(int count, char **words) {
    const Options options = options_of(count, words);
    for (const uint32_t lanes : {4, 8}) {
        const auto make = [=](const Room &room) { return std::make_unique<SameLanesOfRoom>(room, lanes); };
        measure_many("C++ " + std::to_string(lanes) + " lanes", options, make);
    }
}
