// Many lookups at once: the atomic accesses of crates/many_gets on the same words, in the same order.
#pragma once
#include "same_tree.hpp"
#include <array>

template <class W> class SameLanes : public SameTree<W> {
public:
    using SameTree<W>::SameTree;

    static constexpr size_t most_lanes = 8;

    // The sum of the values of the keys that are there. Each seat looks up keys of its own, each so much further on as there are seats. All
    // enter with their first key; then they take turns, and a turn is one hop of a search.
    uint64_t look_up(std::vector<TreeSeat> &seats, const uint64_t *keys, size_t count) {
        Round round{keys, count, seats.size(), 0};
        std::array<Lane, most_lanes> lanes{};
        for (size_t i = 0; i < round.step; i++) begin(seats[i], lanes[i], round, i);
        for (bool busy = true; busy;) {
            busy = false;
            for (size_t i = 0; i < round.step; i++) busy |= take_turn(seats[i], lanes[i], round);
        }
        return round.sum;
    }

private:
    // What is looked up, how far a seat's keys stand apart, and what was found.
    struct Round {
        const uint64_t *keys;
        size_t count, step;
        uint64_t sum;
    };

    // The key that a seat looks up, at which index it stands, and the link by which the search goes on, if there is one.
    struct Lane {
        size_t index;
        uint64_t key;
        uint32_t ahead;
        bool searches;
    };

    // Enters with the key of that index, and loads the links of the root. Where there is no such key the seat stays outside.
    void begin(TreeSeat &seat, Lane &lane, const Round &round, size_t index) {
        lane = {index, 0, 0, index < round.count};
        if (!lane.searches) return;
        lane.key = round.keys[index];
        this->enter(seat, lane.key);
        lane.ahead = this->links(0, Right).ahead;
    }

    // A hop. Where the search ends it leaves, and enters with the seat's next key. Whether a search is under way then.
    bool take_turn(TreeSeat &seat, Lane &lane, Round &round) {
        if (!lane.searches) return false;
        const uint32_t child = lane.ahead;
        const uint64_t found = child == 0 ? 0 : this->at(child, Key).load();
        if (child != 0 && found != lane.key) {
            lane.ahead = this->links(child, lane.key < found ? Left : Right).ahead;
            return true;
        }
        if (child != 0) round.sum += this->at(child, Value).load();
        this->leave(seat);
        begin(seat, lane, round, lane.index + round.step);
        return lane.searches;
    }
};
