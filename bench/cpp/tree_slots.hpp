// The tree's table and its slots: the atomic accesses of crates/seat_table and node_slots on the same words, in the same order.
#pragma once
#include "backoff.hpp"
#include "waiters.hpp"
#include "ways.hpp"
#include <algorithm>

struct TreeSeat : Seat {
    uint32_t hand = 0, spare = 0, looked = 0, line = 0;
    uint64_t free = 0, front = 0;
    std::vector<uint32_t> retired, noted, kept;
};

template <class W, class Ways> class TreeSlots {
public:
    using L = typename W::Layout;
    static constexpr size_t most_noted = 64;
    static constexpr int lines_looked_at = 4;

    // A place keeps back so many retired slots before it waits for all readers.
    TreeSlots(uint32_t slots, uint32_t places, uint32_t most_retired)
        : slots_(slots), places_(places), most_retired_(most_retired), rows_(uint64_t(slots) + places + 1, W::room(places)),
          words_(rows_.end(), rows_.waiter()), shared_(places) {
        for (uint32_t place = 0; place < places; place++) owned_.emplace_back(place);
        W::set_up(words_, places);
        words_[L::free_count] = slots;
        for (uint32_t slot = 0; slot <= places; slot++) state(slot) = 1;
    }

    TreeSeat seat(uint32_t place, uint64_t tickets) const {
        TreeSeat seat;
        seat.place = place;
        seat.tickets = tickets;
        seat.spare = place + 1;
        seat.free = slots_;
        seat.looked = seat.line = places_ + uint64_t(place) * slots_ / places_;
        seat.retired.reserve(most_retired_ + 1);
        seat.noted.reserve(most_noted);
        return seat;
    }

    // As after many calls: the place keeps so many slots, where places keep any.
    void keep(TreeSeat &seat, uint32_t count) {
        while (Ways::keeps_slots && seat.kept.size() < count && take(seat)) {
            seat.kept.push_back(seat.hand);
            seat.hand = 0;
        }
    }

protected:
    Atomic<uint64_t> &at(uint32_t slot, Field field) { return words_[rows_.field(slot, field)]; }
    // Loads the key of the slot of a link, and throws it away.
    void bring_near(uint64_t link) {
        if (link <= uint64_t(slots_) + places_) at(link, Key).load();
    }
    Atomic<uint64_t> &front() { return words_[L::front]; }
    void enter(TreeSeat &seat, uint64_t key) { W::enter(words_, seat, key); }
    void leave(TreeSeat &seat) { W::leave(words_, seat); }
    void begin_call(TreeSeat &seat) { owned_[seat.place].own.begin_call(); }
    Ways tries(TreeSeat &seat, CommonWord word) { return {shared_, owned_[seat.place].own, word}; }

    // What was found. It is the old value where the exchange was made.
    static uint64_t exchange(Atomic<uint64_t> &word, uint64_t old, uint64_t next) {
        word.compare_exchange_strong(old, next);
        return old;
    }

    // Takes a slot into the hand, near the one at which it will hang. Where none is free, the retired ones are waited for.
    bool take_slot(TreeSeat &seat, uint32_t near) {
        if (take_kept(seat)) return true;
        note_near(seat, near);
        if (take(seat)) return true;
        if (seat.retired.empty()) return false;
        reclaim(seat);
        return take(seat);
    }

    void put_back(TreeSeat &seat) {
        free_slot(seat, seat.hand);
        seat.hand = 0;
    }

    // Before a delete: a spare slot for the copy, and room for what is retired.
    void make_room(TreeSeat &seat) {
        if (seat.retired.size() >= most_retired_) return reclaim(seat);
        if (seat.spare == 0) keep_some(seat);
        if (seat.spare != 0) return;
        if (!take_kept(seat) && !take(seat)) return reclaim(seat);
        at(seat.hand, Life).load();
        seat.spare = seat.hand;
        seat.hand = 0;
    }

    void wait(TreeSeat &seat, Keys keys) {
        seat.tickets--;
        seat.waits++;
        Grace grace{keys, words_[L::clock].fetch_add(1)};
        Backoff backoff;
        while (!W::poll(words_, seat, grace, places_)) backoff.snooze();
    }

private:
    // Notes a slot to be looked at first: the other one of the same line, or where that isn't free and none is noted the first of a line.
    void note_near(TreeSeat &seat, uint32_t near) {
        if (seems_free(near ^ 1)) {
            if (seat.noted.size() == most_noted) seat.noted.pop_back();
            seat.noted.push_back(near ^ 1);
        } else if (seat.noted.empty()) {
            note_line(seat);
        }
    }

    void note_line(TreeSeat &seat) {
        for (int i = 0; i < lines_looked_at; i++) {
            seat.line = next_line(seat.line);
            if (seems_free(seat.line)) return seat.noted.push_back(seat.line);
        }
    }

    uint32_t next_line(uint32_t slot) const { return slot < slots_ + places_ ? (slot | 1) + 1 : 2; }
    bool seems_free(uint32_t slot) { return slot != 0 && slot <= slots_ + places_ && state(slot).load() == 0; }

    Atomic<uint64_t> &state(uint32_t slot) { return words_[rows_.state(slot)]; }

    bool take(TreeSeat &seat) {
        if (!reserve(seat)) return false;
        seat.tickets--;
        seat.hand = seize(seat);
        at(seat.hand, Life).load();
        return true;
    }

    // Counts one free slot less, where there is one.
    bool reserve(TreeSeat &seat) {
        Ways tries = this->tries(seat, CommonWord::FreeCount);
        uint64_t expected = std::max<uint64_t>(seat.free, 1);
        for (;;) {
            const uint64_t found = exchange(words_[L::free_count], expected, expected - 1);
            seat.free = found == expected ? expected - 1 : found;
            if (found == expected || found == 0) {
                tries.end();
                return found != 0;
            }
            expected = found;
            tries.tries_on(false, false);
        }
    }

    // Waits for the retired slots, where none is kept and half of them may be. The first becomes the spare, where there is none.
    void keep_some(TreeSeat &seat) {
        if (Ways::keeps_slots && seat.kept.empty() && 2 * seat.retired.size() >= most_retired_) reclaim(seat);
    }

    // Takes a slot into the hand that was waited for, where the place keeps some.
    bool take_kept(TreeSeat &seat) {
        keep_some(seat);
        if (!Ways::keeps_slots || seat.kept.empty()) return false;
        seat.hand = seat.kept.back();
        seat.kept.pop_back();
        raise_life(seat.hand);
        return true;
    }

    // A free slot: the last that the place noted, where nobody has it by now, else the next in a round of all.
    uint32_t seize(TreeSeat &seat) {
        while (!seat.noted.empty()) {
            const uint32_t slot = seat.noted.back();
            seat.noted.pop_back();
            if (exchange(state(slot), 0, 1) == 0) return slot;
        }
        do seat.looked = next_slot(seat.looked);
        while (exchange(state(seat.looked), 0, 1) != 0);
        return seat.looked;
    }

    uint32_t next_slot(uint32_t slot) const { return slot < slots_ + places_ ? slot + 1 : 1; }

    void raise_life(uint32_t slot) {
        const uint64_t life = at(slot, Life).load();
        at(slot, Life).store(2 * (life / 2 + 1));
    }

    void free_slot(TreeSeat &seat, uint32_t slot) {
        raise_life(slot);
        state(slot).store(0);
        seat.free = words_[L::free_count].fetch_add(1) + 1;
        if (seat.noted.size() < most_noted) seat.noted.push_back(slot);
    }

    void reclaim(TreeSeat &seat) {
        wait(seat, {0, UINT64_MAX});
        for (const uint32_t slot : seat.retired) {
            if (seat.spare == 0) {
                raise_life(slot);
                seat.spare = slot;
            } else if (Ways::keeps_slots && seat.kept.size() < most_retired_) {
                seat.kept.push_back(slot);
            } else {
                free_slot(seat, slot);
            }
        }
        seat.retired.clear();
    }

    uint32_t slots_, places_, most_retired_;
    L rows_;
    Words words_;
    typename Ways::Shared shared_;
    struct alignas(128) Owned {
        typename Ways::Own own;
        explicit Owned(uint32_t place) : own(place) {}
    };
    std::vector<Owned> owned_;
};
