// How a caller waits that lost an exchange at one of the two words that all updates exchange: the front and the count of free slots. As in
// crates/patience and crates/tree_handles, of which each class has the name.
#pragma once
#include "layout.hpp"
#include <algorithm>

enum class CommonWord { Front, FreeCount };

inline void spin_for(uint32_t turns) {
    for (uint32_t i = 0; i < turns; i++) spin_once();
}

// Exchanges belong together in twos: the first one after a pause tells the number, and the second one, made at once, takes the word.
class LostExchanges {
public:
    // Whether to pause after one more that was lost: where the word was found held, and after two since the last pause.
    bool pauses_after(bool is_held) {
        is_second_ = !is_held && !is_second_;
        return !is_second_;
    }

private:
    bool is_second_ = false;
};

// From here on a pause is a long one.
inline constexpr uint32_t long_pause = 64;

// The pauses of a place where callers crowd: each has a random number of turns up to a bound, which the pause doubles. The place remembers
// the bound from call to call. A call without a pause halves it.
class CrowdPauses {
public:
    explicit CrowdPauses(uint32_t place) : random_(place + 1) {}

    void begin_call() {
        if (!has_paused_) bound_ = std::max(bound_ / 2, least);
        has_paused_ = false;
    }

    // Whether it may have been a long one.
    bool pause(uint32_t most) {
        const uint32_t bound = bound_;
        spin_for(draw() % bound + 1);
        bound_ = std::min(2 * bound, most);
        has_paused_ = true;
        return bound >= long_pause;
    }

    static uint32_t most_for(uint32_t places) { return std::clamp(turns_a_place * places, long_pause, greatest); }

private:
    static constexpr uint32_t least = 1, turns_a_place = 64, greatest = 8192;

    // By xorshift (Marsaglia 2003).
    uint32_t draw() {
        random_ ^= random_ << 13;
        random_ ^= random_ >> 7;
        random_ ^= random_ << 17;
        return uint32_t(random_ >> 32);
    }

    uint32_t bound_ = least;
    bool has_paused_ = false;
    uint64_t random_;
};

// A queue for those who wait for the front, each at a line of its own. A number's stand has twice the number where its turn has come, and one
// more where it was given up before.
class FrontQueue {
public:
    explicit FrontQueue(uint32_t places) : size_(2 * places), words_(apart * (size_ + 1), 0) {
        next() = first;
        stand(first) = come(first);
    }

    uint64_t line_up() { return next().fetch_add(1); }
    bool has_come(uint64_t number) { return stand(number).load() == come(number); }
    // Whether its turn has come just now.
    bool give_up(uint64_t number) { return stand(number).exchange(given_up(number)) == come(number); }
    bool was_passed_over(uint64_t number) { return stand(number).load() != given_up(number); }

    // Lets the next one try who hasn't given up.
    void pass_on(uint64_t number) {
        do number++;
        while (stand(number).exchange(come(number)) == given_up(number));
    }

private:
    static constexpr uint64_t apart = Spaced::apart, first = 1;

    static uint64_t come(uint64_t number) { return 2 * number; }
    static uint64_t given_up(uint64_t number) { return 2 * number + 1; }
    Atomic<uint64_t> &next() { return words_[0]; }
    Atomic<uint64_t> &stand(uint64_t number) { return words_[apart * (1 + number % size_)]; }

    uint64_t size_;
    Words words_;
};

// What a place remembers of the queue.
struct Queued {
    bool crowded = false; // it had to stand there the last time
    uint32_t without = 0, next_without = fewest_without;
    uint64_t given_up = 0; // the number, or none

    static constexpr uint32_t fewest_without = 256, most_without = 65536;

    void comes(bool stood) {
        crowded = stood;
        next_without = std::max(next_without / 2, fewest_without);
    }

    void gives_up(uint64_t number) {
        crowded = false;
        given_up = number;
        without = next_without;
        next_without = std::min(2 * next_without, most_without);
    }
};

// For the front: in the queue behind two lost exchanges, and where the turn doesn't come in a while, or there are few places, as for the
// count: drawn pauses between pairs of exchanges. Who may give way does so behind a long pause.
class Spinning {
public:
    // Whether a place keeps slots that were waited for, for what it puts next.
    static constexpr bool keeps_slots = true;

    // What all callers share.
    struct Shared {
        explicit Shared(uint32_t places)
            : queue(places), lines_up(places > few_places),
              most_in_line(std::clamp(turns_in_line_a_place * places, fewest_turns_in_line, most_turns_in_line)),
              most_turns(CrowdPauses::most_for(places)) {}
        FrontQueue queue;
        bool lines_up; // whether anybody stands there
        uint32_t most_in_line, most_turns;
    };

    // What a place remembers from call to call.
    struct Own {
        explicit Own(uint32_t place) : pauses(place) {}
        void begin_call() { pauses.begin_call(); }
        CrowdPauses pauses;
        Queued queued;
    };

    Spinning(Shared &shared, Own &own, CommonWord word)
        : shared_(shared), own_(own), state_(word == CommonWord::Front && shared.lines_up ? State::NotYet : State::Without) {
        if (state_ == State::NotYet && own_.queued.crowded) stand_in_line();
    }

    // After an exchange that was lost, and found the word held by another caller or not: pauses, and answers whether to try on. It isn't
    // so only where the caller may give way.
    bool tries_on(bool is_held, bool may_give_way) {
        if (!lost_.pauses_after(is_held) || !pause() || !may_give_way) return true;
        end();
        return false;
    }

    // After the exchange that was made.
    void end() {
        if (state_ == State::Come) shared_.queue.pass_on(number_);
        state_ = State::Without;
    }

private:
    enum class State { NotYet, Come, Without };
    static constexpr uint32_t few_places = 4;
    static constexpr uint32_t turns_in_line_a_place = 96, fewest_turns_in_line = 256, most_turns_in_line = 8192, before_trying = 2;

    // Whether it was, or may have been, a long pause.
    bool pause() {
        if (state_ == State::NotYet) {
            if (may_line_up()) stand_in_line();
            else state_ = State::Without;
            if (state_ == State::Come) return false;
        }
        if (state_ == State::Without) return own_.pauses.pause(shared_.most_turns);
        const uint32_t turns = turns_;
        spin_for(turns);
        turns_ = std::min(2 * turns, long_pause);
        return turns >= long_pause;
    }

    bool may_line_up() {
        Queued &queued = own_.queued;
        if (queued.without > 0) {
            queued.without--;
            return false;
        }
        return queued.given_up == 0 || shared_.queue.was_passed_over(queued.given_up);
    }

    void stand_in_line() {
        FrontQueue &queue = shared_.queue;
        number_ = queue.line_up();
        uint32_t stood = 0;
        while (stood < shared_.most_in_line && !queue.has_come(number_)) {
            spin_once();
            stood++;
        }
        if (stood == shared_.most_in_line && !queue.give_up(number_)) {
            own_.queued.gives_up(number_);
            state_ = State::Without;
            return;
        }
        if (stood > 0) spin_for(before_trying);
        own_.queued.comes(stood > 0);
        state_ = State::Come;
    }

    Shared &shared_;
    Own &own_;
    State state_;
    uint64_t number_ = 0;
    uint32_t turns_ = 1;
    LostExchanges lost_;
};
