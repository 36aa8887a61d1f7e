// Other ways in which callers wait for the words that all updates exchange: as the library did before 182 of docs/DECISIONS.md, and with drawn
// pauses but no queue; and the library's way without slots that a place keeps.
#pragma once
#include "../cpp/ways.hpp"

// For the front: at once up to eight times, unless another's update has it, and then pauses of up to 64 turns. For the count: such a pause
// after each exchange, and the next one with the number that was found before the pause.
class Before {
public:
    static constexpr bool keeps_slots = false;

    struct Shared {
        explicit Shared(uint32_t) {}
    };

    struct Own {
        explicit Own(uint32_t) {}
        void begin_call() {}
    };

    Before(Shared &, Own &, CommonWord word) : word_(word) {}

    bool tries_on(bool is_held, bool may_give_way) {
        const uint32_t round = round_++;
        if (word_ == CommonWord::Front && !is_held && round % at_once != at_once - 1) return true;
        const uint32_t turns = turns_;
        spin_for(turns);
        turns_ = std::min(2 * turns, longest);
        return !may_give_way || round < before_giving_way || turns < longest;
    }

    void end() {}

private:
    static constexpr uint32_t at_once = 8, before_giving_way = 64, longest = 64;

    CommonWord word_;
    uint32_t round_ = 0, turns_ = 1;
};

// Drawn pauses between pairs of exchanges at both words. Who may give way does so behind a long one.
class InPairs {
public:
    static constexpr bool keeps_slots = false;
    using Own = CrowdPauses;

    struct Shared {
        explicit Shared(uint32_t places) : most(CrowdPauses::most_for(places)) {}
        uint32_t most;
    };

    InPairs(Shared &shared, Own &own, CommonWord) : shared_(shared), own_(own) {}

    bool tries_on(bool is_held, bool may_give_way) {
        if (!lost_.pauses_after(is_held)) return true;
        const bool was_long = own_.pause(shared_.most);
        return !may_give_way || !was_long;
    }

    void end() {}

private:
    Shared &shared_;
    Own &own_;
    LostExchanges lost_;
};

// The same way, and slots that were waited for stay at their place or don't.
template <class Way, bool keeps> class Keeping : public Way {
public:
    static constexpr bool keeps_slots = keeps;
    using Way::Way;
};
