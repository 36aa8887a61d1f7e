// A program on the simulated machine: a tree with the seats of its threads, and what they make of a mix of operations in some time.
#pragma once
#include "../cpp/citrus.hpp"
#include "../cpp/mixes.hpp"
#include "../cpp/same_tree.hpp"
#include "machine.hpp"
#include <memory>

// What is simulated: so many nanoseconds before it is measured, and then.
struct Cell {
    uint32_t processors = 4, threads = 4, seed = 0;
    double warm = 2e6, measured = 4e6;
    Costs costs;
};

struct Result {
    uint64_t operations = 0, updates = 0, lines_moved = 0, waits = 0;
    double waited = 0;

    Result operator-(const Result &before) const {
        return {operations - before.operations, updates - before.updates, lines_moved - before.lines_moved, waits - before.waits,
                waited - before.waited};
    }
};

// A waiter whose waits are told: a wait's looks may be under way together, and how long they take is counted.
template <class W> struct Told : W {
    static inline uint64_t waits = 0;
    static inline double waited = 0;

    static bool poll(Words &words, Seat &seat, Grace &grace, uint32_t places) {
        const double begun = machine.now();
        machine.set_looking(true);
        const bool is_over = W::poll(words, seat, grace, places);
        machine.set_looking(false);
        waited += machine.now() - begun;
        waits += is_over;
        return is_over;
    }
};

// A tree of this waiter, whose callers wait for the words of all in this way.
template <class W, class Way> class TreeProgram {
public:
    TreeProgram(uint64_t keys, uint32_t threads) : tree_(uint32_t(keys) + (2 * kept_back + 5) * threads, threads, kept_back) {
        for (uint32_t place = 0; place < threads; place++) seats_.push_back(std::make_unique<Padded>(tree_.seat(place, tickets)));
    }

    // Whether the call changed the dictionary.
    bool call(uint32_t place, const Op &op) {
        TreeSeat &seat = seats_[place]->seat;
        switch (op.kind) {
        case Kind::Put: return tree_.put(seat, op.key, op.value) != 0;
        case Kind::Del: return tree_.del(seat, op.key) != 0;
        default: tree_.get(seat, op.key); return false;
        }
    }

    // As after many operations: the places have some of the slots that they keep.
    void settle() {
        for (const auto &padded : seats_) tree_.keep(padded->seat, kept_back / 2);
        Told<W>::waits = 0;
        Told<W>::waited = 0;
    }

    void tell(Result &result) const {
        result.waits = Told<W>::waits;
        result.waited = Told<W>::waited;
    }

private:
    static constexpr uint32_t kept_back = 63;
    static constexpr uint64_t tickets = UINT64_MAX / 4;

    struct alignas(128) Padded {
        explicit Padded(TreeSeat made) : seat(std::move(made)) {}
        TreeSeat seat;
    };

    SameTree<Told<W>, Way> tree_;
    std::vector<std::unique_ptr<Padded>> seats_;
};

// CITRUS in plain C++: it has neither of these words.
class PlainProgram {
public:
    PlainProgram(uint64_t, uint32_t threads) : tree_(threads) {}

    bool call(uint32_t place, const Op &op) {
        switch (op.kind) {
        case Kind::Put: return tree_.put(place, op.key, op.value);
        case Kind::Del: return tree_.del(place, op.key);
        default: tree_.get(place, op.key); return false;
        }
    }

    void settle() {}
    void tell(Result &) const {}

private:
    Citrus tree_;
};

// Threads that make drawn operations on one program.
template <class Program, class Mix> class Threads {
public:
    Threads(const Mix &mix, const Cell &cell) : mix_(mix), program_(mix.keys, cell.threads), own_(cell.threads) {
        for (uint32_t place = 0; place < cell.threads; place++) own_[place].draws = {place + uint64_t{cell.seed} * cell.threads};
        Draws draws{12345};
        for (uint64_t i = 0; i < mix.first_puts; i++) {
            const uint64_t key = draws.next() % mix.keys;
            program_.call(0, {Kind::Put, key, draws.state});
        }
        program_.settle();
    }

    // What was done after so many nanoseconds more.
    Result run(double nanoseconds) {
        const double end = machine.now() + nanoseconds;
        std::vector<std::function<void()>> bodies;
        for (uint32_t place = 0; place < own_.size(); place++) bodies.push_back([this, place, end] { work(place, end); });
        machine.run(std::move(bodies));
        return told();
    }

private:
    struct Own {
        Draws draws{0};
        uint64_t operations = 0, updates = 0;
    };

    // An operation that ends too late isn't counted.
    void work(uint32_t place, double end) {
        Own &own = own_[place];
        for (;;) {
            const bool is_update = program_.call(place, mix_.draw(own.draws, place));
            if (machine.now() > end) return;
            own.operations++;
            own.updates += is_update;
        }
    }

    Result told() const {
        Result result;
        program_.tell(result);
        for (uint32_t place = 0; place < own_.size(); place++) {
            result.operations += own_[place].operations;
            result.updates += own_[place].updates;
            result.lines_moved += machine.lines_moved_by(place);
        }
        return result;
    }

    Mix mix_;
    Program program_;
    std::vector<Own> own_;
};

template <class Program, class Mix> Result simulate(const Mix &mix, const Cell &cell) {
    machine.begin(cell.processors, cell.costs);
    Threads<Program, Mix> threads(mix, cell);
    const Result before = threads.run(cell.warm);
    return threads.run(cell.measured) - before;
}
