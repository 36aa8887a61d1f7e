// Cells by turns: a program makes one dictionary, fills it, and says `ready`. Then it reads lines `N`: for each, every thread goes on with
// N operations, of which the first third isn't timed, and the program answers `OPERATIONS NANOSECONDS SUM`, of the timed ones and with the
// sum of all answers. So a driver lets programs take turns every few milliseconds, each with its dictionary as the last cell left it
// (bench/ratios.sh). At the end of its input the program ends.
#pragma once
#include "size.hpp"
#include <optional>

// What a cell makes: so many of 100 are gets, or the operations of `load`, or a dictionary is filled anew. Before the first cell of a mix
// so many updates are made for each key.
struct Turns {
    enum class What { Mix, Load, Fill } what = What::Mix;
    uint64_t gets = 100, keys = 20000, wear = 0;
};

// A draw has 31 bits, and the upper ones choose: a division would take as long as a step of a search.
struct Drawn {
    uint64_t gets, keys, first_puts = keys * 7 / 10;

    Op draw(Draws &draws, uint32_t) const {
        const uint64_t kind = draws.next() * 100 >> 31, key = draws.next() * keys >> 31;
        return draw_of(gets, kind, key);
    }
};

// So many updates for each key, by one thread: a dictionary isn't then as it was filled.
template <class Client> void wear_out(Client &client, const Drawn &mix, uint64_t updates) {
    const Drawn alone{0, mix.keys};
    Draws draws{54321};
    for (uint64_t i = 0; i < updates * mix.keys; i++) client.call(alone.draw(draws, 0));
}

// The load puts its keys in and takes them out as it goes, so nothing is worn out before.
template <class Client> void wear_out(Client &, const Load &, uint64_t) {}

// The sum of so many calls' answers. Of an update it is told whether it changed something, since only some dictionaries number them. A
// client that makes many lookups at once has an overload.
template <class Client, class Mix> uint64_t make_calls(Client &client, const Mix &mix, Draws &draws, uint32_t place, uint64_t operations) {
    uint64_t sum = 0;
    for (uint64_t i = 0; i < operations; i++) {
        const Op op = mix.draw(draws, place);
        const uint64_t answer = client.call(op);
        sum += op.kind == Kind::Get ? answer : answer != 0;
    }
    return sum;
}

// One thread's part, which goes on from cell to cell, on lines of memory of its own.
template <class Client> struct alignas(128) Part {
    Client client;
    uint32_t place;
    Draws draws{place};
    uint64_t sum = 0;

    template <class Mix> void make(const Mix &mix, uint64_t operations) { sum += make_calls(client, mix, draws, place, operations); }
};

template <class Client> using Parts = std::vector<std::unique_ptr<Part<Client>>>;

template <class Dictionary> auto parts_of(Dictionary &dictionary, uint32_t threads) {
    using Client = decltype(dictionary.client(0));
    Parts<Client> parts;
    for (uint32_t place = 0; place < threads; place++)
        parts.push_back(std::unique_ptr<Part<Client>>(new Part<Client>{dictionary.client(place), place}));
    return parts;
}

// How long all parts take that make so many operations at once.
template <class Each, class What> double seconds_of(const std::vector<std::unique_ptr<Each>> &parts, const What &what, uint64_t operations) {
    const auto begun = std::chrono::steady_clock::now();
    std::vector<std::thread> threads;
    for (size_t i = 1; i < parts.size(); i++) threads.emplace_back([&, i] { parts[i]->make(what, operations); });
    parts[0]->make(what, operations);
    for (auto &thread : threads) thread.join();
    return seconds_since(begun);
}

template <class Each> uint64_t sum_of(const std::vector<std::unique_ptr<Each>> &parts) {
    uint64_t sum = 0;
    for (const auto &part : parts) sum += part->sum;
    return sum;
}

// The next line's number, or nothing at the end of the input.
inline std::optional<uint64_t> next_turn() {
    uint64_t operations = 0;
    if (scanf("%" SCNu64, &operations) != 1) return {};
    return operations;
}

inline void tell_turn(uint64_t operations, double seconds, uint64_t sum) {
    printf("%" PRIu64 " %.0f %" PRIu64 "\n", operations, seconds * 1e9, sum);
    fflush(stdout);
}

inline void tell_ready() {
    puts("ready");
    fflush(stdout);
}

template <class Dictionary, class Mix> void take_turns(Dictionary &dictionary, const Mix &mix, uint32_t threads, uint64_t wear) {
    const auto parts = parts_of(dictionary, threads);
    fill(parts[0]->client, mix);
    wear_out(parts[0]->client, mix, wear);
    tell_ready();
    while (const auto operations = next_turn()) {
        const uint64_t untimed = *operations / 3, timed = *operations - untimed;
        seconds_of(parts, mix, untimed);
        const double seconds = seconds_of(parts, mix, timed);
        tell_turn(timed, seconds, sum_of(parts));
    }
}

// All numbers that are a thread's, each once, as keys in no order.
struct Numbers {
    uint32_t threads;

    Op draw(Draws &draws, uint32_t) const {
        const uint64_t number = draws.state;
        draws.state += threads;
        return {Kind::Put, key_of_number(number), number + 1};
    }
};

// Each cell fills a new dictionary with so many keys. It is made before, and goes after, and neither is timed.
template <class Make> void take_fills(const Make &make, uint64_t keys, uint32_t threads) {
    const Numbers numbers{threads};
    tell_ready();
    while (next_turn()) {
        const auto dictionary = make();
        const auto parts = parts_of(*dictionary, threads);
        const double seconds = seconds_of(parts, numbers, keys / threads);
        tell_turn(keys / threads, seconds, sum_of(parts));
    }
}
