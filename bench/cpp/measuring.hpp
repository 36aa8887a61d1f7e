// Threads that make drawn operations on one dictionary, timed. Each program here writes a line for each cell of a subject, as
// `tree_benches times calls` does: `NAME, MIX, N threads: NS ns, answers SUM`. A dictionary has `client(place)`; a client has `call`,
// which answers a found value, or 1 (or the update's number) where an update changed something, else 0; and `may_call`, whether it has
// the means for one more.
#pragma once
#include "latency.hpp"
#include "mixes.hpp"
#include "size.hpp"
#include "turns.hpp"
#include <algorithm>
#include <chrono>
#include <cinttypes>
#include <cstdio>
#include <cstdlib>
#include <memory>
#include <string>
#include <thread>
#include <vector>

using Clock = std::chrono::steady_clock;

enum class Subject { Calls, Keys, Places, Crowded, Size, Turns, Latency };

struct Options {
    Subject subject = Subject::Calls;
    uint32_t operations = 100000; // of each thread
    double seconds = 1;           // a cell ends when they have passed
    bool packed = false;
    std::string only; // the series that is measured, or all
    Size size;
    Turns turns;
};

inline Turns turns_of(const std::string &mix, uint64_t keys) {
    if (mix == "load") return {Turns::What::Load, 0, Load::keys};
    if (mix == "fill") return {Turns::What::Fill, 0, keys};
    return {Turns::What::Mix, std::strtoull(mix.c_str(), nullptr, 10), keys};
}

inline Options options_of(int count, char **words) {
    Options options;
    std::string mix = "100";
    uint64_t wear = 0;
    for (int i = 1; i < count; i++) {
        const std::string word = words[i];
        const auto number = [&] { return ++i < count ? strtod(words[i], nullptr) : 0; };
        if (word == "--operations") options.operations = number();
        else if (word == "--seconds") options.seconds = number();
        else if (word == "--packed") options.packed = true;
        else if (word == "--only") options.only = ++i < count ? words[i] : "";
        else if (word == "--pairs") options.size.pairs = uint64_t(number());
        else if (word == "--mix") mix = ++i < count ? words[i] : "";
        else if (word == "--wear") wear = uint64_t(number());
        else if (word == "--threads") options.size.threads = std::max(uint32_t(number()), 1u);
        else if (word == "calls") options.subject = Subject::Calls;
        else if (word == "keys") options.subject = Subject::Keys;
        else if (word == "places") options.subject = Subject::Places;
        else if (word == "crowded") options.subject = Subject::Crowded;
        else if (word == "size") options.subject = Subject::Size;
        else if (word == "turns") options.subject = Subject::Turns;
        else if (word == "latency") options.subject = Subject::Latency;
        else {
            fprintf(stderr,
                    "usage: %s [--operations N] [--seconds S] [--packed] [--only SERIES] calls|keys|places|crowded\n"
                    "       %s [--operations N] [--pairs N] [--threads N] [--only SERIES] size\n"
                    "       %s [--mix GETS|load|fill] [--pairs N] [--wear N] [--threads N] --only SERIES turns\n"
                    "       %s [--mix GETS] [--pairs N] [--wear N] [--threads N] [--operations N] [--only SERIES] latency\n",
                    words[0], words[0], words[0], words[0]);
            exit(2);
        }
    }
    options.size.operations = options.operations;
    options.turns = turns_of(mix, options.size.pairs);
    options.turns.wear = wear;
    return options;
}

struct Done {
    uint64_t operations = 0, sum = 0;
    bool cut = false;
};

template <class Client, class Mix>
__attribute__((noinline)) Done work(Client &client, const Mix &mix, uint32_t place, uint32_t operations, Clock::time_point end) {
    Done done;
    Draws draws{place};
    while (done.operations < operations && client.may_call()) {
        done.sum += client.call(mix.draw(draws, place));
        done.operations++;
        if (done.operations % 256 == 0 && Clock::now() > end) {
            done.cut = done.operations < operations;
            break;
        }
    }
    return done;
}

// The places are those of the dictionary; so many of them have a thread.
struct Crew {
    uint32_t threads, places;
};

template <class Dictionary, class Mix>
void measure(Dictionary &dictionary, const std::string &name, const Mix &mix, Crew crew, const Options &options) {
    auto first = dictionary.client(0);
    fill(first, mix);
    std::vector<Done> done(crew.threads);
    const auto begun = Clock::now();
    const auto end = begun + std::chrono::duration_cast<Clock::duration>(std::chrono::duration<double>(options.seconds));
    std::vector<std::thread> threads;
    for (uint32_t place = 1; place < crew.threads; place++)
        threads.emplace_back([&, place] {
            auto client = dictionary.client(place);
            done[place] = work(client, mix, place, options.operations, end);
        });
    done[0] = work(first, mix, 0, options.operations, end);
    for (auto &thread : threads) thread.join();
    const std::chrono::duration<double, std::nano> passed = Clock::now() - begun;

    Done all;
    for (const Done &one : done) {
        all.operations += one.operations;
        all.sum += one.sum;
        all.cut |= one.cut;
    }
    printf("%s, %s, %u threads", name.c_str(), mix.name().c_str(), crew.threads);
    if (crew.places != crew.threads) printf(" of %u", crew.places);
    const double nanos = passed.count() * crew.threads / all.operations;
    printf(": %.1f ns%s, answers %" PRIu64 "\n", nanos, all.cut ? ", cut" : "", all.sum);
    fflush(stdout);
}

// What a dictionary is made for.
struct Room {
    uint64_t keys;
    uint32_t places, operations;
    uint32_t kept_back = 15; // slots that a place of the same steps in C++ keeps back
};

// As many as a handle of the C library does.
constexpr uint32_t kept_by_handles = 63;

// Takes turns until the input ends, so the tickets of a place are never used up.
template <class Make> void measure_turns(const Turns &turns, uint32_t threads, const Make &make) {
    const auto made = [&] { return make(Room{turns.keys, threads, UINT32_MAX, kept_by_handles}); };
    switch (turns.what) {
    case Turns::What::Fill: take_fills(made, turns.keys, threads); break;
    case Turns::What::Load: take_turns(*made(), Load{}, threads, 0); break;
    case Turns::What::Mix: take_turns(*made(), Drawn{turns.gets, turns.keys}, threads, turns.wear); break;
    }
}

// Takes turns with gets alone, for clients that make many at once.
template <class Make> void measure_many(const std::string &name, const Options &options, const Make &make) {
    if (options.subject != Subject::Turns || options.turns.what != Turns::What::Mix || options.turns.gets != 100) {
        fprintf(stderr, "only with the words --mix 100 turns\n");
        exit(2);
    }
    if (options.only == name) measure_turns(options.turns, options.size.threads, make);
}

// Measures all cells of the subject, each on a dictionary of its own: `make(room)`.
template <class Make> void measure_all(const std::string &name, const Options &options, const Make &make) {
    if (!options.only.empty() && options.only != name) return;
    const auto cell = [&](const auto &mix, Crew crew) {
        const auto dictionary = make(Room{mix.keys, crew.places, options.operations});
        measure(*dictionary, name, mix, crew, options);
    };
    switch (options.subject) {
    case Subject::Calls:
        for_each_mix([&](const auto &mix) {
            for (const uint32_t threads : {1, 2, 4}) cell(mix, {threads, threads});
        });
        break;
    case Subject::Keys:
        for (const uint64_t keys : {1000, 10000, 100000, 1000000})
            for (const uint32_t threads : {1, 4}) cell(MostlyGets{keys}, {threads, threads});
        break;
    case Subject::Places:
        for (const uint32_t places : {1, 2, 4, 8, 16, 32, 64}) cell(Uniform<50, 1000>{}, {std::min(places, 4u), places});
        break;
    // More threads than processors.
    case Subject::Crowded:
        for (const uint32_t threads : {4, 16, 64}) {
            cell(Uniform<90, 20000>{}, {threads, threads});
            cell(Uniform<50, 1000>{}, {threads, threads});
        }
        break;
    case Subject::Size:
        measure_size(name, options.size, [&](uint64_t pairs) { return make(Room{pairs, options.size.threads, 2 * options.operations}); });
        break;
    case Subject::Turns: measure_turns(options.turns, options.size.threads, make); break;
    case Subject::Latency: {
        const auto dictionary = make(Room{options.turns.keys, options.size.threads, UINT32_MAX, kept_by_handles});
        measure_latency(*dictionary, name, Drawn{options.turns.gets, options.turns.keys}, options.size.threads, options.operations, options.turns.wear);
        break;
    }
    }
}
