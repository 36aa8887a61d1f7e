// How long single calls take: each thread makes drawn operations, and notes the time of each one by its kind. A line for each kind, of all
// threads together: `NAME,MIX,THREADS,KIND,COUNT,P50,P99,P999,LONGEST,ANSWERS`, in nanoseconds, with the sum of all answers. The kinds are a
// get, an insert that added its pair, a remove that took one out, an update, which is either of these two; and the clock, which is what two
// looks at it take with no call between them, and is in each of the others.
#pragma once
#include "turns.hpp"
#include <array>
#include <atomic>
#include <thread>

// How many calls took so long, by buckets of an eighth of a power of two.
class Histogram {
public:
    void add(uint64_t ns) {
        counts_[bucket_of(ns)]++;
        count_++;
        longest_ = std::max(longest_, ns);
    }

    void add(const Histogram &other) {
        for (size_t i = 0; i < counts_.size(); i++) counts_[i] += other.counts_[i];
        count_ += other.count_;
        longest_ = std::max(longest_, other.longest_);
    }

    uint64_t count() const { return count_; }
    uint64_t longest() const { return longest_; }

    // The end of the bucket up to which so many of 1,000 calls are.
    uint64_t part(uint64_t of_1000) const {
        uint64_t seen = 0;
        for (size_t i = 0; i < counts_.size(); i++)
            if ((seen += counts_[i]) * 1000 >= count_ * of_1000) return std::min(end_of(i), longest_);
        return longest_;
    }

private:
    static size_t bucket_of(uint64_t ns) {
        if (ns < 8) return ns;
        const int octave = 63 - __builtin_clzll(ns);
        return size_t(octave) * 8 + (ns >> (octave - 3) & 7);
    }

    static uint64_t end_of(size_t bucket) { return bucket < 24 ? bucket : ((8 + bucket % 8 + 1) << (bucket / 8 - 3)) - 1; }

    std::array<uint64_t, 512> counts_{};
    uint64_t count_ = 0, longest_ = 0;
};

struct Latencies {
    Histogram get, insert, remove, clock;
    uint64_t answers = 0;

    void add(const Latencies &other) {
        get.add(other.get);
        insert.add(other.insert);
        remove.add(other.remove);
        clock.add(other.clock);
        answers += other.answers;
    }
};

inline uint64_t nanoseconds_now() {
    return uint64_t(std::chrono::duration_cast<std::chrono::nanoseconds>(std::chrono::steady_clock::now().time_since_epoch()).count());
}

// Lets threads begin together: each waits until so many have come.
class Start {
public:
    explicit Start(uint32_t threads) : missing_(threads) {}

    void come() {
        missing_--;
        while (missing_ > 0) std::this_thread::yield();
    }

private:
    std::atomic<uint32_t> missing_;
};

// One thread's calls, of which the first tenth isn't timed.
template <class Client, class Mix> void time_calls(Client &client, const Mix &mix, uint32_t place, uint64_t operations, Latencies &told) {
    Draws draws{place};
    make_calls(client, mix, draws, place, operations / 10);
    for (uint64_t i = 0; i < operations; i++) {
        const Op op = mix.draw(draws, place);
        const uint64_t begun = nanoseconds_now();
        const uint64_t answer = client.call(op);
        const uint64_t ended = nanoseconds_now();
        if (op.kind == Kind::Get) told.get.add(ended - begun);
        else if (answer != 0) (op.kind == Kind::Put ? told.insert : told.remove).add(ended - begun);
        told.answers += op.kind == Kind::Get ? answer : answer != 0;
        if (i % 64 == 0) told.clock.add(nanoseconds_now() - ended);
    }
}

// What begins each line of a measurement, and the sum that ends it.
struct LatencyTold {
    std::string begin;
    uint64_t answers;

    void tell(const char *kind, const Histogram &told) const {
        printf("%s,%s,%" PRIu64 ",%" PRIu64 ",%" PRIu64 ",%" PRIu64 ",%" PRIu64 ",%" PRIu64 "\n", begin.c_str(), kind, told.count(), told.part(500),
               told.part(990), told.part(999), told.longest(), answers);
    }

    void tell_all(const Latencies &all) const {
        Histogram update = all.insert;
        update.add(all.remove);
        tell("get", all.get);
        tell("insert", all.insert);
        tell("remove", all.remove);
        tell("update", update);
        tell("clock", all.clock);
        fflush(stdout);
    }
};

template <class Dictionary>
void measure_latency(Dictionary &dictionary, const std::string &name, const Drawn &mix, uint32_t threads, uint64_t operations, uint64_t wear) {
    const auto parts = parts_of(dictionary, threads);
    fill(parts[0]->client, mix);
    wear_out(parts[0]->client, mix, wear);
    std::vector<std::unique_ptr<Latencies>> told;
    for (uint32_t place = 0; place < threads; place++) told.push_back(std::make_unique<Latencies>());
    Start start(threads);
    std::vector<std::thread> crew;
    for (uint32_t place = 0; place < threads; place++)
        crew.emplace_back([&, place] {
            start.come();
            time_calls(parts[place]->client, mix, place, operations, *told[place]);
        });
    for (auto &thread : crew) thread.join();
    for (uint32_t place = 1; place < threads; place++) told[0]->add(*told[place]);
    const std::string worn = wear == 0 ? "" : " after " + std::to_string(wear) + " updates a key";
    const std::string mixed = std::to_string(mix.gets) + "/" + std::to_string(mix.keys) + worn;
    LatencyTold{name + "," + mixed + "," + std::to_string(threads), told[0]->answers}.tell_all(*told[0]);
}
