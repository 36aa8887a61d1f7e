// A cache of strings by id, each for some seconds: threads read a string in place, and it is dropped when nobody reads it any more.
#include <chrono>
#include <citrus_map.hpp>
#include <iostream>
#include <string>
#include <thread>

using std::chrono::steady_clock;

struct entry {
    std::string text;
    steady_clock::time_point end;
};

using cache = citrus::map<entry>;

static void put(cache &mine, uint64_t id, std::string text, std::chrono::seconds time) {
    mine.upsert(id, std::make_unique<entry>(entry{std::move(text), steady_clock::now() + time}));
}

static bool is_over(const entry &its) { return its.end <= steady_clock::now(); }

// Reads the text where it stands. What is past its time is taken out, and dropped later; what was put meanwhile stays.
static void print(cache &mine, uint64_t id) {
    auto found = mine.get(id);
    if (!found) return;
    const bool goes = is_over(*found);
    if (!goes) std::cout << id << ": " << found->text << "\n";
    found.release();
    if (goes) mine.retire_if(id, is_over);
}

int main() {
    cache mine(1000, 2);
    std::thread writer([other = mine.share()]() mutable {
        put(other, 5, "fife", std::chrono::seconds(60));
        put(other, 5, "five", std::chrono::seconds(60));
        put(other, 6, "six", std::chrono::seconds(0));
    });
    writer.join();
    for (uint64_t id = 5; id <= 6; id++) print(mine, id);
}
