// An index that threads share as one object: it answers as a handle does, each call takes a handle that nobody has, and no thread keeps one.
#include "cases.h"
#include <citrus_index.hpp>
#include <memory>
#include <string>
#include <thread>

static bool has_no_handle(citrus::index<> &index) {
    try {
        index.get(1);
    } catch (const citrus::error &told) {
        return told.why() == citrus::fault::no_handle && told.what() == std::string("citrus: no handle is left: open with more");
    }
    return false;
}

static bool is_refused(const citrus::options &asked) {
    try {
        citrus::index refused(asked);
    } catch (const citrus::error &told) {
        return told.why() == citrus::fault::bad_argument;
    }
    return false;
}

static void each_call(uint32_t waiter) {
    citrus::index index(100, 2, static_cast<citrus::waiter>(waiter));
    uint64_t expected = 1;
    WANT(index.empty(), true);
    WANT(index.insert(5, 50), true);
    WANT(index.insert(5, 51), false);
    WANT(index.get(5).value_or(0), 50);
    WANT(index.contains(6), false);
    WANT(index.replace(5, 52).value_or(0), 50);
    WANT(index.compare_exchange(5, expected, 53) == citrus::compared::different, true);
    WANT(expected, 52);
    WANT(index.compare_exchange(5, expected, 53) == citrus::compared::done, true);
    WANT(index.update(5, [](uint64_t value) { return value + 1; }).value_or(0), 53);
    WANT(index.upsert(5, 55).value_or(0), 54);
    WANT(index.upsert(7, 70).has_value(), false);
    WANT(index.first()->key, 5);
    WANT(index.last()->key, 7);
    WANT(index.size(), 2);
    WANT(index.list(0, 9).size(), 2);
    WANT(index.remove(5).value_or(0), 55);
    WANT(index.remove(5).has_value(), false);
    WANT(index.take(7, expected) == citrus::compared::different, true);
    WANT(expected, 70);
    WANT(index.take(7, expected) == citrus::compared::done, true);
    WANT(index.take(7, expected) == citrus::compared::absent, true);
    index.insert(8, 80);
    WANT(index.remove_if(8, [](uint64_t value) { return value < 80; }).has_value(), false);
    WANT(index.remove_if(8, [](uint64_t value) { return value == 80; }).value_or(0), 80);
}

// The handles are lent once each, and come back.
static void handles_run_out_and_come_back(uint32_t waiter) {
    citrus::index index(100, 3, static_cast<citrus::waiter>(waiter));
    index.insert(1, 10);
    {
        auto one = index.lend(), other = index.lend();
        WANT(&*one != &*other, true);
        WANT(index.get(1).value_or(0), 10);
        auto third = std::move(one);
        const auto value = third->hold(1);
        WANT(value.value(), 10);
        const auto last = index.lend();
        WANT(has_no_handle(index), true);
    }
    WANT(has_no_handle(index), false);
    const auto one = index.lend(), other = index.lend(), third = index.lend();
    WANT(one->left().tickets + other->left().tickets + third->left().tickets <= CITRUS_ALL_TICKETS, true);
    WANT(third->left().tickets > CITRUS_ALL_TICKETS / 4 && one->left().tickets > CITRUS_ALL_TICKETS / 4, true);
}

static void a_thread_is_lent_its_handle_again() {
    citrus::index<> index(100, 4), others[20] = {{10, 1}, {10, 1}, {10, 1}, {10, 1}, {10, 1}, {10, 1}, {10, 1}, {10, 1}, {10, 1}, {10, 1},
                                               {10, 1}, {10, 1}, {10, 1}, {10, 1}, {10, 1}, {10, 1}, {10, 1}, {10, 1}, {10, 1}, {10, 1}};
    const auto mine = [&] { return &*index.lend(); };
    const citrus::handle *const here = mine();
    WANT(mine() == here, true);
    for (citrus::index<> &other : others) WANT(other.insert(1, 10), true);
    WANT(mine() == here, true);
    const auto kept = index.lend();
    const citrus::handle *const there = mine();
    WANT(there != here, true);
    WANT(mine() == there, true);
}

// Threads come and go, of many indexes each, and these too: more threads than handles, none of which is kept.
static void threads_and_indexes_come_and_go(uint32_t waiter) {
    enum { ROUNDS = 30, THREADS = 6, INDEXES = 20, KEYS = 100 };
    for (uint64_t round = 0; round < ROUNDS; round++) {
        std::vector<std::unique_ptr<citrus::index<>>> all;
        std::vector<std::thread> threads;
        for (int i = 0; i < INDEXES; i++) all.push_back(std::make_unique<citrus::index<>>(THREADS * KEYS, THREADS, static_cast<citrus::waiter>(waiter)));
        for (uint64_t number = 0; number < THREADS; number++)
            threads.emplace_back([&all, number] {
                for (uint64_t key = 0; key < KEYS; key++)
                    for (const auto &index : all) index->insert(THREADS * key + number, number);
            });
        for (std::thread &thread : threads) thread.join();
        uint64_t found = 0;
        for (const auto &index : all) found += index->size();
        WANT(found, INDEXES * THREADS * KEYS);
    }
}

// Where threads are more than handles a call may find none, and no update is lost of those that found one.
static void more_threads_than_handles(uint32_t waiter) {
    citrus::index index(10, 2, static_cast<citrus::waiter>(waiter));
    std::atomic<uint64_t> raised{0};
    std::vector<std::thread> threads;
    index.insert(5, 0);
    for (int i = 0; i < 8; i++)
        threads.emplace_back([&] {
            for (int call = 0; call < 2000; call++) {
                try {
                    index.update(5, [](uint64_t value) { return value + 1; });
                    raised++;
                } catch (const citrus::error &told) {
                    if (told.why() != citrus::fault::no_handle) throw;
                    std::this_thread::yield();
                }
            }
        });
    for (std::thread &thread : threads) thread.join();
    WANT(index.get(5).value_or(0), raised.load());
    WANT(raised.load() > 0, true);
}

static void numbers_out_of_range_are_refused() {
    WANT(is_refused({0, 1}), true);
    WANT(is_refused({1, 0}), true);
    WANT(is_refused({1, CITRUS_MAX_HANDLES + 1}), true);
    WANT(is_refused({1, UINT32_MAX}), true);
}

// An index whose handles may keep back so many slots, 0 for the usual number, tells so of each, and has slots for all of them.
static void each_may_keep_back(citrus::options asked, uint32_t keep, uint64_t room) {
    asked.keep = keep;
    citrus::index index(asked);
    const auto one = index.lend(), other = index.lend();
    for (const citrus_numbers &told : {one->stats(), other->stats()}) {
        WANT(told.room, room);
        WANT(told.slots, asked.pairs + (room + 4) * asked.handles);
    }
    for (uint64_t i = 0; i < 3 * room; i++) {
        WANT(one->insert(i % 50, i), true);
        WANT(other->remove(i % 50).value_or(UNTOUCHED), i);
    }
    WANT(other->stats().kept < room, true);
}

static void handles_keep_back_what_the_options_say(uint32_t waiter) {
    citrus::options asked{1000, 2, static_cast<citrus::waiter>(waiter)};
    each_may_keep_back(asked, 16, 16);
    each_may_keep_back(asked, 4096, 4096);
    each_may_keep_back(asked, 0, 64);
    asked.pairs = 10000;
    each_may_keep_back(asked, 0, 10000 / (8 * 2));
    for (const uint32_t keep : {1u, 15u, 1u << 30, UINT32_MAX}) {
        asked.keep = keep;
        WANT(is_refused(asked), true);
    }
}

static const waiter_case waiter_cases[] = {
    {"C++ index: each call", each_call},
    {"C++ index: handles run out and come back", handles_run_out_and_come_back},
    {"C++ index: threads and indexes come and go", threads_and_indexes_come_and_go},
    {"C++ index: more threads than handles", more_threads_than_handles},
    {"C++ index: handles keep back what the options say", handles_keep_back_what_the_options_say},
};

static const plain_case plain_cases[] = {
    {"C++ index: a thread is lent its handle again", a_thread_is_lent_its_handle_again},
    {"C++ index: numbers out of range are refused", numbers_out_of_range_are_refused},
};

int main() {
    run_waiter_cases(waiter_cases, COUNT_OF(waiter_cases));
    run_plain_cases(plain_cases, COUNT_OF(plain_cases));
    return failed_cases != 0;
}
