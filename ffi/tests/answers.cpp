// Each call of citrus.hpp: its answers, its refusals, and what becomes of handles.
#include "cases.h"
#include <chrono>
#include <citrus.hpp>
#include <functional>
#include <thread>
#include <type_traits>

static_assert(!std::is_copy_constructible_v<citrus::handle> && !std::is_copy_assignable_v<citrus::handle>);
static_assert(std::is_nothrow_move_constructible_v<citrus::handle> && std::is_nothrow_move_assignable_v<citrus::handle>);
// Handles that stand beside each other share no line of memory.
static_assert(alignof(citrus::handle) == 128 && sizeof(citrus::handle) == 128);

// Whether the work is refused for this reason.
static bool is_refused(citrus::fault why, const std::function<void()> &work) {
    try {
        work();
    } catch (const citrus::error &told) {
        return told.why() == why && told.what() == std::string(citrus::text_of(why));
    }
    return false;
}

static void answers(uint32_t waiter) {
    citrus::handle index(10, 1, static_cast<citrus::waiter>(waiter));
    WANT(index.get(1).has_value(), false);
    WANT(index.replace(1, 10).has_value(), false);
    WANT(index.remove(1).has_value(), false);
    WANT(index.first().has_value(), false);
    WANT(index.insert(1, 10), true);
    WANT(index.insert(1, 11), false);
    WANT(index.get(1).value_or(0), 10);
    WANT(index.replace(1, 12).value_or(0), 10);
    WANT(index.upsert(1, 13).value_or(0), 12);
    WANT(index.upsert(2, 20).has_value(), false);
    WANT(index.first_from(2).value_or(citrus_pair{}).key, 2);
    WANT(index.first_from(2).value_or(citrus_pair{}).value, 20);
    WANT(index.remove(1).value_or(0), 13);
    WANT(index.get(1).has_value(), false);
    WANT(index.get(2).value_or(0), 20);
}

static void compares(uint32_t waiter) {
    citrus::handle index(10, 1, static_cast<citrus::waiter>(waiter));
    uint64_t expected = 10, calls = 0;
    const auto twice = [&](uint64_t value) { return calls++, 2 * value; };
    WANT(index.compare_exchange(1, expected, 11) == citrus::compared::absent, true);
    WANT(expected, 10);
    WANT(index.update(1, twice).has_value(), false);
    WANT(calls, 0);
    index.insert(1, 10);
    WANT(index.compare_exchange(1, expected, 11) == citrus::compared::done, true);
    WANT(expected, 10);
    WANT(index.compare_exchange(1, expected, 12) == citrus::compared::different, true);
    WANT(expected, 11);
    WANT(index.compare_exchange(1, expected, 12) == citrus::compared::done, true);
    WANT(index.update(1, twice).value_or(0), 12);
    WANT(calls, 1);
    WANT(index.get(1).value_or(0), 24);
    WANT(is_refused(citrus::fault::closed, [] { citrus::handle().update(1, [](uint64_t value) { return value; }); }), true);
    WANT(is_refused(citrus::fault::closed, [&] { citrus::handle().compare_exchange(1, expected, 1); }), true);
}

// An update of a value that others change meanwhile begins again with theirs.
static void updates_begin_again(uint32_t waiter) {
    citrus::handle index(10, 2, static_cast<citrus::waiter>(waiter)), other = index.share();
    uint64_t calls = 0;
    index.insert(1, 10);
    index.insert(2, 20);
    WANT(index.update(1, [&](uint64_t value) { return calls++ ? 2 * value : (other.upsert(1, 15), 7); }).value_or(0), 15);
    WANT(calls, 2);
    WANT(index.get(1).value_or(0), 30);
    WANT(index.update(2, [&](uint64_t value) { return other.remove(2), value; }).has_value(), false);
    WANT(index.contains(2), false);
    std::vector<std::thread> threads;
    citrus::handle wide(10, 4, static_cast<citrus::waiter>(waiter));
    wide.insert(7, 0);
    for (int i = 0; i < 3; i++)
        threads.emplace_back([mine = wide.share()]() mutable {
            for (int raise = 0; raise < 10000; raise++) mine.update(7, [](uint64_t value) { return value + 1; });
        });
    for (std::thread &thread : threads) thread.join();
    WANT(wide.get(7).value_or(0), 30000);
}

static void first_and_last_pairs(uint32_t waiter) {
    citrus::handle index(10, 1, static_cast<citrus::waiter>(waiter));
    WANT(index.empty(), true);
    WANT(index.size(), 0);
    WANT(index.last().has_value(), false);
    WANT(index.pop_first().has_value(), false);
    WANT(index.pop_last().has_value(), false);
    for (uint64_t key = 1; key <= 5; key++) index.insert(key, 10 * key);
    WANT(index.empty(), false);
    WANT(index.contains(5), true);
    WANT(index.contains(6), false);
    WANT(index.last().value_or(citrus_pair{}).key, 5);
    WANT(index.last_to(3).value_or(citrus_pair{}).value, 30);
    WANT(index.last_to(0).has_value(), false);
    WANT(index.last(2, 4).value_or(citrus_pair{}).key, 4);
    WANT(index.last(6, 9).has_value(), false);
    WANT(index.pop_first().value_or(citrus_pair{}).value, 10);
    WANT(index.pop_first_from(3).value_or(citrus_pair{}).value, 30);
    WANT(index.pop_first_from(6).has_value(), false);
    WANT(index.pop_last().value_or(citrus_pair{}).key, 5);
    WANT(index.pop_last_to(3).value_or(citrus_pair{}).key, 2);
    WANT(index.pop_last_to(3).has_value(), false);
    WANT(index.size(), 1);
}

static uint64_t sum_of_keys(citrus::handle &index, uint64_t low, uint64_t high, size_t room) {
    uint64_t sum = 0, before = 0, ascends = 1;
    for (const auto &[key, value] : index.range(low, high, room)) {
        ascends &= sum == 0 || key > before;
        sum += before = key;
        ascends &= value == ~key;
    }
    WANT(ascends, 1);
    return sum;
}

static void ranges(uint32_t waiter) {
    citrus::handle index(3000, 1, static_cast<citrus::waiter>(waiter));
    WANT(index.range().begin() == index.range().end(), true);
    for (uint64_t key = 1; key <= 3000; key++) index.insert(key, ~key);
    WANT(index.size(), 3000);
    WANT(index.size(10, 19), 10);
    WANT(sum_of_keys(index, 0, UINT64_MAX, citrus::handle::page_room), 3000 * 3001 / 2);
    for (size_t room = 1; room <= 7; room++) WANT(sum_of_keys(index, 11, 20, room), 155);
    WANT(sum_of_keys(index, 4000, 5000, 10), 0);
    auto twice = index.range(5, 6, 1);
    auto at = twice.begin();
    WANT((*at++).key, 5);
    WANT(at->key, 6);
    WANT(++at == twice.end(), true);
    WANT(twice.begin()->key, 5);
    WANT(is_refused(citrus::fault::bad_argument, [&] { index.range(2, 1).begin(); }), true);
    WANT(is_refused(citrus::fault::bad_argument, [&] { index.range(1, 2, 0).begin(); }), true);
    for (const citrus_pair &pair : index.range(0, UINT64_MAX, 10))
        if (pair.key % 3) index.remove(pair.key);
    WANT(index.size(), 1000);
    WANT(index.retain(1, 1500, [](uint64_t key, uint64_t value) { return key % 2 == 0 && value == ~key; }), 250);
    WANT(index.size(), 750);
    WANT(index.clear(2001, 2100), 34);
    WANT(index.clear(), 716);
    WANT(index.empty(), true);
    WANT(is_refused(citrus::fault::bad_argument, [&] { index.size(2, 1); }), true);
}

// What is put in before the page that a pass has come to is seen, and what is put in behind it isn't.
static void ranges_go_on_at_the_next_key(uint32_t waiter) {
    citrus::handle index(100, 1, static_cast<citrus::waiter>(waiter));
    for (uint64_t key = 10; key < 20; key++) index.insert(key, key);
    uint64_t seen = 0;
    for (const citrus_pair &pair : index.range(0, 50, 5)) {
        if (pair.key == 12) index.insert(5, 5), index.insert(30, 30), index.remove(19);
        seen += pair.key;
    }
    WANT(seen, 10 + 11 + 12 + 13 + 14 + 15 + 16 + 17 + 18 + 30);
}

// The salt is fixed: with some the inserts leave nothing to turn.
static void tidies(uint32_t waiter) {
    citrus::handle index(citrus::options{1010, 1, static_cast<citrus::waiter>(waiter), 5});
    for (uint64_t key = 0; key < 1000; key++) index.insert(key, 10 * key);
    std::optional<uint64_t> next = 0;
    uint32_t made = 0;
    while (next) {
        const citrus::tidied came = index.tidy(*next, UINT64_MAX);
        made += came.made;
        next = came.next;
    }
    WANT(made > 0, true);
    WANT(index.tidy(0, 255).made, 0);
    WANT(index.tidy(0, 255).next.has_value(), false);
    WANT(index.list(0, 999).pairs.size(), 1000);
    WANT(is_refused(citrus::fault::bad_argument, [&] { index.tidy(1, 0); }), true);
    WANT(is_refused(citrus::fault::bad_argument, [&] { index.tidy(0, 1, 0); }), true);
}

// How many turns make the tree of some keys the one of its salt.
static uint64_t turns_by(std::optional<uint64_t> salt) {
    citrus::handle index(citrus::options{1000, 1, citrus::waiter::eer, salt});
    for (uint64_t i = 0; i < 1000; i++) index.insert(i * 617 % 1000, i);
    uint64_t made = 0;
    for (std::optional<uint64_t> next = 0; next;) {
        const citrus::tidied came = index.tidy(*next, UINT64_MAX);
        made += came.made;
        next = came.next;
    }
    return made;
}

static void salts() {
    const uint64_t drawn = turns_by(std::nullopt);
    bool is_another = false;
    for (int i = 0; i < 10; i++) is_another = is_another || turns_by(std::nullopt) != drawn;
    WANT(is_another, true);
    WANT(turns_by(5), turns_by(5));
    WANT(turns_by(5) != turns_by(6), true);
    WANT(is_refused(citrus::fault::bad_argument, [] { citrus::handle(citrus::options{0, 1}); }), true);
}

static void pages(uint32_t waiter) {
    citrus::handle index(10, 1, static_cast<citrus::waiter>(waiter));
    for (uint64_t key = 1; key <= 5; key++) index.insert(key, 10 * key);
    const citrus::page whole = index.list(2, 4);
    WANT(whole.pairs.size(), 3);
    WANT(whole.next.has_value(), false);
    uint64_t sum = 0;
    for (const auto &[key, value] : whole) sum += key * value;
    WANT(sum, 290);
    WANT(whole.size(), 3);
    WANT(index.list(6, 9).empty(), true);
    const citrus::page part = index.list(2, 5, 2);
    WANT(part.pairs.size(), 2);
    WANT(part.pairs[1].value, 30);
    WANT(part.next.value_or(0), 4);
    WANT(index.list(6, 9).pairs.size(), 0);
    WANT(is_refused(citrus::fault::bad_argument, [&] { index.list(2, 1); }), true);
    WANT(is_refused(citrus::fault::bad_argument, [&] { index.list(1, 2, 0); }), true);
    WANT(is_refused(citrus::fault::bad_argument, [&] { index.list(1, 2, CITRUS_MAX_ROOM + size_t{1}); }), true);
}

static void sections(uint32_t waiter) {
    citrus::handle index(10, 2, static_cast<citrus::waiter>(waiter)), other = index.share();
    index.insert(1, 10);
    WANT(bool(index.hold(2)), false);
    {
        citrus::section held = index.hold(1);
        WANT(bool(held), true);
        WANT(held.value(), 10);
        WANT(is_refused(citrus::fault::holds, [&] { index.get(1); }), true);
        WANT(is_refused(citrus::fault::holds, [&] { static_cast<void>(index.hold(1)); }), true);
        WANT(is_refused(citrus::fault::holds, [&] { index.wait(0, 9); }), true);
        citrus::section moved = std::move(held);
        WANT(bool(held), false);
        WANT(moved.value(), 10);
        WANT(is_refused(citrus::fault::holds, [&] { index.get(1); }), true);
        const uint64_t cookie = other.begin(1, 1);
        WANT(other.poll(cookie) == citrus::progress::not_yet, true);
        moved.leave();
        WANT(bool(moved), false);
        WANT(index.get(1).value_or(0), 10);
        citrus::progress told = citrus::progress::not_yet;
        while (told == citrus::progress::not_yet) told = other.poll(cookie);
        WANT(told == citrus::progress::over, true);
        WANT(other.poll(cookie) == citrus::progress::displaced, true);
        moved = index.enter(5);
        WANT(is_refused(citrus::fault::holds, [&] { index.begin(0, 9); }), true);
    }
    index.wait(0, UINT64_MAX);
    WANT(is_refused(citrus::fault::bad_argument, [&] { index.wait(2, 1); }), true);
    WANT(is_refused(citrus::fault::bad_argument, [&] { index.begin(2, 1); }), true);
    WANT(is_refused(citrus::fault::closed, [] { citrus::handle().wait(0, 1); }), true);
    WANT(is_refused(citrus::fault::closed, [] { citrus::handle().poll(0); }), true);
}

static void refusals() {
    WANT(is_refused(citrus::fault::bad_argument, [] { citrus::handle(0, 1); }), true);
    WANT(is_refused(citrus::fault::bad_argument, [] { citrus::handle(1, CITRUS_MAX_HANDLES + 1); }), true);
    WANT(is_refused(citrus::fault::bad_argument, [] { citrus::handle(1, 1, citrus::waiter{3}); }), true);
    WANT(is_refused(citrus::fault::bad_argument, [] { citrus::handle(citrus::options{1, 1, citrus::waiter::eer, 5, 15}); }), true);
    citrus::handle full(1, 1), index(1, 2);
    for (uint64_t key = 0; key < 1 + 68; key++) full.insert(key, 10);
    WANT(is_refused(citrus::fault::full, [&] { full.insert(100, 20); }), true);
    WANT(is_refused(citrus::fault::full, [&] { full.upsert(100, 20); }), true);
    citrus::handle poor = index.share(1, 3);
    WANT(is_refused(citrus::fault::spent, [&] { poor.get(1); }), true);
    WANT(is_refused(citrus::fault::no_handle, [&] { index.share(); }), true);
    poor.close();
    WANT(is_refused(citrus::fault::closed, [&] { poor.get(1); }), true);
    WANT(is_refused(citrus::fault::closed, [] { citrus::handle().list(0, 1); }), true);
}

static void handles_are_moved() {
    citrus::handle first(20, 4), empty;
    first.insert(1, 10);
    WANT(empty.is_open(), false);
    citrus::handle second = std::move(first);
    WANT(first.is_open(), false);
    WANT(second.get(1).value_or(0), 10);
    first = std::move(second);
    WANT(first.get(1).value_or(0), 10);
    citrus::handle &same = first;
    first = std::move(same);
    WANT(first.is_open(), true);
    first = citrus::handle(5, 1);
    WANT(first.get(1).has_value(), false);
    first.close();
    first.close();
    WANT(first.is_open(), false);
}

static void handles_are_shared() {
    citrus::handle first(20, 4);
    citrus::handle second = first.share(2, 1000), third = second.share();
    WANT(first.left().handles, 1);
    WANT(first.left().tickets, CITRUS_ALL_TICKETS - 1000);
    WANT(first.stats().tickets, CITRUS_ALL_TICKETS - 1000);
    WANT(first.stats().unshared, 1);
    WANT(second.left().tickets, 500);
    WANT(second.fair_share(), 500);
    WANT(first.fair_share(), (CITRUS_ALL_TICKETS - 1000) / 2);
    WANT(third.left().handles, 0);
    third.insert(1, 10);
    WANT(first.get(1).value_or(0), 10);
    WANT(is_refused(citrus::fault::no_handle, [&] { third.share(); }), true);
    WANT(is_refused(citrus::fault::no_handle, [&] { third.share(2, 0); }), true);
    WANT(is_refused(citrus::fault::bad_argument, [&] { third.share(0, 0); }), true);
    WANT(is_refused(citrus::fault::bad_argument, [&] { first.share(2, 0); }), true);
    WANT(is_refused(citrus::fault::bad_argument, [&] { first.share(1, CITRUS_ALL_TICKETS); }), true);
    WANT(std::string(citrus::text_of(citrus::fault::no_handle)) == "citrus: no handle is left: open with more", true);
    WANT(citrus::handle().fair_share(), 0);
    second.close();
    first.close();
    WANT(third.get(1).value_or(0), 10);
}

static void handles_are_opened_again() {
    citrus::handle first(20, 2);
    WANT(first.reopen().has_value(), false);
    citrus::handle second = first.share(1, 1000);
    second.insert(1, 10);
    const uint64_t tickets = second.left().tickets;
    second.close();
    WANT(is_refused(citrus::fault::closed, [&] { second.reopen(); }), true);
    second = first.reopen().value();
    WANT(second.left().tickets, tickets);
    WANT(second.get(1).value_or(0), 10);
    second = citrus::handle();
    WANT(first.reopen()->get(1).value_or(0), 10);
    WANT(first.reopen().has_value(), true);
}

static void handles_go_to_threads() {
    citrus::handle index(1000, 4);
    std::vector<std::thread> threads;
    for (uint64_t number = 1; number < 4; number++)
        threads.emplace_back([number, mine = index.share()]() mutable {
            for (uint64_t i = 0; i < 100; i++) mine.insert(4 * i + number, number);
        });
    for (std::thread &thread : threads) thread.join();
    WANT(index.list(0, UINT64_MAX).pairs.size(), 300);
    WANT(index.get(399).value_or(0), 3);
}

// Four threads put in every fourth key each, and look it up: how many seconds that takes. The keys are in order by a factor of 1.
static double load_seconds(uint64_t factor) {
    enum : uint64_t { LOADED = 100000, THREADS = 4 };
    citrus::handle index(LOADED, THREADS + 1);
    std::vector<std::thread> threads;
    const auto begin = std::chrono::steady_clock::now();
    for (uint64_t number = 0; number < THREADS; number++)
        threads.emplace_back([number, factor, mine = index.share()]() mutable {
            for (uint64_t i = number; i < LOADED; i += THREADS) mine.insert(factor * i, i);
            for (uint64_t i = number; i < LOADED; i += THREADS) mine.get(factor * i);
        });
    for (std::thread &thread : threads) thread.join();
    const std::chrono::duration<double> taken = std::chrono::steady_clock::now() - begin;
    uint64_t right = 0;
    for (uint64_t i = 0; i < LOADED; i++) right += index.get(factor * i).value_or(LOADED) == i;
    WANT(right, LOADED);
    return taken.count();
}

static void keys_in_order_make_no_path() {
    const double scattered = load_seconds(0x9e3779b97f4a7c15u);
    WANT(load_seconds(1) < 20 * scattered + 0.5, true);
}

static_assert(!std::is_copy_constructible_v<citrus::lanes> && std::is_nothrow_move_assignable_v<citrus::lanes>);

static void lanes_look_up_many(uint32_t waiter) {
    citrus::handle index(100, 6, static_cast<citrus::waiter>(waiter));
    for (uint64_t key = 0; key < 50; key++) index.insert(key * 2, key);
    citrus::lanes lanes = index.open_lanes(4);
    WANT(index.left().handles, 1);
    std::vector<uint64_t> keys;
    for (uint64_t key = 0; key < 100; key++) keys.push_back(key);
    const std::vector<std::optional<uint64_t>> values = lanes.get_many(keys);
    WANT(values.size(), 100);
    for (uint64_t key = 0; key < 100; key++) {
        WANT(values[key].has_value(), key % 2 == 0);
        WANT(values[key].value_or(0), key % 2 ? 0 : key / 2);
    }
    WANT(lanes.get_many(std::vector<uint64_t>()).size(), 0);
    WANT(is_refused(citrus::fault::bad_argument, [&] { (void)index.open_lanes(2); }), true);
    citrus::lanes moved = std::move(lanes);
    WANT(lanes.is_open(), false);
    WANT(is_refused(citrus::fault::closed, [&] { lanes.get_many(keys); }), true);
    WANT(is_refused(citrus::fault::closed, [&] { lanes.get_many(std::vector<uint64_t>()); }), true);
    WANT(moved.get_many(std::vector<uint64_t>{4})[0].value_or(0), 2);
    moved = index.open_lanes(1);
    WANT(index.reopen().has_value(), true);
    WANT(moved.get_many(std::vector<uint64_t>{4})[0].value_or(0), 2);
    index.close();
    WANT(moved.get_many(std::vector<uint64_t>{6})[0].value_or(0), 3);
}

static const waiter_case waiter_cases[] = {
    {"C++: answers", answers},
    {"C++: compares", compares},
    {"C++: updates begin again where others come between", updates_begin_again},
    {"C++: first and last pairs", first_and_last_pairs},
    {"C++: pages", pages},
    {"C++: ranges", ranges},
    {"C++: ranges go on at the next key", ranges_go_on_at_the_next_key},
    {"C++: tidies", tidies},
    {"C++: sections", sections},
    {"C++: lanes look up many keys", lanes_look_up_many},
};

static const plain_case plain_cases[] = {
    {"C++: refusals", refusals},
    {"C++: handles are moved", handles_are_moved},
    {"C++: handles are shared", handles_are_shared},
    {"C++: handles are opened again", handles_are_opened_again},
    {"C++: handles go to threads", handles_go_to_threads},
    {"C++: keys in order make no path", keys_in_order_make_no_path},
    {"C++: a fixed salt makes the same tree, and drawn ones make others", salts},
};

int main() {
    run_waiter_cases(waiter_cases, COUNT_OF(waiter_cases));
    run_plain_cases(plain_cases, COUNT_OF(plain_cases));
    return failed_cases != 0;
}
