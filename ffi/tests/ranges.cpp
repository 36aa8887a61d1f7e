// Ranges up and down, and the pairs at the ends, of handles, shared indexes and maps of objects: as those of a std::map; beside writers, where keys
// go on in order, and what is there all the time comes once; and threads that pop, where each pair comes to one. An object tells whether it is
// there still. With a word it runs the cases alone that have it in their names.
#include "cases.h"
#include <algorithm>
#include <citrus_index.hpp>
#include <citrus_map.hpp>
#include <functional>
#include <map>
#include <string>
#include <thread>
#if __cplusplus >= 202002L
#include <ranges>
#endif

static std::atomic<long> there{0};

// What is read of it is wrong once it was given up.
struct object {
    uint64_t key, check;

    explicit object(uint64_t its) : key(its), check(~its) { ++there; }
    object(const object &) = delete;
    object &operator=(const object &) = delete;
    ~object() {
        check = key;
        --there;
    }

    bool is_of(uint64_t wanted) const { return key == wanted && check == ~wanted; }
};

using objects = citrus::map<object>;
using numbers = std::map<uint64_t, uint64_t>;

static std::unique_ptr<object> make(uint64_t key) { return std::make_unique<object>(key); }

static citrus::waiter how(uint32_t waiter) { return static_cast<citrus::waiter>(waiter); }

// Keys that have both ends of all keys among them.
static numbers some_pairs(uint64_t count) {
    numbers all;
    for (uint64_t i = 0; i < count; i++) all.emplace(i * (UINT64_MAX / std::max<uint64_t>(count - 1, 1)), i);
    return all;
}

// The pairs of a pass, from an iterator on.
template <class At, class End> static std::vector<std::pair<uint64_t, uint64_t>> pairs_of(At at, End end) {
    std::vector<std::pair<uint64_t, uint64_t>> found;
    for (; at != end; ++at) found.emplace_back((*at).key, (*at).value);
    return found;
}

template <class Range> static bool is_range(Range &&range, numbers::const_iterator from, numbers::const_iterator to) {
    const std::vector<std::pair<uint64_t, uint64_t>> up(from, to), down(up.rbegin(), up.rend());
    // A pass each way at a time, and one behind the other.
    return pairs_of(range.rbegin(), range.rend()) == down && pairs_of(range.begin(), range.end()) == up && pairs_of(range.rbegin(), range.rend()) == down;
}

static void as_a_map_of_std(uint32_t waiter) {
    uint64_t state = 88172645463325252u;
    for (const uint64_t count : {0, 1, 2, 7, 1000, 1001, 2001}) {
        citrus::index index(3000, 2, how(waiter));
        auto mine = index.lend();
        const numbers all = some_pairs(count);
        for (const auto &[key, value] : all) WANT(index.insert(key, value), true);
        WANT(is_range(mine->range(), all.begin(), all.end()), true);
        WANT(is_range(index.range(), all.begin(), all.end()), true);
        for (int i = 0; i < 10; i++) {
            uint64_t low = draw(&state), high = draw(&state);
            if (low > high) std::swap(low, high);
            const auto from = all.lower_bound(low), to = all.upper_bound(high);
            for (const size_t room : {1, 2, 3, 1000}) {
                WANT(is_range(mine->range(low, high, room), from, to), true);
                WANT(is_range(index.range(low, high, room), from, to), true);
            }
            WANT(is_range(mine->range(low), from, all.end()), true);
            WANT(is_range(index.range(low), from, all.end()), true);
        }
    }
}

static bool is_bad(const std::function<void()> &work) {
    try {
        work();
    } catch (const citrus::error &told) {
        return told.why() == citrus::fault::bad_argument;
    }
    return false;
}

// What other calls do between the pages is seen, and what they do within one isn't.
static void other_calls_go_on(uint32_t waiter) {
    citrus::index index(100, 1, how(waiter));
    for (uint64_t key = 10; key < 20; key++) index.insert(key, key);
    std::vector<uint64_t> seen;
    auto range = index.range(0, 50, 5);
    for (auto at = range.rbegin(); at != range.rend(); ++at) {
        if (at->key == 17) index.insert(30, 30), index.insert(5, 5), index.remove(16), index.remove(12);
        seen.push_back(at->key);
    }
    WANT((seen == std::vector<uint64_t>{19, 18, 17, 16, 15, 14, 13, 11, 10, 5}), true);
    // No handle is out between pages, so each pair may go as it comes.
    for (const auto &[key, value] : index.range(0, UINT64_MAX, 2)) WANT(index.remove(key).value_or(0), value);
    WANT(index.empty(), true);
    auto at = range.rbegin();
    WANT(at == range.rend(), true);
    for (uint64_t key = 1; key < 4; key++) index.insert(key, key);
    at = range.rbegin();
    WANT((*at++).key, 3);
    WANT(at->key, 2);
    WANT(range.rbegin()->key, 3);
    WANT(is_bad([&] { index.range(2, 1).rbegin(); }), true);
    WANT(is_bad([&] { index.lend()->range(1, 2, 0).rbegin(); }), true);
}

static void ends_by_keys() {
    citrus::index<int, double> index(10, 1);
    for (const int key : {-5, 0, 5, 9}) WANT(index.insert(key, key / 2.0), true);
    WANT(index.first()->key == -5 && index.first_from(1)->key == 5 && index.last()->key == 9 && index.last_to(-1)->key == -5, true);
    std::vector<int> down;
    auto range = index.range(-4, 9, 2);
    for (auto at = range.rbegin(); at != range.rend(); ++at) {
        const auto &[key, value] = *at;
        WANT(value == key / 2.0, true);
        down.push_back(key);
    }
    WANT((down == std::vector<int>{9, 5, 0}), true);
    WANT(index.pop_first_from(-4)->key == 0 && index.pop_last_to(8)->key == 5 && index.pop_last()->key == 9 && index.pop_first()->key == -5, true);
    WANT(index.pop_first() || index.pop_last() || index.pop_first_from(0) || index.pop_last_to(0), false);
}

// The keys of objects, which are read as they are held.
template <class At, class End> static std::vector<uint64_t> keys_of(At at, End end) {
    std::vector<uint64_t> found;
    for (; at != end; ++at) {
        const auto &[key, value] = *at;
        WANT(value->is_of(key), true);
        found.push_back(key);
    }
    return found;
}

static void objects_as_a_map_of_std(uint32_t waiter) {
    uint64_t state = 88172645463325252u;
    for (const uint64_t count : {0, 1, 2, 1000, 1001}) {
        objects mine(3000, 1, how(waiter));
        const numbers all = some_pairs(count);
        for (const auto &[key, value] : all) WANT(mine.insert(key, make(key)), true);
        for (int i = 0; i < 10; i++) {
            uint64_t low = i ? draw(&state) : 0, high = i ? draw(&state) : UINT64_MAX;
            if (low > high) std::swap(low, high);
            std::vector<uint64_t> wanted;
            for (auto at = all.lower_bound(low); at != all.upper_bound(high); ++at) wanted.push_back(at->first);
            for (const size_t room : {1, 3, 1000}) {
                auto range = mine.range(low, high, room);
                WANT(keys_of(range.begin(), range.end()) == wanted, true);
                std::reverse(wanted.begin(), wanted.end());
                WANT(keys_of(range.rbegin(), range.rend()) == wanted, true);
                std::reverse(wanted.begin(), wanted.end());
            }
        }
    }
    WANT(there, 0);
}

// An object that went since its page was listed is left out, one that was replaced is read as it is, and one that is released may go.
static void objects_that_come_and_go(uint32_t waiter) {
    {
        objects mine(100, 2, how(waiter)), other = mine.share();
        for (uint64_t key = 0; key < 10; key++) mine.insert(key, make(key));
        auto range = mine.range(1, 8);
        auto at = range.begin();
        const auto is_at = [&](uint64_t key) {
            const bool is_it = at != range.end() && at->key == key && at->value->is_of(key);
            WANT(is_it, true);
            return is_it;
        };
        if (!is_at(1)) return;
        at->value.release();
        other.remove(2), other.retire(3), other.replace(4, make(4)), other.remove(5), other.insert(5, make(5)), other.remove(8);
        ++at;
        if (!is_at(4)) return;
        at->value.release();
        WANT(at->value.get() == nullptr, true);
        WANT(mine.retire(4), true);
        at++;
        if (!is_at(5)) return;
        at->value.release();
        // The pass from below gives way to one from above.
        auto down = range.rbegin();
        WANT(down->key == 7 && down->value->is_of(7), true);
        auto moved = std::move(range);
        WANT(moved.begin()->key, 1);
    }
    WANT(there, 0);
}

static void ends_of_objects(uint32_t waiter) {
    {
        citrus::map<int, object> mine(100, 1, how(waiter));
        WANT(mine.first() || mine.last() || mine.first_from(0) || mine.last_to(0) || mine.first_key() || mine.last_key(), false);
        for (const int key : {-5, 0, 5, 9}) mine.insert(key, make(uint64_t(int64_t(key))));
        const auto is = [](const auto &found, int key) { return found && found->key == key && found->value->is_of(uint64_t(int64_t(key))); };
        // Each is read alone.
        WANT(is(mine.first(), -5), true);
        WANT(is(mine.last(), 9), true);
        WANT(is(mine.first_from(1), 5), true);
        WANT(is(mine.last_to(-1), -5), true);
        WANT(mine.first_from(10) || mine.last_to(-6), false);
        WANT(mine.first_key() == -5 && mine.last_key() == 9 && mine.first_key_from(1) == 5 && mine.last_key_to(-1) == -5, true);
        std::vector<int> down;
        auto range = mine.range(-4, 9);
        for (auto at = range.rbegin(); at != range.rend(); ++at) down.push_back(at->key);
        WANT((down == std::vector<int>{9, 5, 0}), true);
        for (const auto &[key, value] : mine.range(6)) WANT(key == 9 && value->is_of(9), true);
        WANT(is(mine.pop_first_from(-4), 0) && is(mine.pop_last_to(8), 5) && is(mine.pop_last(), 9) && is(mine.pop_first(), -5), true);
        WANT(mine.pop_first() || mine.pop_last() || mine.pop_first_from(0) || mine.pop_last_to(0), false);
    }
    WANT(there, 0);
}

// Runs the work in three threads beside the judge, until that is done.
template <class Work> static void beside(Work work, const std::function<void()> &judge) {
    std::atomic<bool> is_over{false};
    std::vector<std::thread> threads;
    for (uint64_t number = 1; number <= 3; number++)
        threads.emplace_back([&, number] {
            for (uint64_t state = 88172645463325252u + number; !is_over;) work(number - 1, draw(&state) >> 8, (draw(&state) >> 8) % 4);
        });
    judge();
    is_over = true;
    for (std::thread &thread : threads) thread.join();
}

// How much is wrong of a pass: a key out of order or its value, or an even key that was left out.
template <class At, class End, class IsRight> static uint64_t wrong_in_pass(At at, End end, uint64_t keys, bool is_down, IsRight is_right) {
    uint64_t wrong = 0, even = 0;
    std::optional<uint64_t> before;
    for (; at != end; ++at) {
        const uint64_t key = (*at).key;
        wrong += before && (is_down ? key >= *before : key <= *before);
        wrong += key >= keys || !is_right(*at);
        even += key % 2 == 0;
        before = key;
    }
    return wrong + (even != keys / 2);
}

static void beside_writers(uint32_t waiter) {
    enum { KEYS = 4000 };
    citrus::index index(KEYS, 4, how(waiter));
    uint64_t wrong = 0;
    for (uint64_t key = 0; key < KEYS; key += 2) index.insert(key, ~key);
    const auto change = [&](size_t, uint64_t drawn, uint64_t which) {
        const uint64_t key = drawn % (KEYS / 2) * 2 + 1;
        which % 2 ? void(index.insert(key, ~key)) : void(index.remove(key));
    };
    const auto is_right = [](const citrus_pair &pair) { return pair.value == ~pair.key; };
    beside(change, [&] {
        for (int i = 0; i < 20; i++) {
            auto range = index.range(0, KEYS + 1, i % 2 ? 100 : 1000);
            wrong += wrong_in_pass(range.rbegin(), range.rend(), KEYS, true, is_right);
            wrong += wrong_in_pass(range.begin(), range.end(), KEYS, false, is_right);
        }
    });
    WANT(wrong, 0);
}

static void objects_beside_writers(uint32_t waiter) {
    enum { KEYS = 1500 };
    {
        objects mine(KEYS, 4, how(waiter));
        std::vector<objects> others;
        std::atomic<uint64_t> wrong{0};
        for (uint64_t key = 0; key < KEYS; key += 2) mine.insert(key, make(key));
        for (int i = 0; i < 3; i++) others.push_back(mine.share());
        const auto change = [&](size_t who, uint64_t drawn, uint64_t which) {
            const uint64_t key = which == 0 ? drawn % KEYS : drawn % (KEYS / 2) * 2 + 1;
            if (which == 0) wrong += [&] { const auto old = others[who].replace(key, make(key)); return old && !old->is_of(key); }();
            if (which == 1) others[who].insert(key, make(key));
            if (which == 2) others[who].retire(key);
            if (which == 3) wrong += [&] { const auto old = others[who].remove(key); return old && !old->is_of(key); }();
        };
        const auto is_right = [](const citrus::held_pair<uint64_t, object> &pair) { return pair.value->is_of(pair.key); };
        beside(change, [&] {
            for (int i = 0; i < 20; i++) {
                auto range = mine.range(0, KEYS + 1, i % 2 ? 100 : 1000);
                wrong += wrong_in_pass(range.begin(), range.end(), KEYS, false, is_right);
                wrong += wrong_in_pass(range.rbegin(), range.rend(), KEYS, true, is_right);
                const auto first = mine.first();
                wrong += !first || first->key != 0 || !first->value->is_of(0);
            }
        });
        WANT(wrong, 0);
    }
    WANT(there, 0);
}

// Four threads pop, two at each end, until nothing is left: each pair comes to one of them, and at each end in order.
template <class Pop> static void each_comes_to_one(uint64_t pairs, Pop pop) {
    std::vector<std::vector<uint64_t>> told(4);
    std::vector<std::thread> threads;
    for (size_t number = 0; number < told.size(); number++)
        threads.emplace_back([&, number] {
            while (const std::optional<uint64_t> key = pop(number, number % 2 == 1)) told[number].push_back(*key);
        });
    for (std::thread &thread : threads) thread.join();
    std::vector<uint64_t> all;
    for (size_t number = 0; number < told.size(); number++) {
        if (number % 2) std::reverse(told[number].begin(), told[number].end());
        WANT(std::is_sorted(told[number].begin(), told[number].end()), true);
        all.insert(all.end(), told[number].begin(), told[number].end());
    }
    std::sort(all.begin(), all.end());
    WANT(all.size(), pairs);
    for (uint64_t i = 0; i < all.size(); i++) WANT(all[i], i);
}

static void threads_pop_pairs(uint32_t waiter) {
    enum { PAIRS = 4000 };
    citrus::index index(PAIRS, 4, how(waiter));
    for (uint64_t key = 0; key < PAIRS; key++) index.insert(key, ~key);
    each_comes_to_one(PAIRS, [&](size_t, bool is_last) -> std::optional<uint64_t> {
        const auto popped = is_last ? index.pop_last() : index.pop_first();
        if (!popped) return std::nullopt;
        WANT(popped->value, ~popped->key);
        return popped->key;
    });
    WANT(index.empty(), true);
}

static void threads_pop_objects(uint32_t waiter) {
    enum { PAIRS = 2000 };
    {
        objects mine(PAIRS, 4, how(waiter));
        std::vector<objects> all;
        for (uint64_t key = 0; key < PAIRS; key++) mine.insert(key, make(key));
        for (int i = 0; i < 3; i++) all.push_back(mine.share());
        all.push_back(std::move(mine));
        each_comes_to_one(PAIRS, [&](size_t who, bool is_last) -> std::optional<uint64_t> {
            const auto popped = is_last ? all[who].pop_last() : all[who].pop_first();
            if (!popped) return std::nullopt;
            WANT(popped->value->is_of(popped->key), true);
            return popped->key;
        });
        WANT(there, 0);
    }
}

#if __cplusplus >= 202002L
template <class Range> constexpr bool goes_both_ways = std::ranges::input_range<Range> && std::input_iterator<typename Range::reverse_iterator>;
static_assert(goes_both_ways<citrus::pair_range> && goes_both_ways<citrus::index<>::range_type>);
static_assert(goes_both_ways<citrus::keyed_range<int, float>> && goes_both_ways<citrus::index<int, float>::range_type>);
static_assert(goes_both_ways<citrus::held_range<uint64_t, int>> && goes_both_ways<citrus::held_range<int, std::string>>);
#endif

static const waiter_case waiter_cases[] = {
    {"C++ ranges: as a map of std", as_a_map_of_std},
    {"C++ ranges: other calls go on", other_calls_go_on},
    {"C++ ranges: objects as a map of std", objects_as_a_map_of_std},
    {"C++ ranges: objects that come and go", objects_that_come_and_go},
    {"C++ ranges: ends of objects", ends_of_objects},
    {"C++ ranges: threads write beside", beside_writers},
    {"C++ ranges: threads write objects beside", objects_beside_writers},
    {"C++ ranges: threads pop pairs", threads_pop_pairs},
    {"C++ ranges: threads pop objects", threads_pop_objects},
};

static const plain_case plain_cases[] = {{"C++ ranges: ends by keys", ends_by_keys}};

int main(int count, char **words) {
    std::vector<waiter_case> chosen;
    for (const waiter_case &one : waiter_cases)
        if (count == 1 || std::string(one.name).find(words[1]) != std::string::npos) chosen.push_back(one);
    run_waiter_cases(chosen.data(), chosen.size());
    if (count == 1) run_plain_cases(plain_cases, COUNT_OF(plain_cases));
    return failed_cases != 0;
}
