// Handles, indexes and maps whose keys are of types of the program's own: each call answers as a std::map of the keys' numbers, by one thread
// and by four, each of which has keys of its own among those of the others. With a word it runs the cases alone that have it in their names.
#include "cases.h"
#include "numbered.hpp"
#include <citrus_index.hpp>
#include <citrus_map.hpp>
#include <map>
#include <string>
#include <thread>
#if __cplusplus >= 202002L
#include <ranges>
#endif

using numbers = std::map<uint64_t, double>;

static uint64_t draws_of(uint64_t seed) { return 88172645463325252u + 1000003 * seed; }

// Runs a case with keys of each type.
template <template <class> class Case> static void with_each_key(uint32_t waiter) {
    Case<uint64_t>::run(waiter), Case<int64_t>::run(waiter), Case<double>::run(waiter), Case<colour>::run(waiter), Case<user_id>::run(waiter);
    Case<moment>::run(waiter), Case<std::pair<int32_t, float>>::run(waiter), Case<std::tuple<bool, char, int16_t>>::run(waiter);
    Case<std::array<unsigned char, 3>>::run(waiter);
}

template <class Pair> static bool is_pair(const std::optional<Pair> &found, const numbers &all, numbers::const_iterator wanted) {
    if (wanted == all.end()) return !found;
    return found && number_of(found->key) == wanted->first && found->value == wanted->second;
}

// The last pair at or below the number.
static numbers::const_iterator last_of(const numbers &all, uint64_t high) {
    const auto behind = all.upper_bound(high);
    return behind == all.begin() ? all.end() : std::prev(behind);
}

// One thread's calls, which are drawn, beside the same on a std::map.
template <class K> struct model {
    citrus::keyed_handle<K, double> mine;
    numbers all;
    uint64_t state = draws_of(1), low = 0, high = 0;
    double value = 0;

    explicit model(uint32_t waiter) : mine(2 * NUMBERS, 1, static_cast<citrus::waiter>(waiter)) {}

    static void run(uint32_t waiter) {
        model each(waiter);
        for (int i = 0; i < 3000; i++) {
            each.low = draw(&each.state) >> 8, each.high = draw(&each.state) >> 8;
            each.low %= NUMBERS, each.high %= NUMBERS;
            if (each.low > each.high) std::swap(each.low, each.high);
            each.value = i / 4.0;
            each.call(draw(&each.state) >> 8);
        }
        each.clear();
    }

    void call(uint64_t which) {
        switch (which % 15) {
        case 0: case 1: case 2: return insert();
        case 3: return upsert();
        case 4: return replace();
        case 5: return compare();
        case 6: return update();
        case 7: return remove();
        case 8: return get();
        case 9: return list();
        case 10: return range();
        case 11: return ends();
        case 12: return take_ends();
        case 13: return take();
        default: return which % 5 ? ranges_go() : clear();
        }
    }

    K least() const { return key_at<K>(low); }
    K most() const { return key_at<K>(high); }
    std::optional<double> there() const { return all.count(low) ? std::optional(all.at(low)) : std::nullopt; }

    void insert() { WANT(mine.insert(least(), value), all.emplace(low, value).second); }

    void upsert() {
        WANT(mine.upsert(least(), value) == there(), true);
        all[low] = value;
    }

    void replace() {
        WANT(mine.replace(least(), value) == there(), true);
        if (there()) all[low] = value;
    }

    void compare() {
        double expected = there().value_or(value) + (high % 2);
        const auto told = mine.compare_exchange(least(), expected, value);
        WANT(told == (!there() ? citrus::compared::absent : high % 2 ? citrus::compared::different : citrus::compared::done), true);
        if (told == citrus::compared::different) WANT(expected == there(), true);
        if (told == citrus::compared::done) all[low] = value;
    }

    void take() {
        double expected = there().value_or(value) + (high % 2);
        const auto told = mine.take(least(), expected);
        WANT(told == (!there() ? citrus::compared::absent : high % 2 ? citrus::compared::different : citrus::compared::done), true);
        if (told == citrus::compared::different) WANT(expected == there(), true);
        if (told == citrus::compared::done) all.erase(low);
        WANT(mine.remove_if(least(), [&](double its) { return its != there(); }).has_value(), false);
        if (high % 4) return;
        WANT(mine.remove_if(least(), [&](double its) { return its == there(); }) == there(), true);
        all.erase(low);
    }

    void update() {
        WANT(mine.update(least(), [](double before) { return before + 0.5; }) == there(), true);
        if (there()) all[low] += 0.5;
    }

    void remove() {
        WANT(mine.remove(least()) == there(), true);
        all.erase(low);
    }

    void get() {
        WANT(mine.get(least()) == there(), true);
        WANT(mine.contains(least()), there().has_value());
        const auto held = mine.hold(least());
        WANT(bool(held), there().has_value());
        if (held) WANT(held.value() == there(), true);
    }

    void list() {
        const auto found = mine.list(least(), most(), 5);
        auto next = all.lower_bound(low);
        const auto end = all.upper_bound(high);
        for (const auto &[key, its] : found) {
            WANT(next != end && number_of(key) == next->first && its == next->second, true);
            if (next != end) ++next;
        }
        WANT(found.size() == 5 || next == end, true);
        WANT(found.next.has_value(), next != end);
        if (found.next && next != end) WANT(number_of(*found.next), next->first);
        WANT(found.empty(), found.size() == 0);
    }

    template <class Range> void is_range(Range &&pairs, numbers::const_iterator next, numbers::const_iterator end) {
        for (const auto &[key, its] : pairs) {
            WANT(next != end && number_of(key) == next->first && its == next->second, true);
            if (next != end) ++next;
        }
        WANT(next == end, true);
    }

    void range() {
        is_range(mine.range(least(), most(), 3), all.lower_bound(low), all.upper_bound(high));
        is_range(mine.range(least()), all.lower_bound(low), all.end());
        is_range(mine.range(), all.begin(), all.end());
        WANT(mine.size(), all.size());
        WANT(mine.size(least()), std::distance(all.lower_bound(low), all.end()));
        WANT(mine.size(least(), most()), std::distance(all.lower_bound(low), all.upper_bound(high)));
        WANT(mine.empty(), all.empty());
    }

    void ends() {
        WANT(is_pair(mine.first(), all, all.begin()), true);
        WANT(is_pair(mine.first_from(least()), all, all.lower_bound(low)), true);
        WANT(is_pair(mine.last(), all, last_of(all, NUMBERS)), true);
        WANT(is_pair(mine.last_to(most()), all, last_of(all, high)), true);
        const auto last = last_of(all, high);
        WANT(is_pair(mine.last(least(), most()), all, last != all.end() && last->first >= low ? last : all.end()), true);
    }

    void take_ends() {
        const auto goes = [&](const auto &found, numbers::const_iterator wanted) {
            WANT(is_pair(found, all, wanted), true);
            if (wanted != all.end()) all.erase(wanted);
        };
        goes(mine.pop_first_from(least()), all.lower_bound(low));
        goes(mine.pop_last_to(most()), last_of(all, high));
        if (high % 4) return;
        goes(mine.pop_first(), all.begin());
        goes(mine.pop_last(), last_of(all, NUMBERS));
    }

    // How many go from the std::map: those of the range whose number divides by this one.
    uint64_t gone(uint64_t first, uint64_t last, uint64_t by) {
        uint64_t count = 0;
        for (auto at = all.lower_bound(first); at != all.upper_bound(last);) at = at->first % by ? std::next(at) : (count++, all.erase(at));
        return count;
    }

    void ranges_go() {
        const auto stays = [](const K &key, double) { return number_of(key) % 3 != 0; };
        WANT(mine.retain(least(), most(), stays), gone(low, high, 3));
        WANT(mine.clear(least(), key_at<K>(std::min<uint64_t>(low + 3, NUMBERS - 1))), gone(low, low + 3, 1));
        if (low > NUMBERS / 2) WANT(mine.clear(least()), gone(low, NUMBERS, 1));
        const auto came = mine.tidy(least(), most());
        WANT(came.next.has_value(), false);
    }

    void clear() {
        WANT(mine.clear(), gone(0, NUMBERS, 1));
        WANT(mine.empty(), true);
    }
};

static void one_thread(uint32_t waiter) { with_each_key<model>(waiter); }

// Each of four threads has the keys of some numbers for itself, and must be told what it did to them, by lists too, beside the updates of the
// others. What it is told of theirs has a key with a number of theirs.
template <class K> struct own {
    static constexpr uint64_t THREADS = 4, CALLS = 1500;

    citrus::index<K, double> all;
    std::atomic<uint64_t> wrong{0};

    explicit own(uint32_t waiter) : all(2 * NUMBERS, THREADS, static_cast<citrus::waiter>(waiter)) {}

    static void run(uint32_t waiter) {
        own each(waiter);
        std::vector<std::thread> threads;
        for (uint64_t who = 0; who < THREADS; who++) threads.emplace_back([&each, who] { each.work(who); });
        for (std::thread &thread : threads) thread.join();
        WANT(each.wrong, 0);
        WANT(each.all.empty(), true);
    }

    void work(uint64_t who) {
        numbers mine;
        uint64_t state = draws_of(who);
        for (uint64_t i = 0; i < CALLS; i++) {
            const uint64_t number = (draw(&state) >> 8) % (NUMBERS / THREADS) * THREADS + who;
            call(number, draw(&state) >> 8, double(i), mine);
            if (i % 20 == 0) look(who, mine);
        }
        for (const auto &[number, value] : mine) wrong += all.remove(key_at<K>(number)) != value;
    }

    void call(uint64_t number, uint64_t which, double value, numbers &mine) {
        const K key = key_at<K>(number);
        const auto at = mine.find(number);
        const bool is_there = at != mine.end();
        const double before = is_there ? at->second : 0;
        const auto judge = [&](const std::optional<double> &told) { wrong += told.has_value() != is_there || told.value_or(0) != before; };
        switch (which % 6) {
        case 0: wrong += all.insert(key, value) == is_there, mine.emplace(number, value); break;
        case 1: judge(all.upsert(key, value)), mine[number] = value; break;
        case 2: judge(all.remove(key)), mine.erase(number); break;
        case 3: judge(all.update(key, [&](double) { return value; })), is_there ? void(at->second = value) : void(); break;
        default: judge(all.get(key));
        }
    }

    void look(uint64_t who, const numbers &mine) {
        auto next = mine.begin();
        uint64_t least = 0;
        auto lent = all.lend();
        for (const auto &[key, value] : lent->range()) {
            const uint64_t number = number_of(key);
            wrong += number < least || number >= NUMBERS;
            least = number + 1;
            if (number % THREADS != who) continue;
            wrong += next == mine.end() || next->first != number || next->second != value;
            if (next != mine.end()) ++next;
        }
        wrong += next != mine.end();
    }
};

static void threads_with_keys_of_their_own(uint32_t waiter) { with_each_key<own>(waiter); }

// The same by a map of objects, which each thread takes out and reads.
template <class K> struct own_objects {
    static constexpr uint64_t THREADS = 4, CALLS = 800;

    struct object {
        uint64_t number, check;
        explicit object(uint64_t number) : number(number), check(~number) {}
        ~object() { check = 0; }
        bool is_of(uint64_t wanted) const { return number == wanted && check == ~wanted; }
    };

    using objects = citrus::map<K, object>;

    static void run(uint32_t waiter) {
        objects first(2 * NUMBERS, THREADS + 1, static_cast<citrus::waiter>(waiter));
        std::atomic<uint64_t> wrong{0};
        std::vector<std::thread> threads;
        for (uint64_t who = 0; who < THREADS; who++)
            threads.emplace_back([&wrong, who, mine = first.share()]() mutable { work(mine, who, wrong); });
        for (std::thread &thread : threads) thread.join();
        WANT(wrong, 0);
        WANT(first.empty(), true);
    }

    static void work(objects &mine, uint64_t who, std::atomic<uint64_t> &wrong) {
        std::map<uint64_t, bool> there;
        uint64_t state = draws_of(who);
        for (uint64_t i = 0; i < CALLS; i++) {
            const uint64_t any = (draw(&state) >> 8) % NUMBERS, number = any / THREADS * THREADS + who;
            if (const auto held = mine.get(key_at<K>(any))) wrong += !held->is_of(any);
            wrong += call(mine, number, draw(&state) >> 8, there[number]);
        }
        for (const auto &[number, is_there] : there) wrong += mine.retire(key_at<K>(number)) != is_there;
        mine.flush();
    }

    // Whether it answers otherwise than it should.
    static bool call(objects &mine, uint64_t number, uint64_t which, bool &is_there) {
        const K key = key_at<K>(number);
        const bool was = is_there;
        std::unique_ptr<object> made = std::make_unique<object>(number), gone;
        switch (which % 6) {
        case 0: is_there = true; return mine.insert(key, std::move(made)) == was;
        case 1: is_there = false; return mine.retire(key) != was;
        case 2: is_there = false, gone = mine.remove(key); break;
        case 3: is_there = true, gone = mine.upsert(key, std::move(made)); break;
        case 4: gone = mine.replace(key, std::move(made)); break;
        default: gone = mine.update(key, [&](const object &old) { return std::make_unique<object>(old.number); });
        }
        return bool(gone) != was || (gone && !gone->is_of(number));
    }
};

static void threads_with_objects_of_their_own(uint32_t waiter) { with_each_key<own_objects>(waiter); }

static void lanes_and_waits(uint32_t waiter) {
    citrus::keyed_handle<double, const char *> mine(10, 10, static_cast<citrus::waiter>(waiter));
    static const char *const texts[] = {"minus", "zero", "plus"};
    for (int i = 0; i < 3; i++) WANT(mine.insert(i - 1.0, texts[i]), true);
    WANT(mine.insert(7, nullptr), true);
    auto lanes = mine.open_lanes(4);
    const std::vector<double> keys{1, -0.0, 5, -1, std::nan(""), 7};
    const auto found = lanes.get_many(keys);
    WANT(found.size(), 6);
    WANT(found[5] && *found[5] == nullptr, true);
    WANT(found[0] == texts[2] && found[1] == texts[1] && !found[2] && found[3] == texts[0] && !found[4], true);
    std::optional<const char *> values[2];
    lanes.get_many(keys.data(), 2, values);
    WANT(values[0] == texts[2] && values[1] == texts[1], true);
    lanes.get_many(keys.data(), 0, nullptr);
    WANT(lanes.get_many(std::vector<double>()).empty(), true);
#if __cplusplus >= 202002L
    lanes.get_many(std::span(keys).first(2), values);
    WANT(values[1] == texts[1], true);
#endif
    lanes.close();
    WANT(lanes.is_open(), false);
    auto other = mine.share();
    auto held = mine.hold(0);
    WANT(held.value() == texts[1], true);
    const uint64_t cookie = other.begin(-0.5, 0.5);
    WANT(other.poll(cookie) == citrus::progress::not_yet, true);
    held.leave();
    WANT(bool(held), false);
    WANT(other.poll(cookie) == citrus::progress::over, true);
    other.wait(-INFINITY, INFINITY);
    const auto section = mine.enter(0);
    WANT(other.poll(other.begin(-1, 1)) == citrus::progress::not_yet, true);
    if (waiter == CITRUS_EER) WANT(other.poll(other.begin(0.5, INFINITY)) == citrus::progress::over, true);
}

// A key tells how often it was made a word.
struct counted_key {
    int64_t number;
    static inline int words = 0;
};

template <> struct citrus::key_traits<counted_key> {
    static constexpr unsigned bits = 64;
    static uint64_t encode(const counted_key &key) noexcept { return counted_key::words++, key_traits<int64_t>::encode(key.number); }
    static counted_key decode(uint64_t word) noexcept { return {key_traits<int64_t>::decode(word)}; }
};

template <class Call> static int words_of(Call call) {
    counted_key::words = 0;
    static_cast<void>(call());
    return counted_key::words;
}

static void keys_become_words_once() {
    citrus::index<counted_key> index(10, 1);
    uint64_t expected = 70;
    WANT(words_of([&] { return index.insert({-5}, 50); }), 1);
    WANT(words_of([&] { return index.get({-5}); }), 1);
    WANT(words_of([&] { return index.contains({-5}); }), 1);
    WANT(words_of([&] { return index.replace({-5}, 60); }), 1);
    WANT(words_of([&] { return index.update({-5}, [](uint64_t value) { return value + 10; }); }), 1);
    WANT(words_of([&] { return index.compare_exchange({-5}, expected, 80); }), 1);
    WANT(words_of([&] { return index.take({-5}, expected); }), 1);
    WANT(words_of([&] { return index.remove_if({-5}, [](uint64_t) { return true; }); }), 1);
    WANT(words_of([&] { return index.upsert({-5}, 90); }), 1);
    WANT(words_of([&] { return index.list({-5}, {5}); }), 2);
    WANT(words_of([&] { return index.size({-5}); }), 1);
    auto handle = index.lend();
    WANT(words_of([&] { return handle->retain({-5}, {5}, [](counted_key, uint64_t) { return true; }); }), 2);
    WANT(words_of([&] { return handle->pop_last_to({5}).value().value; }), 1);
    citrus::map<counted_key, int> map(10, 1);
    const auto one = [] { return std::make_unique<int>(1); };
    WANT(words_of([&] { return map.insert({-5}, one()); }), 1);
    WANT(words_of([&] { return map.get({-5}); }), 1);
    WANT(words_of([&] { return map.update({-5}, [&](int) { return one(); }); }), 1);
    WANT(words_of([&] { return map.upsert({-5}, one()); }), 1);
    WANT(words_of([&] { return map.replace({-5}, one()); }), 1);
    WANT(words_of([&] { return map.retain({-5}, {5}, [](counted_key, int) { return true; }); }), 2);
    WANT(words_of([&] { return map.remove_if({-5}, [](int) { return false; }); }), 1);
    WANT(words_of([&] { return map.retire_if({-5}, [](int) { return false; }); }), 1);
    WANT(words_of([&] { return map.retire({-5}); }), 1);
    WANT(words_of([&] { return map.insert({-5}, one()); }), 1);
    WANT(words_of([&] { return map.pop_first_from({-5}).value().key.number; }), 1);
}

static void ranges_of_an_index() {
    citrus::index<int, double> index(10, 1);
    for (const int key : {-5, 5, 9}) WANT(index.insert(key, key / 2.0), true);
    WANT(index.first()->key == -5 && index.first_from(0)->key == 5 && !index.first_from(10), true);
    WANT(index.last()->key == 9 && index.last_to(8)->key == 5 && !index.last_to(-6), true);
    WANT(index.size() == 3 && index.size(0) == 2 && index.size(-5, 5) == 2, true);
    const auto page = index.list(-9, 8, 1);
    WANT(page.size() == 1 && page.pairs[0].value == -2.5 && page.next == 5, true);
    WANT(index.replace(5, 7) == 2.5 && index.get(5) == 7.0 && index.contains(9) && !index.contains(8), true);
}

// What had numbers as keys has them still, by its old names.
static void names_of_before() {
    citrus::index index(10, 2);
    citrus::index<> &same = index;
    citrus::handle &lent = *index.lend();
    WANT(index.insert(5, 50) && same.get(5) == 50u && lent.get(5) == 50u, true);
    static_assert(std::is_same_v<decltype(index), citrus::index<uint64_t, uint64_t>>);
    citrus::map<std::string> map(10, 1);
    WANT(map.insert(5, std::make_unique<std::string>("five")), true);
    citrus::map<std::string>::popped gone = map.pop_first().value();
    WANT(gone.key == 5 && *gone.value == "five", true);
}

static void maps_in_order() {
    citrus::map<std::pair<int, unsigned>, std::string> mine(citrus::options{100, 2}), other = mine.share();
    for (const auto &key : {std::pair(-1, 5u), std::pair(4, 0u), std::pair(-1, 3u)})
        WANT(mine.insert(key, std::make_unique<std::string>("one")), true);
    WANT(*other.get({-1, 5}) == "one", true);
    WANT(bool(other.get({5, 1})), false);
    WANT(mine.contains({4, 0}), true);
    WANT(mine.first_key() == std::pair(-1, 3u) && mine.first_key_from({0, 0}) == std::pair(4, 0u) && !mine.first_key_from({4, 1}), true);
    WANT(mine.last_key() == std::pair(4, 0u) && mine.last_key_to({3, 9}) == std::pair(-1, 5u), true);
    WANT(mine.size(), 3);
    WANT(mine.size({0, 0}), 1);
    WANT(mine.size({-1, 0}, {-1, UINT32_MAX}), 2);
    WANT(mine.retain({-1, 0}, {0, 0}, [](const std::pair<int, unsigned> &key, const std::string &) { return key.second == 3; }), 1);
    WANT(mine.pop_last_to({3, 0})->key == std::pair(-1, 3u), true);
    WANT(mine.pop_first_from({5, 0}).has_value(), false);
    WANT(mine.insert({5, 0}, std::make_unique<std::string>("one")), true);
    WANT(mine.clear({4, 0}, {4, 0}), 1);
    WANT(mine.clear({5, 1}), 0);
    WANT(mine.clear({5, 0}), 1);
    WANT(mine.clear(), 0);
    WANT(mine.empty(), true);
    mine = std::move(other);
    WANT(mine.empty(), true);
}

#if __cplusplus >= 202002L
static_assert(std::ranges::input_range<citrus::keyed_range<int, double>>);
static_assert(std::input_iterator<citrus::keyed_range<int, double>::iterator>);
#endif

static const waiter_case waiter_cases[] = {
    {"keyed handles: one thread's calls", one_thread},
    {"keyed indexes: threads with keys of their own", threads_with_keys_of_their_own},
    {"keyed maps: threads with objects of their own", threads_with_objects_of_their_own},
    {"keyed handles: lanes, sections and waits", lanes_and_waits},
};

static const plain_case plain_cases[] = {
    {"keyed handles: a key becomes a word once", keys_become_words_once},
    {"keyed indexes: ranges", ranges_of_an_index},
    {"keyed maps: pairs in order", maps_in_order},
    {"keys that are numbers have the names of before", names_of_before},
};

int main(int count, char **words) {
    std::vector<waiter_case> chosen;
    for (const waiter_case &one : waiter_cases)
        if (count == 1 || std::string(one.name).find(words[1]) != std::string::npos) chosen.push_back(one);
    run_waiter_cases(chosen.data(), chosen.size());
    if (count == 1) run_plain_cases(plain_cases, COUNT_OF(plain_cases));
    return failed_cases != 0;
}
