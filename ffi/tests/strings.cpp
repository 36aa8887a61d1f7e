// The map of citrus_string_map.hpp: each answer, beside a std::map by one thread, and threads on one map, with strings of their own and with strings
// that all share: one order explains the replies for each. With a word it runs the cases alone that have it in their names.
#include "cases.h"
#include "strings.hpp"
#include <chrono>
#include <cstdlib>
#include <functional>
#include <thread>

static bool is_refused(citrus::fault why, const std::function<void()> &work) {
    try {
        work();
    } catch (const citrus::error &told) {
        return told.why() == why;
    }
    return false;
}

static strings opened(uint32_t waiter, uint32_t pairs, uint32_t objects) { return strings(pairs, objects, static_cast<citrus::waiter>(waiter)); }

// Strings that share much: pieces out of a few, and bytes of each kind.
static std::string drawn_text(uint64_t &state) {
    static const std::string pieces[] = {"user:", "user", "a", "b", "ab", "0001", "0002", "zzzzzzz", "zzzzzzzz", "\xff", "\xff\xff\xff\xff", std::string(1, '\0'), "http://www."};
    const auto below = [&state](uint64_t bound) { return (drawn(state) >> 20) % bound; };
    std::string text;
    switch (below(4)) {
    case 0:
        for (uint64_t left = below(14); left > 0; left--) text.push_back("\0\1ab"[below(4)]);
        return text;
    case 1:
        for (uint64_t left = below(5); left > 0; left--) text += pieces[below(COUNT_OF(pieces))];
        return text;
    case 2: // a way that all share, and then a sign or two
        text.assign(below(30), 'a');
        for (uint64_t left = below(3); left > 0; left--) text.push_back("bc"[below(2)]);
        return text;
    default: return "user:" + std::to_string(below(200));
    }
}

static void answers(uint32_t waiter) {
    strings mine = opened(waiter, 20, 1);
    WANT(bool(mine.get("five")), false);
    WANT(mine.get("five").get() == nullptr, true);
    WANT(mine.get("five").key().empty(), true);
    WANT(mine.empty(), true);
    WANT(mine.insert("five", object(5)), true);
    WANT(mine.insert("five", object(6)), false);
    WANT(mine.get("five")->number, 5);
    WANT((*mine.get("five")).number, 5);
    WANT(mine.get("five").key() == "five", true);
    WANT(mine.contains("five"), true);
    WANT(mine.contains("fiv"), false);
    const auto early = mine.get("five");
    early.release();
    WANT(early.get() == nullptr, true);
    WANT(number_of(mine.upsert("five", object(6))).value_or(0), 5);
    WANT(mine.upsert("six", object(7)).has_value(), false);
    WANT(mine.insert_or_assign("six", object(8)), false);
    WANT(mine.insert_or_assign("", object(9)), true);
    const auto next = [](const object &value) { return object(value.number + 1); };
    WANT(number_of(mine.update("six", next)).value_or(0), 8);
    WANT(mine.update("seven", next).has_value(), false);
    WANT(mine.get("six")->number, 9);
    WANT(mine.size(), 3);
    WANT(mine.first_key().value_or("-").empty(), true);
    WANT(mine.first_key_from("five").value_or("") == "five", true);
    WANT(mine.first_key_from("five!").value_or("") == "six", true);
    WANT(mine.first_key_from("six!").has_value(), false);
    WANT(number_of(mine.remove("five")).value_or(0), 6);
    WANT(mine.remove("five").has_value(), false);
    WANT(mine.retire("six"), true);
    WANT(mine.retire("six"), false);
    mine.flush();
    WANT(there, 1);
    WANT(not_right, 0);
}

// A pair goes while its value is the one that was asked about, and what throws changes nothing.
static void takes(uint32_t waiter) {
    strings mine = opened(waiter, 20, 1);
    const auto is_five = [](const object &value) { return value.number == 5; };
    const auto fails = [](const object &) -> bool { throw std::runtime_error("asked"); };
    WANT(mine.remove_if("five", is_five).has_value(), false);
    mine.insert("five", object(6));
    WANT(mine.remove_if("five", is_five).has_value(), false);
    WANT(mine.retire_if("five", is_five), false);
    mine.upsert("five", object(5));
    try {
        mine.remove_if("five", fails);
        WANT(true, false);
    } catch (const std::runtime_error &) {
    }
    try {
        mine.update("five", [](const object &) -> object { throw std::runtime_error("asked"); });
        WANT(true, false);
    } catch (const std::runtime_error &) {
    }
    WANT(number_of(mine.remove_if("five", is_five)).value_or(0), 5);
    mine.insert("five", object(5));
    WANT(mine.retire_if("five", is_five), true);
    mine.flush();
    WANT(there, 0);
}

// All strings of a range, and none beside, in order. Bytes are unsigned.
static void ranges(uint32_t waiter) {
    strings mine = opened(waiter, 5000, 1);
    std::map<std::string, uint64_t> all;
    uint64_t state = 88172645463325252u;
    for (uint64_t i = 0; i < 2000; i++) {
        const std::string text = drawn_text(state);
        WANT(mine.insert(text, object(i)), all.emplace(text, i).second);
    }
    for (uint64_t i = 0; i < 300; i++) {
        const std::string low = drawn_text(state), other = drawn_text(state), prefix = low.substr(0, i % 9);
        const uint64_t most = 1 + i * 7;
        auto next = all.lower_bound(low);
        const auto is_next = [&](std::string_view text, const object &value) {
            const bool is_it = next != all.end() && next->first == text && next->second == value.number;
            not_right += !is_it;
            if (is_it) ++next;
        };
        const auto rest = uint64_t(std::distance(next, all.end()));
        WANT(mine.first(low, most, is_next), std::min(most, rest));
        next = all.lower_bound(low);
        const auto end = low < other ? all.lower_bound(other) : next;
        const auto between = std::distance(next, end);
        WANT(mine.each(low, other, is_next), between);
        WANT(next == end, true);
        const auto is_before = [&](std::string_view text, const object &value) {
            const bool is_it = next != all.begin() && std::prev(next)->first == text && std::prev(next)->second == value.number;
            not_right += !is_it;
            if (is_it) --next;
        };
        WANT(mine.each_down(low, other, is_before), between);
        WANT(next == all.lower_bound(low) || between == 0, true);
        const auto behind = all.upper_bound(low);
        WANT(mine.last_key_to(low).value_or("-") == (behind == all.begin() ? "-" : std::prev(behind)->first), true);
        next = all.lower_bound(prefix);
        const auto begun = std::count_if(all.begin(), all.end(), [&](const auto &pair) { return pair.first.compare(0, prefix.size(), prefix) == 0; });
        WANT(mine.each_with(prefix, is_next), begun);
    }
    auto first = all.begin();
    auto last = all.end();
    const auto is_last = [&](std::string_view text, const object &value) {
        const bool is_it = last != all.begin() && std::prev(last)->first == text && std::prev(last)->second == value.number;
        not_right += !is_it;
        if (is_it) --last;
    };
    WANT(mine.each_down(is_last), all.size());
    WANT(mine.each([&](std::string_view text, const object &) { not_right += first == all.end() || text != first++->first; }), all.size());
    WANT(mine.size(), all.size());
    WANT(not_right, 0);
}

// The strings at the ends, beside those of a std::map, until all are taken out.
static void ends(uint32_t waiter) {
    strings mine = opened(waiter, 5000, 1);
    std::map<std::string, uint64_t> all;
    uint64_t state = 7;
    WANT(mine.first() || mine.last() || mine.first_from("a") || mine.last_to("a") || mine.first_key() || mine.last_key(), false);
    WANT(mine.pop_first() || mine.pop_last() || mine.pop_first_from("a") || mine.pop_last_to("a"), false);
    for (uint64_t i = 0; i < 1000; i++) {
        const std::string text = drawn_text(state);
        if (all.emplace(text, i).second) mine.insert(text, object(i));
    }
    const auto is = [&](const auto &found, std::map<std::string, uint64_t>::const_iterator wanted) {
        return wanted == all.end() ? !found : found && found.key() == wanted->first && number_of(*found) == wanted->second;
    };
    const auto goes = [&](const auto &popped, std::map<std::string, uint64_t>::const_iterator wanted) {
        WANT(wanted == all.end() ? !popped : popped && popped->key == wanted->first && number_of(popped->value) == wanted->second, true);
        if (wanted != all.end()) all.erase(wanted);
    };
    const auto last_to = [&](const std::string &high) {
        const auto behind = all.upper_bound(high);
        return behind == all.begin() ? all.end() : std::prev(behind);
    };
    while (!all.empty()) {
        const std::string text = drawn_text(state);
        WANT(is(mine.first(), all.begin()), true);
        WANT(is(mine.last(), std::prev(all.end())), true);
        WANT(is(mine.first_from(text), all.lower_bound(text)), true);
        WANT(is(mine.last_to(text), last_to(text)), true);
        WANT(mine.first_key() == all.begin()->first && mine.last_key() == std::prev(all.end())->first, true);
        goes(mine.pop_first_from(text), all.lower_bound(text));
        goes(mine.pop_last_to(text), last_to(text));
        goes(mine.pop_first(), all.begin());
        goes(mine.pop_last(), all.empty() ? all.end() : std::prev(all.end()));
    }
    WANT(mine.empty(), true);
    mine.flush();
    WANT(mine.layers(), 0);
    WANT(there, 0);
    WANT(not_right, 0);
}

// Each answer is that of a std::map. When all is taken out no layer stands.
static void beside_a_map(uint32_t waiter) {
    strings mine = opened(waiter, 5000, 1);
    std::map<std::string, uint64_t> all;
    uint64_t state = 99 + waiter;
    for (uint64_t i = 0; i < 20000; i++) {
        const std::string text = drawn_text(state);
        const auto at = all.find(text);
        const bool was_there = at != all.end();
        const uint64_t had = was_there ? at->second : UNTOUCHED, kind = drawn(state) >> 20;
        switch (kind % 8) {
        case 0: case 1: WANT(mine.insert(text, object(i)), !was_there); all.emplace(text, i); break;
        case 2: WANT(number_of(mine.upsert(text, object(i))).value_or(UNTOUCHED), had); all[text] = i; break;
        case 3: WANT(mine.insert_or_assign(text, object(i)), !was_there); all[text] = i; break;
        case 4: WANT(number_of(mine.remove(text)).value_or(UNTOUCHED), had); all.erase(text); break;
        case 5: WANT(mine.retire(text), was_there); all.erase(text); break;
        default: {
            const auto found = mine.get(text);
            WANT(found ? number_of(*found).value_or(0) : UNTOUCHED, had);
        }
        }
        if (i % 5000 != 4999) continue;
        for (const auto &pair : std::exchange(all, {})) WANT(mine.retire(pair.first), true);
        mine.flush();
        WANT(mine.empty(), true);
        WANT(there, 0);
        WANT(mine.layers(), 0);
    }
    WANT(not_right, 0);
}

// Where no pair is left an insert is refused, and all is as it was, of one that makes a layer too.
static void a_full_map(uint32_t waiter) {
    strings mine = opened(waiter, 4, 1);
    std::vector<std::string> texts;
    // Those that make layers, and then others, which need one pair each.
    for (const std::string stem : {"a way that all of them share: ", ""}) {
        size_t most = 0;
        for (; most < 100; most++) {
            const std::string text = stem + std::string(most, 'a');
            if (is_refused(citrus::fault::full, [&] { mine.insert(text, object(texts.size())); })) break;
            texts.push_back(text);
        }
        WANT(most < 100, true);
        WANT(mine.contains(stem + std::string(most, 'a')), false);
    }
    const uint64_t layers = mine.layers();
    WANT(texts.size() + layers >= 4, true);
    WANT(mine.size(), texts.size());
    WANT(there, texts.size());
    for (size_t i = 0; i < texts.size(); i++) WANT(mine.get(texts[i])->number, i);
    WANT(mine.layers(), layers);
    for (const std::string &text : texts) WANT(mine.retire(text), true);
    mine.flush();
    WANT(mine.layers(), 0);
    WANT(mine.insert(texts[0], object(5)), true);
    WANT(there, 1);
}

// A string that begins with all of many others, layer in layer.
static void long_ways(uint32_t waiter) {
    enum { STRINGS = 600 };
    strings mine = opened(waiter, 2 * STRINGS, 1);
    const std::string all(4 * STRINGS + 8, 'a');
    const auto text = [&all](size_t i) { return std::string_view(all).substr(0, 8 + 4 * i); };
    for (size_t i = 0; i < STRINGS; i++) WANT(mine.insert(text(i), object(i)), true);
    WANT(mine.layers() + STRINGS <= 2 * STRINGS, true);
    uint64_t next = 0;
    WANT(mine.each([&next](std::string_view, const object &value) { not_right += value.number != next++; }), STRINGS);
    WANT(mine.get(text(STRINGS - 1))->number, STRINGS - 1);
    WANT(mine.contains(all), false);
    for (size_t i = 0; i < STRINGS; i++) WANT(mine.retire(text(i)), true);
    mine.flush();
    WANT(mine.layers(), 0);
    WANT(there, 0);
    WANT(not_right, 0);
}

static void a_held_value_refuses_other_calls(uint32_t waiter) {
    strings mine = opened(waiter, 20, 2);
    mine.insert("five", object(5));
    strings::held held = mine.get("five");
    WANT(is_refused(citrus::fault::holds, [&] { static_cast<void>(mine.get("five")); }), true);
    WANT(is_refused(citrus::fault::holds, [&] { mine.insert("six", object(6)); }), true);
    WANT(is_refused(citrus::fault::holds, [&] { mine.upsert("five", object(6)); }), true);
    WANT(is_refused(citrus::fault::holds, [&] { mine.remove("five"); }), true);
    WANT(is_refused(citrus::fault::holds, [&] { mine.retire("five"); }), true);
    WANT(is_refused(citrus::fault::holds, [&] { mine.size(); }), true);
    WANT(is_refused(citrus::fault::holds, [&] { mine.share(); }), true);
    strings::held moved = std::move(held);
    WANT(bool(held), false);
    WANT(moved->number, 5);
    moved = strings::held();
    WANT(number_of(mine.remove("five")).value_or(0), 5);
    WANT(there, 0);
}

// Inserts, gets and retires wait for no held value, those that make a layer or empty one neither; a remove of a string with the same slice does.
static void beside_a_held_value(uint32_t waiter) {
    strings mine = opened(waiter, 200, 2), other = mine.share();
    std::atomic<bool> is_held{false}, may_leave{false}, is_right{false}, is_removed{false};
    mine.insert("shared:way", object(1));
    mine.insert("shared:walk", object(2));
    WANT(mine.layers(), 1);
    std::thread reader([&] {
        const auto held = other.get("shared:way");
        is_held = true;
        while (!may_leave) std::this_thread::sleep_for(std::chrono::milliseconds(1));
        is_right = held->is_right() && held->number == 1;
    });
    while (!is_held) std::this_thread::yield();
    WANT(mine.insert("shared:wall", object(3)), true);
    for (const char *text : {"shared:way", "shared:walk", "shared:wall"}) WANT(mine.retire(text), true);
    WANT(mine.empty(), true);
    WANT(mine.insert("shared:way", object(4)), true);
    for (uint64_t i = 0; i < strings::most_retired - 10; i++) WANT(mine.insert_or_assign("shared:way", object(i)), false);
    std::thread remover([&] { is_removed = mine.remove("shared:way").has_value(); });
    std::this_thread::sleep_for(std::chrono::milliseconds(20));
    WANT(bool(is_removed), false);
    may_leave = true;
    reader.join();
    remover.join();
    WANT(bool(is_right), true);
    WANT(bool(is_removed), true);
    mine.flush();
    WANT(there, 0);
    WANT(mine.layers(), 0);
}

static void map_objects_are_shared_and_moved() {
    {
        strings first(100, 3), second = first.share(), third = first.share();
        WANT(is_refused(citrus::fault::no_handle, [&] { first.share(); }), true);
        third.insert("one", object(1));
        WANT(first.get("one")->number, 1);
        first = std::move(third);
        first.insert("two", object(2));
        WANT(second.get("two")->number, 2);
        third = second.share();
        WANT(is_refused(citrus::fault::no_handle, [&] { second.share(); }), true);
        second = strings(10, 1);
        WANT(second.contains("one"), false);
        second.insert("one", object(1));
        WANT(third.get("one")->number, 1);
        WANT(there, 3);
    }
    WANT(there, 0);
}

// What a thread does with strings that are its own, beside others in the same layers: each answer is that of its own map.
static void own_strings(strings &mine, unsigned who, unsigned threads, uint64_t calls, std::atomic<long> &wrong) {
    std::map<std::string, uint64_t> all;
    uint64_t state = 1000 + who;
    for (uint64_t i = 0; i < calls; i++) {
        const std::string text = drawn_text(state);
        if (std::hash<std::string>()(text) % threads != who) {
            const auto found = mine.get(text);
            wrong += found && (!found->is_right() || found.key() != text);
            continue;
        }
        const auto at = all.find(text);
        const bool was_there = at != all.end();
        const uint64_t had = was_there ? at->second : UNTOUCHED;
        switch ((drawn(state) >> 20) % 7) {
        case 0: case 1: wrong += mine.insert(text, object(i)) == was_there; all.emplace(text, i); break;
        case 2: wrong += number_of(mine.upsert(text, object(i))).value_or(UNTOUCHED) != had; all[text] = i; break;
        case 3: wrong += number_of(mine.remove(text)).value_or(UNTOUCHED) != had; all.erase(text); break;
        case 4: wrong += mine.retire(text) != was_there; all.erase(text); break;
        case 5: {
            if (i % 16) break;
            auto next = all.begin();
            mine.each([&](std::string_view found, const object &value) {
                if (std::hash<std::string_view>()(found) % threads != who) return;
                const bool is_it = next != all.end() && next->first == found && number_of(value) == next->second;
                wrong += !is_it;
                if (is_it) ++next;
            });
            wrong += next != all.end();
            break;
        }
        default: {
            const auto found = mine.get(text);
            wrong += (found ? number_of(*found).value_or(0) : UNTOUCHED) != had;
        }
        }
    }
    for (const auto &pair : all) wrong += !mine.retire(pair.first);
    mine.flush();
}

static void threads_with_strings_of_their_own(uint32_t waiter) {
    enum { THREADS = 4, CALLS = 6000 };
    std::atomic<long> wrong{0};
    {
        strings first = opened(waiter, 20000, THREADS + 1);
        std::vector<std::thread> threads;
        for (unsigned who = 0; who < THREADS; who++)
            threads.emplace_back([who, &wrong, mine = first.share()]() mutable { own_strings(mine, who, THREADS, CALLS, wrong); });
        for (std::thread &thread : threads) thread.join();
        WANT(first.empty(), true);
        WANT(first.layers(), 0);
    }
    WANT(wrong, 0);
    WANT(there, 0);
    WANT(not_right, 0);
}

// A round of threads on a few strings that all share. The strings that are there before and after it are told by a get of each.
static void shared_strings(std::vector<strings> &maps, const std::vector<std::string> &texts, uint64_t round, uint64_t calls) {
    std::vector<Told> told(maps.size() + 1, Told(texts.size()));
    std::vector<std::thread> threads;
    const auto look = [&](Told &looks) {
        for (size_t at = 0; at < texts.size(); at++) call_for(maps[0], GET_TEXT, texts, at, 0, looks, [] {});
    };
    look(told.back());
    std::vector<Value> before;
    for (size_t at = 0; at < texts.size(); at++) before.push_back(told.back()[at].back().found);
    for (size_t who = 0; who < maps.size(); who++)
        threads.emplace_back([&, who] {
            uint64_t state = (round + 1) * 7919 + who;
            for (uint64_t i = 0; i < calls; i++) {
                const uint64_t kind = (drawn(state) >> 20) % (STRING_CALLS + 1), at = (drawn(state) >> 20) % texts.size();
                if (kind != SCAN || i % 8 == 0) call_for(maps[who], kind, texts, at, (round * calls + i) * maps.size() + who, told[who], [] {});
            }
        });
    for (std::thread &thread : threads) thread.join();
    look(told.back());
    for (size_t at = 0; at < texts.size(); at++) {
        OneOrder<Call, Value> order(before[at]);
        const Call *const without = order.find(replies_for(at, told));
        WANT(without == nullptr, true);
    }
}

static void threads_share_strings(uint32_t waiter) {
    enum { THREADS = 4, ROUNDS = 30, CALLS = 200 };
    {
        strings first = opened(waiter, 2000, THREADS);
        std::vector<strings> maps;
        for (int i = 1; i < THREADS; i++) maps.push_back(first.share());
        maps.push_back(std::move(first));
        uint64_t state = 4711 + waiter;
        for (uint64_t round = 0; round < ROUNDS; round++) {
            const std::string stem = drawn_text(state);
            std::set<std::string> drawn_texts;
            while (drawn_texts.size() < 2 + round % 6) drawn_texts.insert(round % 2 ? stem + drawn_text(state) : drawn_text(state));
            const std::vector<std::string> texts(drawn_texts.begin(), drawn_texts.end());
            shared_strings(maps, texts, round, CALLS);
            for (const std::string &text : texts) maps[0].retire(text);
            for (strings &map : maps) map.flush();
            WANT(there, 0);
            WANT(maps[0].layers(), 0);
        }
    }
    WANT(there, 0);
    WANT(not_right, 0);
}

// Four threads pop, two at each end, until nothing is left: each string comes to one of them.
static void threads_pop_strings(uint32_t waiter) {
    enum { STRINGS = 600, THREADS = 4 };
    strings first = opened(waiter, 4 * STRINGS, THREADS + 1);
    std::vector<std::string> texts;
    uint64_t state = 5;
    while (texts.size() < STRINGS) {
        texts.push_back(drawn_text(state));
        if (!first.insert(texts.back(), object(texts.size() - 1))) texts.pop_back();
    }
    std::vector<std::atomic<int>> popped(STRINGS);
    std::vector<std::thread> threads;
    for (int who = 0; who < THREADS; who++)
        threads.emplace_back([&, who, mine = first.share()]() mutable {
            while (const auto told = who % 2 ? mine.pop_last() : mine.pop_first()) {
                const uint64_t number = number_of(told->value).value_or(0);
                not_right += told->key != texts[number] || popped[number]++;
            }
        });
    for (std::thread &thread : threads) thread.join();
    WANT(std::all_of(popped.begin(), popped.end(), [](const std::atomic<int> &times) { return times == 1; }), true);
    WANT(first.empty(), true);
    WANT(not_right, 0);
}

static const waiter_case waiter_cases[] = {
    {"C++ strings: answers", answers},
    {"C++ strings: takes", takes},
    {"C++ strings: ranges", ranges},
    {"C++ strings: ends", ends},
    {"C++ strings: beside a std::map", beside_a_map},
    {"C++ strings: a full map", a_full_map},
    {"C++ strings: long ways", long_ways},
    {"C++ strings: a held value refuses other calls", a_held_value_refuses_other_calls},
    {"C++ strings: beside a held value", beside_a_held_value},
    {"C++ strings: threads with strings of their own", threads_with_strings_of_their_own},
    {"C++ strings: threads that share strings", threads_share_strings},
    {"C++ strings: threads that pop", threads_pop_strings},
};

static const plain_case plain_cases[] = {{"C++ strings: map objects are shared and moved", map_objects_are_shared_and_moved}};

int main(int count, char **words) {
    std::vector<waiter_case> chosen;
    for (const waiter_case &one : waiter_cases)
        if (count == 1 || std::string(one.name).find(words[1]) != std::string::npos) chosen.push_back(one);
    run_waiter_cases(chosen.data(), chosen.size());
    if (count == 1) run_plain_cases(plain_cases, COUNT_OF(plain_cases));
    return failed_cases != 0;
}
