// The map of citrus_map.hpp: each answer, and four threads on one map. An object is counted, and tells whether it is there still. With a word
// it runs the cases alone that have it in their names.
#include "cases.h"
#include <chrono>
#include <functional>
#include <random>
#include <string>
#include <thread>
#include <utility>

// What this thread does behind its next release: in an update or a take that is before the value is compared.
static thread_local std::function<void()> behind_release;

static inline int32_t release_and_more(citrus_handle *handle) {
    const int32_t status = citrus_release(handle);
    if (const std::function<void()> work = std::exchange(behind_release, nullptr)) work();
    return status;
}

#undef citrus_release
#define citrus_release release_and_more
#include <citrus_map.hpp>

static std::atomic<long> there{0};

struct object {
    uint64_t key;
    std::string text;

    explicit object(uint64_t key) : key(key), text("the object of key " + std::to_string(key)) { there++; }
    object(const object &) = delete;
    object &operator=(const object &) = delete;
    ~object() {
        key = ~key;
        there--;
    }

    bool is_of(uint64_t wanted) const { return key == wanted && text.size() > 18; }
};

using objects = citrus::map<object>;

static std::unique_ptr<object> make(uint64_t key) { return std::make_unique<object>(key); }

static bool is_refused(citrus::fault why, const std::function<void()> &work) {
    try {
        work();
    } catch (const citrus::error &told) {
        return told.why() == why;
    }
    return false;
}

static void answers(uint32_t waiter) {
    objects mine(10, 1, static_cast<citrus::waiter>(waiter));
    WANT(bool(mine.get(5)), false);
    WANT(mine.get(5).get() == nullptr, true);
    WANT(mine.insert(5, make(5)), true);
    WANT(mine.get(5)->is_of(5), true);
    WANT((*mine.get(5)).is_of(5), true);
    const citrus::held<object> early = mine.get(5);
    WANT(early->is_of(5), true);
    early.release();
    WANT(early.get() == nullptr, true);
    WANT(mine.replace(5, make(5))->is_of(5), true);
    WANT(mine.upsert(5, make(5))->is_of(5), true);
    WANT(mine.upsert(6, make(6)) == nullptr, true);
    WANT(mine.first_key().value_or(0), 5);
    WANT(mine.first_key_from(6).value_or(0), 6);
    WANT(mine.first_key_from(7).has_value(), false);
    WANT(mine.last_key().value_or(0), 6);
    WANT(mine.last_key_to(5).value_or(0), 5);
    WANT(mine.last_key_to(4).has_value(), false);
    WANT(mine.contains(6), true);
    WANT(mine.contains(7), false);
    WANT(mine.size(), 2);
    WANT(mine.empty(), false);
    WANT(there, 2);
    WANT(mine.remove(5)->is_of(5), true);
    WANT(mine.remove(5) == nullptr, true);
    WANT(mine.retire(6), true);
    WANT(mine.retire(6), false);
    mine.flush();
    WANT(there, 0);
}

static void ranges(uint32_t waiter) {
    objects mine(3000, 1, static_cast<citrus::waiter>(waiter));
    WANT(mine.empty(), true);
    WANT(mine.pop_first().has_value(), false);
    for (uint64_t key = 0; key < 3000; key++) mine.insert(key, make(key));
    const auto first = mine.pop_first(), second = mine.pop_first_from(10), last = mine.pop_last(), before = mine.pop_last_to(2000);
    WANT(first && first->key == 0 && first->value->is_of(0), true);
    WANT(second && second->key == 10 && second->value->is_of(10), true);
    WANT(last && last->key == 2999 && last->value->is_of(2999), true);
    WANT(before && before->key == 2000 && before->value->is_of(2000), true);
    WANT(mine.size(), 2996);
    WANT(mine.retain(1000, 1999, [](uint64_t key, const object &value) { return value.is_of(key) && key % 2; }), 500);
    WANT(mine.size(1000, 1999), 500);
    WANT(mine.clear(0, 99), 98);
    WANT(mine.clear(), 2996 - 500 - 98);
    mine.flush();
    WANT(there, 4);
}

// A pair goes while its value is the one that was asked about.
static void takes(uint32_t waiter) {
    objects mine(10, 1, static_cast<citrus::waiter>(waiter));
    const auto is_it = [](const object &value) { return value.is_of(5); };
    WANT(mine.remove_if(5, is_it) == nullptr, true);
    WANT(mine.retire_if(5, is_it), false);
    mine.insert(5, make(5));
    WANT(mine.remove_if(5, [](const object &value) { return !value.is_of(5); }) == nullptr, true);
    WANT(mine.remove_if(5, is_it)->is_of(5), true);
    mine.insert(5, make(5));
    WANT(mine.retire_if(5, is_it), true);
    mine.flush();
    WANT(there, 0);
}

// What is made of a value that isn't there any more is dropped, and made again of the one that is.
static void updates(uint32_t waiter) {
    objects mine(10, 2, static_cast<citrus::waiter>(waiter)), other = mine.share();
    uint64_t calls = 0;
    const auto renamed = [&](const object &value) {
        calls++;
        auto made = make(value.key);
        made->text = value.text + "!";
        return made;
    };
    WANT(mine.update(5, renamed) == nullptr, true);
    WANT(calls, 0);
    mine.insert(5, make(5));
    WANT(mine.update(5, renamed)->text == "the object of key 5", true);
    WANT(mine.get(5)->text == "the object of key 5!", true);
    WANT(calls, 1);
    WANT(is_refused(citrus::fault::bad_argument, [&] { mine.update(5, [](const object &) { return std::unique_ptr<object>(); }); }), true);
    WANT(mine.get(5)->is_of(5), true);
    WANT(other.remove(5)->is_of(5), true);
    WANT(there, 0);
}

// An object that an update or a take compares with isn't given up before it has: so none at its address is taken for it.
static void what_is_compared_stays(uint32_t waiter) {
    for (const auto &[retires, takes] : {std::pair(false, false), {true, false}, {false, true}, {true, true}}) {
        objects mine(10, 2, static_cast<citrus::waiter>(waiter)), other = mine.share();
        std::atomic<bool> is_over{false};
        std::thread thread;
        long calls = 0;
        mine.insert(5, make(5));
        const auto take_out = [&] {
            if (!retires) {
                WANT(other.remove(5)->is_of(5), true);
            } else {
                WANT(other.retire(5), true);
                other.flush();
            }
            is_over = true;
        };
        const auto is_asked = [&] {
            behind_release = [&] {
                thread = std::thread(take_out);
                for (int turn = 0; mine.contains(5) && turn < 1000; turn++) std::this_thread::sleep_for(std::chrono::milliseconds(10));
                WANT(mine.contains(5), false);
                std::this_thread::sleep_for(std::chrono::milliseconds(20));
                WANT(bool(is_over), false);
            };
            return ++calls;
        };
        if (takes) {
            WANT(mine.remove_if(5, [&](const object &) { return is_asked() > 0; }) == nullptr, true);
        } else {
            WANT(mine.update(5, [&](const object &value) { return is_asked(), make(value.key); }) == nullptr, true);
        }
        thread.join();
        WANT(calls, 1);
        WANT(bool(is_over), true);
        WANT(there, 0);
    }
}

// Each update adds a letter to what it found, so none may be lost, whatever addresses are used again.
static void threads_update_the_same_keys(uint32_t waiter) {
    enum { KEYS = 3, UPDATES = 3000, THREADS = 4 };
    {
        objects first(KEYS, THREADS + 1, static_cast<citrus::waiter>(waiter));
        std::atomic<uint64_t> raises{0};
        std::vector<std::thread> threads;
        for (uint64_t key = 0; key < KEYS; key++) first.insert(key, make(key));
        for (int number = 0; number < THREADS; number++)
            threads.emplace_back([&raises, mine = first.share()]() mutable {
                const auto longer = [](const object &value) {
                    auto made = make(value.key);
                    made->text = value.text + "+";
                    return made;
                };
                for (uint64_t i = 0; i < UPDATES; i++) raises += mine.update(i % KEYS, longer) != nullptr;
            });
        for (std::thread &thread : threads) thread.join();
        uint64_t letters = 0;
        for (uint64_t key = 0; key < KEYS; key++) letters += first.get(key)->text.size() - object(key).text.size();
        WANT(raises, THREADS * UPDATES);
        WANT(letters, raises);
    }
    WANT(there, 0);
}

// What isn't taken stays with the caller.
static void values_that_are_refused(uint32_t waiter) {
    objects mine(1, 1, static_cast<citrus::waiter>(waiter));
    std::unique_ptr<object> value = make(5), other = make(6), none;
    WANT(mine.replace(5, std::move(value)) == nullptr, true);
    WANT(value->is_of(5), true);
    WANT(mine.insert(5, std::move(value)), true);
    WANT(value == nullptr, true);
    WANT(mine.insert(5, std::move(other)), false);
    WANT(other->is_of(6), true);
    for (uint64_t key = 100; key < 100 + 68; key++) WANT(mine.insert(key, make(key)), true);
    WANT(is_refused(citrus::fault::full, [&] { mine.insert(6, std::move(other)); }), true);
    WANT(is_refused(citrus::fault::full, [&] { mine.upsert(6, std::move(other)); }), true);
    WANT(other->is_of(6), true);
    WANT(is_refused(citrus::fault::bad_argument, [&] { mine.insert(7, std::move(none)); }), true);
    WANT(is_refused(citrus::fault::bad_argument, [&] { mine.upsert(5, nullptr); }), true);
    WANT(mine.get(5)->is_of(5), true);
}

static void a_held_value_refuses(uint32_t waiter, citrus::updates go) {
    objects mine(10, 2, static_cast<citrus::waiter>(waiter), go);
    mine.insert(5, make(5));
    citrus::held<object> held = mine.get(5);
    std::unique_ptr<object> value = make(6);
    WANT(is_refused(citrus::fault::holds, [&] { static_cast<void>(mine.get(5)); }), true);
    WANT(is_refused(citrus::fault::holds, [&] { mine.insert(6, std::move(value)); }), true);
    WANT(is_refused(citrus::fault::holds, [&] { mine.replace(5, std::move(value)); }), true);
    WANT(is_refused(citrus::fault::holds, [&] { mine.upsert(5, std::move(value)); }), true);
    WANT(is_refused(citrus::fault::holds, [&] { mine.update(5, [](const object &) { return make(5); }); }), true);
    WANT(is_refused(citrus::fault::holds, [&] { mine.remove(5); }), true);
    WANT(is_refused(citrus::fault::holds, [&] { mine.pop_last(); }), true);
    WANT(is_refused(citrus::fault::holds, [&] { mine.clear(); }), true);
    WANT(is_refused(citrus::fault::holds, [&] { mine.retire(5); }), true);
    WANT(is_refused(citrus::fault::holds, [&] { mine.first_key(); }), true);
    WANT(is_refused(citrus::fault::holds, [&] { mine.share(); }), true);
    WANT(value->is_of(6), true);
    citrus::held<object> moved = std::move(held);
    WANT(bool(held), false);
    WANT(moved->is_of(5), true);
    moved = citrus::held<object>();
    WANT(mine.remove(5)->is_of(5), true);
    mine.insert(7, std::move(value));
    held = mine.get(7);
    held.release();
    WANT(bool(held), false);
    WANT(mine.retire(7), true);
}

static void a_held_value_refuses_other_calls(uint32_t waiter) {
    for (const auto go : {citrus::updates::beside, citrus::updates::in_turn}) a_held_value_refuses(waiter, go);
}

// The removal has its turn and waits for the held value, since its node has two children and the held one's key is the next.
static void a_held_value_asks_for_no_turn(uint32_t waiter) {
    objects mine(10, 2, static_cast<citrus::waiter>(waiter), citrus::updates::in_turn), other = mine.share();
    for (const uint64_t key : {5, 3, 7}) mine.insert(key, make(key));
    citrus::held<object> held = mine.get(7);
    std::atomic<bool> is_told{false};
    std::thread remover([&] { is_told = other.remove(5)->is_of(5); });
    std::this_thread::sleep_for(std::chrono::milliseconds(20));
    WANT(is_refused(citrus::fault::holds, [&] { mine.remove(3); }), true);
    WANT(held->is_of(7), true);
    held.release();
    remover.join();
    WANT(is_told, true);
    WANT(mine.remove(3)->is_of(3), true);
}

// Those that are retired are dropped by later calls, by a wait once there are many, and by the end of the map object; and none that is held.
static void retired_values_are_dropped(uint32_t waiter) {
    {
        objects mine(300, 2, static_cast<citrus::waiter>(waiter)), other = mine.share();
        std::atomic<bool> is_held{false}, is_right{false};
        for (uint64_t key = 0; key < 200; key++) mine.insert(key, make(key));
        for (uint64_t key = 0; key < 100; key++) WANT(mine.retire(key), true);
        WANT(there < 200, true);
        std::thread reader([&] {
            const auto held = other.get(150);
            is_held = true;
            std::this_thread::sleep_for(std::chrono::milliseconds(10));
            is_right = held && held->is_of(150);
        });
        while (!is_held) std::this_thread::yield();
        for (uint64_t key = 120; key < 180; key++) WANT(mine.retire(key), true);
        mine.flush();
        reader.join();
        WANT(is_right, true);
        WANT(there, 40);
        other.retire(190);
    }
    WANT(there, 0);
}

// Each object that goes stands at the end of its way: so the handle keeps one slot back, and waits for readers of its key alone. The held one stays
// until all are gone; where they wait for it, it goes after ten seconds.
static void removes_go_on_beside_a_held_value(uint32_t waiter) {
    citrus::options asked{10, 2, static_cast<citrus::waiter>(waiter)};
    asked.keep = 4096;
    {
        objects mine(asked), other = mine.share();
        std::atomic<bool> is_held{false}, may_leave{false}, is_right{false};
        mine.insert(0, make(0));
        std::thread reader([&] {
            const auto held = other.get(0);
            is_held = true;
            const auto end = std::chrono::steady_clock::now() + std::chrono::seconds(10);
            while (!may_leave && std::chrono::steady_clock::now() < end) std::this_thread::sleep_for(std::chrono::milliseconds(1));
            is_right = may_leave && held && held->is_of(0);
        });
        while (!is_held) std::this_thread::yield();
        for (uint64_t i = 0; i < 4000; i++) {
            const uint64_t key = 1 + i % 62;
            mine.insert(key, make(key));
            WANT(mine.remove(key)->is_of(key), true);
        }
        may_leave = true;
        reader.join();
        WANT(is_right, true);
        WANT(there, 1);
    }
    WANT(there, 0);
}

// A take waits for a held value, since its map object keeps back all the slots that it may. Meanwhile another one retires what it compares with,
// and more. The held value stays until that is done; where it is waited for, it goes after ten seconds.
static void retires_go_on_beside_a_take_that_waits(uint32_t waiter) {
    enum { LAST = 1000 };
    citrus::options asked_for{100, 3, static_cast<citrus::waiter>(waiter)};
    asked_for.keep = 16;
    {
        objects mine(asked_for), taker = mine.share(), retirer = mine.share();
        std::atomic<uint64_t> asked{0};
        std::atomic<bool> is_refused_one{false}, is_retired{false};
        mine.insert(LAST, make(LAST));
        const auto held = mine.get(LAST);
        std::thread taking([&] {
            const auto takes = [&](uint64_t key) {
                taker.insert(key, make(key));
                return taker.retire_if(key, [&](const object &) { return asked.exchange(key) < key; });
            };
            for (uint64_t key = 1; key < LAST && !is_refused_one; key++) is_refused_one = !takes(key);
        });
        std::thread retiring([&] {
            uint64_t key = 0;
            while (key == 0 || asked != key) {
                key = asked;
                std::this_thread::sleep_for(std::chrono::milliseconds(50));
            }
            bool all = retirer.retire(key);
            for (key = LAST / 2; key < LAST / 2 + 10; key++) all &= retirer.insert(key, make(key)) && retirer.retire(key);
            is_retired = all;
        });
        for (int turn = 0; !is_retired && turn < 1000; turn++) std::this_thread::sleep_for(std::chrono::milliseconds(10));
        WANT(bool(is_retired), true);
        WANT(held->is_of(LAST), true);
        held.release();
        taking.join();
        retiring.join();
        WANT(bool(is_refused_one), true);
    }
    WANT(there, 0);
}

static void map_objects_are_shared_and_moved() {
    {
        objects first(100, 3), second = first.share(), third = first.share();
        WANT(is_refused(citrus::fault::no_handle, [&] { first.share(); }), true);
        WANT(is_refused(citrus::fault::no_handle, [&] { third.share(); }), true);
        third.insert(1, make(1));
        WANT(first.get(1)->is_of(1), true);
        first = std::move(third);
        first.insert(2, make(2));
        WANT(second.get(2)->is_of(2), true);
        third = second.share();
        second = objects(10, 1);
        WANT(bool(second.get(1)), false);
        second.insert(1, make(1));
        WANT(third.get(1)->is_of(1), true);
        WANT(there, 3);
    }
    WANT(there, 0);
}

static void work(objects &mine, uint64_t seed, uint64_t keys, std::atomic<long> &read, std::atomic<long> &wrong) {
    std::mt19937_64 draw(seed);
    const auto wants = [&](const std::unique_ptr<object> &gone, uint64_t key) { wrong += gone && !gone->is_of(key); };
    for (int i = 0; i < 5000; i++) {
        const uint64_t key = draw() % keys;
        switch (draw() % 12) {
        case 10: wants(mine.remove_if(key, [&](const object &value) { return wrong += !value.is_of(key), value.is_of(key); }), key); break;
        case 9: mine.retire_if(key, [&](const object &value) { return value.is_of(key); }); break;
        case 8: wants(mine.update(key, [&](const object &value) { return wrong += !value.is_of(key), make(key); }), key); break;
        case 0: mine.insert(key, make(key)); break;
        case 1: wants(mine.replace(key, make(key)), key); break;
        case 2: wants(mine.upsert(key, make(key)), key); break;
        case 3: mine.retire(key); break;
        case 4: wants(mine.remove(key), key); break;
        default:
            if (const auto held = mine.get(key)) {
                wrong += !held->is_of(key);
                read++;
            }
        }
    }
}

static void read_and_take_out(uint32_t waiter, citrus::updates go) {
    for (const uint64_t keys : {4, 300}) {
        std::atomic<long> read{0}, wrong{0};
        {
            objects first(300, 5, static_cast<citrus::waiter>(waiter), go);
            std::vector<std::thread> threads;
            for (uint64_t number = 1; number <= 4; number++)
                threads.emplace_back([number, keys, &read, &wrong, mine = first.share()]() mutable { work(mine, number, keys, read, wrong); });
            for (std::thread &thread : threads) thread.join();
        }
        WANT(wrong, 0);
        WANT(read > 0, true);
        WANT(there, 0);
    }
}

static void threads_read_and_take_out(uint32_t waiter) { read_and_take_out(waiter, citrus::updates::beside); }
static void threads_take_turns(uint32_t waiter) { read_and_take_out(waiter, citrus::updates::in_turn); }

static const waiter_case waiter_cases[] = {
    {"C++ map: answers", answers},
    {"C++ map: ranges", ranges},
    {"C++ map: takes", takes},
    {"C++ map: updates", updates},
    {"C++ map: what an update or a take compares with stays", what_is_compared_stays},
    {"C++ map: threads update the same keys", threads_update_the_same_keys},
    {"C++ map: values that are refused", values_that_are_refused},
    {"C++ map: a held value refuses other calls", a_held_value_refuses_other_calls},
    {"C++ map: retired values are dropped", retired_values_are_dropped},
    {"C++ map: removes go on beside a held value", removes_go_on_beside_a_held_value},
    {"C++ map: retires go on beside a take that waits", retires_go_on_beside_a_take_that_waits},
    {"C++ map: threads read and take out", threads_read_and_take_out},
    {"C++ map: threads whose updates take turns read and take out", threads_take_turns},
    {"C++ map: who holds a value is refused before it waits for a turn", a_held_value_asks_for_no_turn},
};

static const plain_case plain_cases[] = {{"C++ map: map objects are shared and moved", map_objects_are_shared_and_moved}};

int main(int count, char **words) {
    std::vector<waiter_case> chosen;
    for (const waiter_case &one : waiter_cases)
        if (count == 1 || std::string(one.name).find(words[1]) != std::string::npos) chosen.push_back(one);
    run_waiter_cases(chosen.data(), chosen.size());
    if (count == 1) run_plain_cases(plain_cases, COUNT_OF(plain_cases));
    return failed_cases != 0;
}
