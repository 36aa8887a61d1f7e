// Four threads on an index of 2, 3, 4 or 6 keys, and one order of all their calls that explains each reply: of lists, firsts and lasts too,
// which tell of several keys at once. Usage: whole [ROUNDS [SEED [WAITER [KEYS]]]]. It ends with the first case that fails. With FLOATING_KEYS
// keys are floating numbers, the infinities and what is no number among them.
//
// Before a round one thread puts all keys in, in an order that is drawn: so the tree has one shape or another. In the round each thread makes
// calls that are drawn, and behind it a list tells what there is when nobody calls. So each round has an order for itself. Most keys stay in
// a round, since of one that is often taken out nearly each reply is right at some moment of a call.
#include "cases.h"
#include "one_order.hpp"
#include <array>
#include <cstdlib>
#include <string>
#include <thread>

#ifdef FLOATING_KEYS
#include "numbered.hpp"
#define KIND_OF_KEYS " floating"
using Index = numbered<float>;
#else
#define KIND_OF_KEYS ""
using Index = citrus::handle;
#endif

enum { THREADS = 4, MOST_KEYS = 6, CALLS = 30, MOST_TOLD = 3 };

// What each key has.
using Pairs = std::array<Value, MOST_KEYS>;

// A call of one key, or a look at several: then the reply tells what the keys from `low` to `high` have.
struct WholeCall : Call {
    bool is_look = false, is_in_order = true;
    uint64_t low = 0, high = 0;
    Pairs told{};

    bool is_update() const { return !is_look && Call::is_update(); }

    bool is_explained(const Pairs &now) const {
        if (!is_look) return Call::is_explained(now[key]);
        return is_in_order && std::equal(told.begin() + low, told.begin() + high + 1, now.begin() + low);
    }

    Pairs after(Pairs now) const {
        if (!is_look) now[key] = Call::after(now[key]);
        return now;
    }

    // Takes up a pair of the reply. Each has a greater key than the one before, and from low to high.
    void take(const citrus_pair &pair, uint64_t least) {
        is_in_order = is_in_order && least <= pair.key && pair.key <= high;
        if (is_in_order) told[pair.key] = pair.value;
    }
};

// A list with room for so many pairs. Where there are more it tells nothing of those from the next key on.
static void list(Index &index, WholeCall &look, size_t room) {
    const citrus::page found = index.list(look.low, look.high, room);
    uint64_t least = look.low;
    for (const citrus_pair &pair : found) {
        look.take(pair, least);
        least = pair.key + 1;
    }
    if (!found.next) return;
    look.is_in_order = look.is_in_order && found.size() == room && least <= *found.next && *found.next <= look.high;
    if (look.is_in_order) look.high = *found.next - 1;
}

// A first tells nothing of the keys above the one that it found.
static void find_first(Index &index, WholeCall &look) {
    const std::optional<citrus_pair> found = index.first_from(look.low);
    if (!found) return;
    look.take(*found, look.low);
    if (look.is_in_order) look.high = found->key;
}

// Nor does a last of those below.
static void find_last(Index &index, WholeCall &look) {
    const std::optional<citrus_pair> found = index.last(look.low, look.high);
    if (!found) return;
    look.take(*found, look.low);
    if (look.is_in_order) look.low = found->key;
}

enum Look { LIST, SHORT_LIST, FIRST, LAST, LOOKS };

static WholeCall look_at(Index &index, uint64_t which, uint64_t low, uint64_t high) {
    WholeCall look{};
    look.is_look = true;
    look.low = low;
    look.high = high;
    look.begin = ++stamps;
    switch (which) {
    case LIST: list(index, look, MOST_KEYS); break;
    case SHORT_LIST: list(index, look, 1); break;
    case FIRST: find_first(index, look); break;
    default: find_last(index, look);
    }
    look.end = ++stamps;
    return look;
}

struct Trial {
    uint64_t keys, rounds, seed;
    std::atomic<uint64_t> arrived{0};
    std::vector<Pairs> begins; // of each round
    std::array<std::vector<WholeCall>, THREADS> calls;

    explicit Trial(uint64_t keys, uint64_t rounds, uint64_t seed) : keys(keys), rounds(rounds), seed(seed) {}

    // Goes on when all threads have come here so often. Who sleeps would begin late.
    void meet(uint64_t times) {
        ++arrived;
        while (arrived < times * THREADS) std::this_thread::yield();
    }
};

// The calls of one key by their parts.
static constexpr uint64_t which_of_key[] = {GET,    GET,    GET,     GET,    GET,    GET,     HOLD,   HOLD,   INSERT,
                                            INSERT, INSERT, REPLACE, UPSERT, UPSERT, COMPARE, TAKE, REMOVE, REMOVE, REMOVE};

// One look comes to some four calls of one key. One of 50 of these is followed by turns on the way to its key.
static WholeCall drawn_call(Index &index, uint64_t &state, uint64_t keys, uint64_t staying, uint64_t value) {
    uint64_t which = drawn(state) % (std::size(which_of_key) + LOOKS);
    const uint64_t key = drawn(state) % keys, other = drawn(state) % keys;
    if (which >= std::size(which_of_key)) {
        const uint64_t look = which - std::size(which_of_key);
        return look_at(index, look, std::min(key, other), look == FIRST ? keys - 1 : std::max(key, other));
    }
    WholeCall call{};
    which = which_of_key[which];
    if ((which == REMOVE || which == TAKE) && staying >> key & 1) which = GET;
    static_cast<Call &>(call) = call_of(index, which, key, value);
    if (drawn(state) % 50 == 0) tidy(index, key);
    return call;
}

// The order in which a round's keys are put in, and those of them that stay. Mostly the first key gets two children, with the next key below
// its right one where there are four keys or more. So a remove of the first key makes a copy of the next one, and waits.
struct Plan {
    std::vector<uint64_t> order;
    uint64_t staying = 0;

    Plan(const Trial &trial, uint64_t round) {
        const uint64_t keys = trial.keys;
        uint64_t state = 88172645463325252u + 1000003 * trial.seed + 7919 * round;
        for (uint64_t key = 0; key < keys; key++) {
            order.push_back(key);
            std::swap(order.back(), order[drawn(state) % order.size()]);
        }
        if (keys == 2 || drawn(state) % 4 == 0) return;
        const uint64_t first = 1 + drawn(state) % std::max<uint64_t>(keys - 3, 1);
        std::swap(order[0], *std::find(order.begin(), order.end(), first));
        if (keys > 3) std::swap(order[1], *std::find(order.begin(), order.end(), first + 2 + drawn(state) % (keys - first - 2)));
        for (uint64_t key = 0; key < keys; key++)
            if (key != first && drawn(state) % 4) staying |= uint64_t{1} << key;
    }
};

// Makes the index that a round begins with, and looks at it.
static WholeCall set_up(Trial &trial, Index &index, const Plan &plan, uint64_t &value) {
    Pairs begin;
    for (const uint64_t key : plan.order) index.remove(key);
    for (const uint64_t key : plan.order) {
        begin[key] = value += THREADS;
        index.insert(key, value);
    }
    trial.begins.push_back(begin);
    return look_at(index, LIST, 0, trial.keys - 1);
}

static void work(Trial &trial, Index &index, uint32_t number) {
    std::vector<WholeCall> &calls = trial.calls[number];
    uint64_t state = 88172645463325252u + 1000003 * trial.seed + 7919 * number, value = number;
    calls.reserve(trial.rounds * (CALLS + 2));
    for (uint64_t round = 0; round < trial.rounds; round++) {
        const Plan plan(trial, round);
        if (number == 0) calls.push_back(set_up(trial, index, plan, value));
        trial.meet(2 * round + 1);
        for (int i = 0; i < CALLS; i++) {
            calls.push_back(drawn_call(index, state, trial.keys, plan.staying, value += THREADS));
            calls.back().script = number;
        }
        trial.meet(2 * round + 2);
        if (number == 0) calls.push_back(look_at(index, LIST, 0, trial.keys - 1));
    }
}

static std::string words_of(const WholeCall &call) {
    static const char *const names[] = {"get", "put", "set", "del"};
    std::string words = call.is_look ? "look" : std::string(names[int(call.kind)]) + " " + std::to_string(call.key);
    if (!call.is_look && call.kind != Kind::Get) words += " " + std::to_string(call.value);
    if (!call.is_look) return words + (!call.is_found ? ": absent" : call.found ? ": has " + std::to_string(*call.found) : ": present");
    for (uint64_t key = call.low; key <= call.high; key++)
        words += " " + std::to_string(key) + (call.told[key] ? "=" + std::to_string(*call.told[key]) : " absent");
    return words + (call.is_in_order ? "" : ", and other keys than it may tell");
}

static void say(const char *what, const WholeCall &call) {
    printf("%s thread %u, %llu to %llu: %s\n", what, call.script, (unsigned long long)call.begin, (unsigned long long)call.end,
           words_of(call).c_str());
}

// How many rounds have no order. Of the first few it writes the call that has none, and the updates beside it.
static uint64_t judge(Trial &trial) {
    uint64_t wrong = 0;
    std::array<size_t, THREADS> at{};
    for (uint64_t round = 0; round < trial.rounds; round++) {
        std::vector<WholeCall *> calls;
        for (int number = 0; number < THREADS; number++)
            for (int i = 0; i < CALLS + 2 * (number == 0); i++) calls.push_back(&trial.calls[number][at[number]++]);
        const WholeCall *const unexplained = OneOrder<WholeCall, Pairs>(trial.begins[round]).find(calls);
        if (!unexplained || wrong++ >= MOST_TOLD) continue;
        say("no order explains", *unexplained);
        for (const WholeCall *call : calls)
            if (call != unexplained && call->is_update() && call->begin < unexplained->end && call->end > unexplained->begin)
                say("beside it", *call);
    }
    return wrong;
}

static void run_on(uint32_t waiter, uint64_t keys, uint64_t rounds, uint64_t seed) {
    Trial trial(keys, rounds, seed);
    {
        // One pair more than there are keys: so no call finds the index full.
        Index first(keys + 1, THREADS + 1, citrus::waiter{waiter});
        std::vector<Index> handles;
        std::vector<std::thread> threads;
        for (int i = 0; i < THREADS; i++) handles.push_back(first.share());
        for (uint32_t i = 0; i < THREADS; i++) threads.emplace_back([&, i] { work(trial, handles[i], i); });
        for (std::thread &thread : threads) thread.join();
    }
    const std::string calls = std::to_string(rounds * (THREADS * CALLS + 2));
    const std::string of = std::to_string(keys) + KIND_OF_KEYS " keys, " + waiter_names[waiter] + ", " + calls + " calls";
    WANT(judge(trial), 0);
    end_case("one order of all calls explains each reply, lists, firsts and lasts too", of.c_str());
}

int main(int count, char **words) {
    const auto number = [&](int at, uint64_t otherwise) { return count > at ? strtoull(words[at], nullptr, 10) : otherwise; };
    for (uint32_t waiter = CITRUS_EER; waiter <= CITRUS_DEER; waiter++)
        for (const uint64_t keys : {2, 3, 4, MOST_KEYS + 0})
            if (number(3, waiter) == waiter && number(4, keys) == keys && !failed_cases) run_on(waiter, keys, number(1, 400), number(2, 1));
    return failed_cases != 0;
}
