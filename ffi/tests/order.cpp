// Threads that all update the same keys, and one order of all their calls that explains each reply. The order is written as an account,
// behind the scripts that the threads made, as the tool's `check` reads it: so whether it explains the replies is for `check` to say.
// Usage: order WAITER THREADS OPERATIONS KEYS SEED [tidy], and WAITER is 0, 1 or 2. With `tidy` nodes on the way to its key are turned behind
// each put. Status 1 where no order was found.
//
// Each key has such an order for itself: one_order.hpp looks for it.
#include "one_order.hpp"
#include <cstdio>
#include <cstdlib>
#include <string>
#include <thread>

struct Settings {
    uint32_t waiter, threads;
    uint64_t operations, keys, seed;
    bool tidies;
};

// The calls of one thread. No value is given twice.
static std::vector<Call> script_of(citrus::handle &index, uint32_t number, const Settings &settings) {
    std::vector<Call> calls;
    calls.reserve(settings.operations);
    uint64_t state = settings.seed * 1000003 + number + 1;
    for (uint64_t i = 0; i < settings.operations; i++) {
        const uint64_t which = drawn(state) % KEY_CALLS, key = drawn(state) % settings.keys;
        calls.push_back(call_of(index, which, key, settings.threads * i + number));
        calls.back().script = number;
        if (settings.tidies && calls.back().kind == Kind::Put && calls.back().is_update()) tidy(index, key);
    }
    return calls;
}

static std::vector<std::vector<Call>> scripts_of(const Settings &settings) {
    // One pair more than there are keys: so no call finds the index full.
    citrus::handle first(settings.keys + 1, settings.threads, citrus::waiter{settings.waiter});
    std::vector<citrus::handle> handles;
    for (uint32_t i = 1; i < settings.threads; i++) handles.push_back(first.share());
    handles.push_back(std::move(first));
    std::vector<std::vector<Call>> scripts(settings.threads);
    std::vector<std::thread> threads;
    std::atomic<uint32_t> ready{0};
    for (uint32_t i = 0; i < settings.threads; i++)
        threads.emplace_back([&, i] {
            ready++;
            while (ready < settings.threads) std::this_thread::yield();
            scripts[i] = script_of(handles[i], i, settings);
        });
    for (std::thread &thread : threads) thread.join();
    return scripts;
}

static std::vector<Call *> all_of(std::vector<std::vector<Call>> &scripts) {
    std::vector<Call *> all;
    for (auto &script : scripts)
        for (Call &call : script) all.push_back(&call);
    return all;
}

// The updates in their order: the history of the account.
static std::optional<std::vector<Call *>> history_of(std::vector<std::vector<Call>> &scripts) {
    std::map<uint64_t, std::vector<Call *>> by_key;
    for (Call *call : all_of(scripts)) by_key[call->key].push_back(call);
    for (const auto &[key, calls] : by_key)
        if (const Call *unexplained = OneOrder<Call, Value>().find(calls)) {
            fprintf(stderr, "no order explains the call of script %u at key %llu\n", unexplained->script, (unsigned long long)key);
            return std::nullopt;
        }
    std::vector<Call *> updates;
    for (Call *call : all_of(scripts))
        if (call->is_update()) updates.push_back(call);
    std::sort(updates.begin(), updates.end(),
              [](const Call *one, const Call *other) { return std::tie(one->moment, one->turn) < std::tie(other->moment, other->turn); });
    return updates;
}

static std::string words_of(const Call &call) {
    const std::string key = std::to_string(call.key), value = std::to_string(call.value);
    switch (call.kind) {
    case Kind::Get: return "get " + key;
    case Kind::Put: return "put " + key + " " + value;
    case Kind::Set: return "set " + key + " " + value;
    default: return "del " + key;
    }
}

static std::string reply_of(const Call &call) {
    switch (call.kind) {
    case Kind::Get: return call.is_found ? "val " + std::to_string(*call.found) : "none";
    case Kind::Put: return call.is_found ? "old" : "new";
    case Kind::Set: return call.is_found ? "was " + std::to_string(*call.found) : "none";
    default: return call.is_found ? "gone" : "none";
    }
}

// What a key has at each front: its values, by the number of the update that gave them.
class Fronts {
public:
    explicit Fronts(const std::vector<Call *> &history) {
        for (size_t i = 0; i < history.size(); i++) {
            numbers_[history[i]] = i + 1;
            values_[history[i]->key][i + 1] = history[i]->after({});
        }
    }

    uint64_t number_of(const Call &update) const { return numbers_.at(&update); }

    // The least front from this one on that explains the reply.
    uint64_t least(const Call &call, uint64_t from) {
        const auto &values = values_[call.key];
        auto next = values.upper_bound(from);
        const Value absent, &now = next == values.begin() ? absent : std::prev(next)->second;
        if (call.is_explained(now)) return from;
        while (next != values.end() && !call.is_explained(next->second)) ++next;
        return next == values.end() ? UINT64_MAX : next->first;
    }

    std::map<uint64_t, uint64_t> last() const {
        std::map<uint64_t, uint64_t> pairs;
        for (const auto &[key, values] : values_)
            if (!values.empty() && values.rbegin()->second) pairs[key] = *values.rbegin()->second;
        return pairs;
    }

private:
    std::map<const Call *, uint64_t> numbers_;
    std::map<uint64_t, std::map<uint64_t, Value>> values_;
};

static void print_account(const std::vector<std::vector<Call>> &scripts, const std::vector<Call *> &history) {
    Fronts fronts(history);
    for (const auto &script : scripts) {
        printf("script\n");
        for (const Call &call : script) printf("%s\n", words_of(call).c_str());
    }
    printf("account\n");
    for (size_t i = 0; i < scripts.size(); i++) {
        printf("script %zu\n", i);
        uint64_t front = 0;
        for (const Call &call : scripts[i]) {
            front = call.is_update() ? fronts.number_of(call) : fronts.least(call, front);
            printf("%s %s %llu\n", words_of(call).c_str(), reply_of(call).c_str(), (unsigned long long)front);
        }
    }
    printf("history %zu\n", history.size());
    for (size_t i = 0; i < history.size(); i++) printf("%zu %u %s\n", i + 1, history[i]->script, words_of(*history[i]).c_str());
    const auto last = fronts.last();
    printf("final %zu\n", last.size());
    for (const auto &[key, value] : last) printf("%llu %llu\n", (unsigned long long)key, (unsigned long long)value);
    printf("end\n");
}

int main(int count, char **words) {
    const bool tidies = count == 7 && words[6] == std::string("tidy");
    if (count != 6 && !tidies) {
        fprintf(stderr, "usage: order WAITER THREADS OPERATIONS KEYS SEED [tidy]\n");
        return 2;
    }
    const auto number = [&](int at) { return strtoull(words[at], nullptr, 10); };
    auto scripts = scripts_of(Settings{uint32_t(number(1)), uint32_t(number(2)), number(3), number(4), number(5), tidies});
    const auto history = history_of(scripts);
    if (!history) return 1;
    print_account(scripts, *history);
}
