// Calls of threads that share their keys, and a search for one order of them that explains each reply.
//
// A call takes effect at a moment between its begin and its end (Herlihy and Wing, "Linearizability", 1990). An order is looked for event by
// event, with all that may have taken effect so far (Lowe, "Testing for linearizability", 2017).
#ifndef ONE_ORDER_HPP
#define ONE_ORDER_HPP

#include <algorithm>
#include <atomic>
#include <citrus.hpp>
#include <deque>
#include <map>
#include <set>
#include <utility>

using Value = std::optional<uint64_t>;

enum class Kind { Get, Put, Set, Del };

// A call of one key and its reply. An upsert is the set or the put by which it ended, a compare the set or the get, and a take the del or the get.
struct Call {
    Kind kind;
    uint64_t key, value;      // what a put or a set gives the key
    Value found;              // what the key had, where the reply tells it
    bool is_found;            // whether the key was there
    uint64_t begin, end;      // stamps of one clock
    uint32_t script;
    uint64_t moment = 0;      // the event at which it took effect in the order that was found
    uint64_t turn = 0;        // and its turn among those of that event

    bool is_update() const { return kind == Kind::Put ? !is_found : kind != Kind::Get && is_found; }

    // Whether the reply is right where the key has this value.
    bool is_explained(const Value &now) const {
        if (!is_found || !found) return now.has_value() == is_found;
        return now == found;
    }

    // What the key has after it.
    Value after(const Value &now) const {
        if (!is_update()) return now;
        return kind == Kind::Del ? Value() : Value(value);
    }
};

static std::atomic<uint64_t> stamps{0};

static inline uint64_t drawn(uint64_t &state) {
    state ^= state << 13;
    state ^= state >> 7;
    state ^= state << 17;
    return state;
}

// What a compare or a take came to, which is of this kind where it is done, and where it found this value or none.
static inline void told_of(Call &call, Kind done, citrus::compared told, uint64_t found) {
    call.kind = told == citrus::compared::done ? done : Kind::Get;
    call.is_found = told != citrus::compared::absent;
    if (call.is_found) call.found = found;
}

enum KeyCall : uint64_t { GET, HOLD, INSERT, REPLACE, UPSERT, COMPARE, TAKE, REMOVE, KEY_CALLS };

// Makes a call of this kind. What a hold tells is judged as what a get tells: its reply is known before the section is left.
template <class Index> Call call_of(Index &index, uint64_t which, uint64_t key, uint64_t value) {
    Call call{};
    decltype(index.hold(key)) held;
    uint64_t found = which == COMPARE || which == TAKE ? index.get(key).value_or(value) : value;
    call.key = key;
    call.value = value;
    call.begin = ++stamps;
    switch (which) {
    case GET:
        call.kind = Kind::Get;
        call.found = index.get(key);
        call.is_found = call.found.has_value();
        break;
    case HOLD:
        call.kind = Kind::Get;
        held = index.hold(key);
        call.is_found = bool(held);
        if (held) call.found = held.value();
        break;
    case INSERT:
        call.kind = Kind::Put;
        call.is_found = !index.insert(key, value);
        break;
    case REPLACE:
        call.kind = Kind::Set;
        call.found = index.replace(key, value);
        call.is_found = call.found.has_value();
        break;
    case UPSERT:
        call.found = index.upsert(key, value);
        call.is_found = call.found.has_value();
        call.kind = call.is_found ? Kind::Set : Kind::Put;
        break;
    case COMPARE: {
        const citrus::compared told = index.compare_exchange(key, found, value);
        told_of(call, Kind::Set, told, found);
        break;
    }
    case TAKE: {
        const citrus::compared told = index.take(key, found);
        told_of(call, Kind::Del, told, found);
        break;
    }
    default:
        call.kind = Kind::Del;
        call.found = index.remove(key);
        call.is_found = call.found.has_value();
    }
    call.end = ++stamps;
    return call;
}

// Turns nodes on the way to the key, in four attempts at most. That no slot is free is no fault.
template <class Index> void tidy(Index &index, uint64_t key) {
    try {
        index.tidy(key, key, 4);
    } catch (const citrus::error &refusal) {
        if (refusal.why() != citrus::fault::full) throw;
    }
}

// Calls over a state, put into an order event by event. A call tells whether it is explained by a state, and the state after it.
template <class AnyCall, class State> class OneOrder {
public:
    explicit OneOrder(State first = {}) { ways_[{first, {}}] = Way{{first, {}}, nullptr}; }

    // Gives each call its moment and its turn. Where there is no order it returns the call at whose end that shows, and else nothing.
    const AnyCall *find(const std::vector<AnyCall *> &calls) {
        std::map<uint64_t, std::pair<AnyCall *, bool>> events;
        for (AnyCall *call : calls) {
            events[call->begin] = {call, false};
            events[call->end] = {call, true};
        }
        for (const auto &[moment, event] : events) {
            const auto [call, is_end] = event;
            moment_ = moment;
            if (!is_end) under_way_.insert(call);
            else if (!end(call)) return call;
        }
        tell(ways_.begin()->second.last);
        return nullptr;
    }

private:
    struct Step {
        AnyCall *call;
        uint64_t moment;
        const Step *before;
    };

    // The state, and the calls under way that have taken effect: where two ways have come to the same, one is enough.
    using Reached = std::pair<State, std::set<AnyCall *>>;

    struct Way {
        Reached reached;
        const Step *last;
    };

    std::map<Reached, Way> ways_;
    std::set<AnyCall *> under_way_;
    uint64_t moment_ = 0;
    std::deque<Step> steps_;

    Way after(Way way, AnyCall *call) {
        steps_.push_back({call, moment_, way.last});
        way.reached.first = call->after(way.reached.first);
        way.reached.second.insert(call);
        way.last = &steps_.back();
        return way;
    }

    bool may_follow(const Way &way, AnyCall *call) const { return !way.reached.second.count(call) && call->is_explained(way.reached.first); }

    // Adds the ways that lead from this one to one in which the call has taken effect. A call under way that changes nothing takes effect
    // as soon as its reply is explained, since it then stands in nobody's way.
    void lead_to(AnyCall *wanted, Way way, std::map<Reached, Way> &found, std::set<Reached> &seen) {
        for (AnyCall *call : under_way_)
            if (!call->is_update() && may_follow(way, call)) way = after(way, call);
        if (!seen.insert(way.reached).second) return;
        if (way.reached.second.erase(wanted)) {
            found.emplace(way.reached, way);
            return;
        }
        for (AnyCall *call : under_way_)
            if (call->is_update() && may_follow(way, call)) lead_to(wanted, after(way, call), found, seen);
    }

    // Lets the call have taken effect, and returns whether that can be.
    bool end(AnyCall *call) {
        std::map<Reached, Way> found;
        std::set<Reached> seen;
        for (const auto &[reached, way] : ways_) lead_to(call, way, found, seen);
        under_way_.erase(call);
        ways_ = std::move(found);
        return !ways_.empty();
    }

    static void tell(const Step *last) {
        uint64_t turn = UINT64_MAX;
        for (const Step *step = last; step; step = step->before) {
            step->call->moment = step->moment;
            step->call->turn = turn--;
        }
    }
};

#endif
