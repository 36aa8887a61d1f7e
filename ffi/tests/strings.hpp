// What the tests of citrus_string_map.hpp share: values that tell whether they are there still, strings that begin alike, and calls whose replies
// for each string have one order.
#ifndef STRINGS_HPP
#define STRINGS_HPP

#include "one_order.hpp"
#include <citrus_string_map.hpp>

static std::atomic<long> there{0}, not_right{0};

struct object {
    uint64_t number, check;

    explicit object(uint64_t its) : number(its), check(~its) { ++there; }
    object(object &&other) noexcept : number(other.number), check(other.check) { ++there; }
    object &operator=(object &&) = delete;
    ~object() {
        check = number;
        --there;
    }

    bool is_right() const { return check == ~number; }
};

using strings = citrus::string_map<object>;

// The number of a value, if there is one, which has to be there.
static inline Value number_of(const object &value) {
    not_right += !value.is_right();
    return value.number;
}
static inline Value number_of(const std::optional<object> &value) { return value ? number_of(*value) : Value(); }

enum StringCall : uint64_t { GET_TEXT, INSERT_TEXT, ASSIGN_TEXT, UPSERT_TEXT, UPDATE_TEXT, REMOVE_TEXT, REMOVE_IF, RETIRE_TEXT, SCAN, STRING_CALLS };

// What the replies of a thread tell of each string.
using Told = std::vector<std::vector<Call>>;

// A visit to all is a get of each string, and the strings ascend, or descend.
static inline void scan(strings &map, const std::vector<std::string> &texts, bool is_down, uint64_t begin, Told &told) {
    std::vector<Value> found(texts.size());
    std::string before;
    bool is_first = true;
    const auto visit = [&](std::string_view text, const object &value) {
        not_right += !is_first && (is_down ? text >= before : text <= before);
        is_first = false;
        before = text;
        const auto at = std::lower_bound(texts.begin(), texts.end(), text);
        if (at == texts.end() || *at != text) not_right++;
        else found[size_t(at - texts.begin())] = number_of(value);
    };
    is_down ? map.each_down(visit) : map.each(visit);
    const uint64_t end = ++stamps;
    for (size_t i = 0; i < texts.size(); i++) told[i].push_back({Kind::Get, i, 0, found[i], found[i].has_value(), begin, end, 0});
}

// A take that looks: it took the value out, or it ended with the one that was to stay, or with none.
static inline void take_odd(strings &map, const std::string &text, Call &call) {
    Value stayed;
    const auto is_odd = [&](const object &value) {
        stayed = number_of(value);
        const bool goes = *stayed % 2;
        if (goes) stayed.reset();
        return goes;
    };
    call.found = number_of(map.remove_if(text, is_odd));
    call.kind = call.found ? Kind::Del : Kind::Get;
    if (!call.found) call.found = stayed;
    call.is_found = call.found.has_value();
}

// Makes a call of this kind for one of the strings, which are in order. Numbers are all different.
template <class Held> void call_for(strings &map, uint64_t which, const std::vector<std::string> &texts, size_t at, uint64_t number, Told &told, Held while_held) {
    const std::string &text = texts[at];
    Call call{Kind::Set, at, number, {}, false, ++stamps, 0, 0};
    switch (which) {
    case SCAN: return scan(map, texts, number % 2, call.begin, told);
    case GET_TEXT: {
        call.kind = Kind::Get;
        const auto held = map.get(text);
        while_held();
        if (held) call.found = number_of(*held);
        not_right += held && held.key() != text;
        break;
    }
    case INSERT_TEXT:
        call.kind = Kind::Put;
        call.is_found = !map.insert(text, object(number));
        break;
    case ASSIGN_TEXT:
        call.is_found = !map.insert_or_assign(text, object(number));
        if (!call.is_found) call.kind = Kind::Put;
        break;
    case UPSERT_TEXT:
        call.found = number_of(map.upsert(text, object(number)));
        if (!call.found) call.kind = Kind::Put;
        break;
    case UPDATE_TEXT: call.found = number_of(map.update(text, [&](const object &value) { return static_cast<void>(number_of(value)), object(number); })); break;
    case REMOVE_TEXT:
        call.kind = Kind::Del;
        call.found = number_of(map.remove(text));
        break;
    case REMOVE_IF: take_odd(map, text, call); break;
    default:
        call.kind = Kind::Del;
        call.is_found = map.retire(text);
    }
    call.is_found = call.is_found || call.found;
    call.end = ++stamps;
    told[at].push_back(call);
}

// The replies of all threads for one string.
static inline std::vector<Call *> replies_for(size_t at, std::vector<Told> &all) {
    std::vector<Call *> calls;
    for (Told &told : all)
        for (Call &call : told[at]) calls.push_back(&call);
    return calls;
}

#endif
