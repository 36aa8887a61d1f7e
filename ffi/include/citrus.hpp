// Citrus for C++17: handles that close themselves, answers as std::optional, refusals as exceptions. Header only, over citrus.h, which says
// what each call does, waits for and costs, and what a caller owes. What is left to owe here: one call at a time with one handle; no call
// from a signal handler, nor from the child of a fork of a program with threads; malloc, realloc and free of one allocator.
//
//     citrus::handle mine(100000, 2);             // for 100,000 pairs and two handles
//     citrus::handle other = mine.share();        // for the second thread
//     mine.insert(5, 50);
//     std::optional<uint64_t> value = mine.get(5);
//
// Where values are objects of yours take citrus_map.hpp, or see `hold`; where keys are strings citrus_string_map.hpp. For many more threads that
// update than processors see citrus_turns.hpp.
#ifndef CITRUS_HPP
#define CITRUS_HPP

#if __cplusplus < 201703L
#error "citrus.hpp is for C++17 or later: compile with -std=c++17"
#else

#include "citrus.h"
#include <cstddef>
#include <iterator>
#include <optional>
#include <stdexcept>
#include <utility>
#include <vector>
#if __cplusplus >= 202002L
#include <span>
#endif

namespace citrus {

enum class waiter : uint32_t { eer = CITRUS_EER, domain = CITRUS_DOMAIN, deer = CITRUS_DEER };

// Why a call was refused, as citrus.h says it, but for no_handle.
enum class fault : int32_t {
    full = CITRUS_FULL,
    moved = CITRUS_MOVED,
    closed = CITRUS_CLOSED,
    bad_argument = CITRUS_BAD_ARGUMENT,
    no_memory = CITRUS_NO_MEMORY,
    spent = CITRUS_SPENT,
    lost = CITRUS_LOST,
    holds = CITRUS_HOLDS,
    no_handle = INT32_MIN // no status: of CITRUS_BAD_ARGUMENT the one cause that a larger number of handles at the open mends
};

inline const char *text_of(fault why) noexcept {
    switch (why) {
    case fault::full: return "citrus: there is no free slot";
    case fault::moved: return "citrus: others put the key in and took it out in each of 1,000 rounds";
    case fault::closed: return "citrus: the handle is closed";
    case fault::bad_argument: return "citrus: an argument is out of its range";
    case fault::no_memory: return "citrus: there is no memory";
    case fault::spent: return "citrus: the handle has too few tickets";
    case fault::holds: return "citrus: the handle is in a section";
    case fault::no_handle: return "citrus: no handle is left: open with more";
    default: return "citrus: the handle is lost, since a call gave up waiting";
    }
}

class error : public std::runtime_error {
public:
    explicit error(fault why) : std::runtime_error(text_of(why)), why_(why) {}

    fault why() const noexcept { return why_; }

private:
    fault why_;
};

// The pairs of a list, and the key after them where there were more than room. All of them are of one moment.
struct page {
    std::vector<citrus_pair> pairs;
    std::optional<uint64_t> next;

    std::vector<citrus_pair>::const_iterator begin() const noexcept { return pairs.begin(); }
    std::vector<citrus_pair>::const_iterator end() const noexcept { return pairs.end(); }
    size_t size() const noexcept { return pairs.size(); }
    bool empty() const noexcept { return pairs.empty(); }
};

// What a compare_exchange or a take came to: the value was the expected one and was replaced or taken out, or it was another, or the key was
// absent.
enum class compared { done, different, absent };

// What a tidy came to: the turns that it made, and the key to go on with where it isn't through.
struct tidied {
    uint32_t made;
    std::optional<uint64_t> next;
};

// What an index is opened for. The salt, by which its tree turns nodes, is drawn where nothing is said; a fixed one is for tests, whose tree is
// to be the same each time. `keep` is how many slots of removed pairs each handle may keep back, as at citrus_open_keeping; where nothing is
// said, or 0, it is the usual number.
struct options {
    uint32_t pairs;
    uint32_t handles;
    waiter how = waiter::eer;
    std::optional<uint64_t> salt = std::nullopt;
    std::optional<uint32_t> keep = std::nullopt;
};

// What a handle can give away.
struct supply {
    uint32_t handles;
    uint64_t tickets;
};

// A section of a handle, with the value that was found in it. It is left when this ends, if not before. The handle stays where it is
// meanwhile, and isn't closed.
class section {
public:
    section() noexcept = default;

    section(section &&other) noexcept : handle_(std::exchange(other.handle_, nullptr)), value_(other.value_) {}

    section &operator=(section &&other) noexcept {
        if (this != &other) {
            leave();
            handle_ = std::exchange(other.handle_, nullptr);
            value_ = other.value_;
        }
        return *this;
    }

    section(const section &) = delete;
    section &operator=(const section &) = delete;

    ~section() { leave(); }

    // Whether the handle is in it still. Not from the start, where a hold found no value.
    explicit operator bool() const noexcept { return handle_ != nullptr; }

    uint64_t value() const noexcept { return value_; }

    void leave() noexcept {
        if (handle_) citrus_release(std::exchange(handle_, nullptr));
    }

private:
    friend class handle;
    section(citrus_handle *handle, uint64_t value) noexcept : handle_(handle), value_(value) {}

    citrus_handle *handle_ = nullptr;
    uint64_t value_ = 0;
};

class handle;
class lanes;

namespace of_ranges {

// Lists by a handle.
struct by_handle {
    handle *its;

    page list(uint64_t low, uint64_t high, size_t room) const;
    page list_down(uint64_t low, uint64_t high, size_t room) const;
};

} // namespace of_ranges

template <class Source> class pages_of_range;
using pair_range = pages_of_range<of_ranges::by_handle>;

// What became of a wait that was begun: each of its readers has left, some are left, or another wait of the handle took its place.
enum class progress { over, not_yet, displaced };

// A handle of an index, for one thread at a time. The index lives as long as one of its handles. Each call writes the handle, so each has
// lines of memory of its own: threads whose handles share one would be half as fast.
class alignas(128) handle {
public:
    // So many pairs a page has room for, where nothing else is said.
    static constexpr size_t page_room = 1000;

    // A closed handle, which refuses each call by fault::closed.
    handle() noexcept = default;

    // The first handle of a new index, in which so many pairs always fit. Throws bad_argument or no_memory.
    handle(uint32_t pairs, uint32_t handles, waiter how = waiter::eer) : handle(options{pairs, handles, how}) {}

    // The same by options.
    explicit handle(const options &asked) {
        citrus_options all = citrus_options_for(asked.pairs, asked.handles, static_cast<uint32_t>(asked.how));
        if (asked.salt) all.salt = *asked.salt;
        refuse_unless_done(asked.keep ? citrus_open_keeping(&at_, &all, *asked.keep) : citrus_open_with(&at_, &all));
    }

    handle(handle &&other) noexcept : at_(std::exchange(other.at_, closed)) {}

    handle &operator=(handle &&other) noexcept {
        if (this != &other) {
            close();
            at_ = std::exchange(other.at_, closed);
        }
        return *this;
    }

    handle(const handle &) = delete;
    handle &operator=(const handle &) = delete;

    ~handle() { citrus_close(&at_); }

    void close() noexcept { citrus_close(&at_); }

    bool is_open() const noexcept { return at_.at != nullptr; }

    // A second handle of the index, with so many of the handles left to this one (itself among them) and so many of its tickets. Throws
    // no_handle where none is left, bad_argument where there are fewer, closed, no_memory or lost.
    handle share(uint32_t handles, uint64_t tickets) {
        handle other;
        const int32_t status = citrus_share(&at_, handles, tickets, &other.at_);
        if (status == CITRUS_BAD_ARGUMENT && handles && !left().handles) throw error(fault::no_handle);
        refuse_unless_done(status);
        return other;
    }

    // The same with one handle, and its fair share of the tickets.
    handle share() { return share(1, fair_share()); }

    // The even part of the tickets for so many of the handles left to this one, where it keeps one itself. It is 0 where it is closed.
    uint64_t fair_share(uint32_t handles = 1) noexcept { return citrus_fair_share(&at_, handles); }

    // A handle of the index with all that a handle had which was closed, if one left it. Throws closed, no_memory or lost.
    std::optional<handle> reopen() {
        handle other;
        if (!is_done(citrus_reopen(&at_, &other.at_))) return std::nullopt;
        return other;
    }

    // How many more handles can be shared, and how many tickets are there. Throws closed.
    supply left() {
        supply has{};
        refuse_unless_done(citrus_left(&at_, &has.handles, &has.tickets));
        return has;
    }

    // What the handle knows of itself and of its index: the numbers of citrus.h. Throws closed.
    citrus_numbers stats() {
        citrus_numbers told{};
        told.size = sizeof told;
        refuse_unless_done(citrus_stats(&at_, &told));
        return told;
    }

    // The calls below throw closed, holds, spent or lost. `first` and `last` never throw spent, and what lists pages throws no_memory in
    // its place.

    // The key's value, where it is present.
    std::optional<uint64_t> get(uint64_t key) {
        uint64_t value = 0;
        return told(citrus_get(&at_, key, &value), value);
    }

    // Whether the key is present.
    bool contains(uint64_t key) { return get(key).has_value(); }

    // Whether the pair was added: not where the key is there already. Throws full.
    bool insert(uint64_t key, uint64_t value) { return is_done(citrus_insert(&at_, key, value)); }

    // Gives the key another value, where it is present; the value before.
    std::optional<uint64_t> replace(uint64_t key, uint64_t value) {
        uint64_t old = 0;
        return told(citrus_replace(&at_, key, value, &old), old);
    }

    // Gives the key the value `desired`, where its value is `expected`. Where it is another, that is in `expected` then. As that of an
    // atomic, but that the key may be absent.
    compared compare_exchange(uint64_t key, uint64_t &expected, uint64_t desired) {
        uint64_t found = 0;
        return told_of(citrus_compare(&at_, key, expected, desired, &found), expected, found);
    }

    // Gives the key what `change` makes of its value, where it is present; the value before. It is one update; where another thread updates
    // the key between, `change` is called once more, with the value then.
    template <class Change> std::optional<uint64_t> update(uint64_t key, Change change) {
        const std::optional<uint64_t> found = get(key);
        if (!found) return std::nullopt;
        uint64_t value = *found;
        for (;;) {
            const uint64_t before = value, desired = change(before);
            const compared told = compare_exchange(key, value, desired);
            if (told == compared::done) return before;
            if (told == compared::absent) return std::nullopt;
        }
    }

    // Gives the key this value; the value before, or none where the pair was added. Throws full or moved.
    std::optional<uint64_t> upsert(uint64_t key, uint64_t value) {
        uint64_t old = 0;
        const int32_t status = citrus_upsert(&at_, key, value, &old);
        if (status == CITRUS_NEW) return std::nullopt;
        refuse_unless_done(status);
        return old;
    }

    // Takes the pair out, where the key is present; its value.
    std::optional<uint64_t> remove(uint64_t key) {
        uint64_t old = 0;
        return told(citrus_remove(&at_, key, &old), old);
    }

    // Takes the pair out, where its value is `expected`. Where it is another, that is in `expected` then.
    compared take(uint64_t key, uint64_t &expected) {
        uint64_t found = 0;
        return told_of(citrus_take(&at_, key, expected, &found), expected, found);
    }

    // Takes the pair out, where the key is present and `goes(value)` says yes; its value. Where another thread gives the key another value
    // between, `goes` is asked once more, with that.
    template <class Goes> std::optional<uint64_t> remove_if(uint64_t key, Goes goes) {
        const std::optional<uint64_t> found = get(key);
        if (!found) return std::nullopt;
        return take_while(key, *found, goes);
    }

    // The pairs with keys from low to high as they were at one moment, keys ascending, as many as there is room for, and the key after them
    // where there are more. Throws bad_argument (low above high; no room, or more than CITRUS_MAX_ROOM).
    page list(uint64_t low, uint64_t high, size_t room = page_room) { return listed(citrus_list, low, high, room); }

    // The same from `high` down: keys descending, and the key after them is the greatest that isn't among them.
    page list_down(uint64_t low, uint64_t high, size_t room = page_room) { return listed(citrus_list_down, low, high, room); }

    // The pair with the least key, if there is one; and with the least key at or above `low`.
    std::optional<citrus_pair> first() { return first_from(0); }
    std::optional<citrus_pair> first_from(uint64_t low) {
        citrus_pair found{};
        if (!is_done(citrus_first(&at_, low, &found.key, &found.value))) return std::nullopt;
        return found;
    }

    // The pair with the greatest key, if there is one; with the greatest key at or below `high`; and among the keys from low to high.
    std::optional<citrus_pair> last() { return last_to(UINT64_MAX); }
    std::optional<citrus_pair> last_to(uint64_t high) { return last(0, high); }
    std::optional<citrus_pair> last(uint64_t low, uint64_t high) {
        citrus_pair found{};
        if (!is_done(citrus_last(&at_, low, high, &found.key, &found.value))) return std::nullopt;
        return found;
    }

    // Takes out the pair with the least key, or with the least one at or above `low`, if there is one, with the value that it had by then. It
    // was the least one at a moment of the call; others may have put in a lesser one before it was taken out.
    std::optional<citrus_pair> pop_first() { return pop_first_from(0); }
    std::optional<citrus_pair> pop_first_from(uint64_t low) {
        return pop([this, low] { return first_from(low); });
    }

    // The same with the greatest key, or the greatest one at or below `high`.
    std::optional<citrus_pair> pop_last() { return pop_last_to(UINT64_MAX); }
    std::optional<citrus_pair> pop_last_to(uint64_t high) {
        return pop([this, high] { return last_to(high); });
    }

    // Whether there is no pair.
    bool empty() { return !first(); }

    // The calls below read page by page, with room for `page_room` pairs, in order of keys. Each page is of one moment, later than that of
    // the page before. So what others put in or take out behind the page isn't seen, and before it is. They throw bad_argument where low is
    // above high.

    // How many pairs there are: at one moment where there are no more than a page has room for, and else a sum over pages.
    uint64_t size(uint64_t low = 0, uint64_t high = UINT64_MAX) {
        uint64_t count = 0;
        each_page(low, high, [&](const page &found) { count += found.size(); });
        return count;
    }

    // Takes out each pair of the range that `stays(key, value)` says no to, each by an update of its own; how many. It asks with the value
    // that the page tells: where another thread gives the key another one after that, once more with that one.
    template <class Stays> uint64_t retain(uint64_t low, uint64_t high, Stays stays) {
        uint64_t gone = 0;
        each_page(low, high, [&](const page &found) {
            for (const citrus_pair &pair : found)
                if (take_while(pair.key, pair.value, [&](uint64_t value) { return !stays(pair.key, value); })) gone++;
        });
        return gone;
    }

    // Takes out all pairs of the range, each by an update of its own; how many.
    uint64_t clear(uint64_t low = 0, uint64_t high = UINT64_MAX) {
        return retain(low, high, [](uint64_t, uint64_t) { return false; });
    }

    // The pairs of the range, to be gone through up by `begin` and down by `rbegin`. The handle stays where it is meanwhile; it may make other
    // calls. Its iterators throw what `list` throws.
    pair_range range(uint64_t low = 0, uint64_t high = UINT64_MAX, size_t room = page_room);

    // Makes the tree shallow on the ways to the first keys from low to high, by so many turns at most, and changes no pair. Throws
    // bad_argument (low above high; no turns), full or no_memory.
    tidied tidy(uint64_t low, uint64_t high, uint32_t turns = 1000) {
        tidied came{};
        uint64_t next = 0;
        const int32_t status = citrus_tidy(&at_, low, high, turns, &came.made, &next);
        if (status == CITRUS_MORE) came.next = next;
        else refuse_unless_done(status);
        return came;
    }

    // The key's value in a section, in which what it leads to stays; an empty section where the key is absent. Beside a section of a thread's
    // handle that thread makes no update and no wait by another handle of the index. Never throws spent.
    [[nodiscard]] section hold(uint64_t key) {
        uint64_t value = 0;
        if (!is_done(citrus_hold(&at_, key, &value))) return {};
        return {&at_, value};
    }

    // A section with the key, without a search. Never throws spent.
    [[nodiscard]] section enter(uint64_t key) {
        refuse_unless_done(citrus_enter(&at_, key));
        return {&at_, 0};
    }

    // The same around updates of another index, which wait for no section of this one: CITRUS_DEBUG lets its thread make them.
    [[nodiscard]] section enter_around(uint64_t key) {
        section within = enter(key);
#ifdef CITRUS_DEBUG
        citrus_debug_goes_around(&at_);
#endif
        return within;
    }

    // Waits for each section with a key from low to high that was entered before. Throws bad_argument where low is above high.
    void wait(uint64_t low, uint64_t high) { refuse_unless_done(citrus_wait(&at_, low, high)); }

    // So many lanes of the index (1 to CITRUS_MAX_LANES), each with one of the handles left to this one, to look up many keys at once. Throws
    // bad_argument where there are fewer, or no_memory. Never throws spent.
    [[nodiscard]] lanes open_lanes(uint32_t count = CITRUS_MAX_LANES);

    // Begins such a wait: the cookie to ask by. Throws bad_argument.
    uint64_t begin(uint64_t low, uint64_t high) {
        uint64_t cookie = 0;
        refuse_unless_done(citrus_begin(&at_, low, high, &cookie));
        return cookie;
    }

    // What became of it; `over` is told once. Never throws spent.
    progress poll(uint64_t cookie) {
        const int32_t status = citrus_poll(&at_, cookie);
        if (status == CITRUS_MOVED) return progress::displaced;
        return is_done(status) ? progress::over : progress::not_yet;
    }

private:
    static constexpr citrus_handle closed = CITRUS_CLOSED_HANDLE;

    citrus_handle at_ = closed;

    static void refuse_unless_done(int32_t status) {
        if (status != CITRUS_DONE) throw error(static_cast<fault>(status));
    }

    static bool is_done(int32_t status) {
        if (status != CITRUS_UNCHANGED) refuse_unless_done(status);
        return status == CITRUS_DONE;
    }

    template <class List> page listed(List pairs_of, uint64_t low, uint64_t high, size_t room) {
        if (room == 0 || room > CITRUS_MAX_ROOM) throw error(fault::bad_argument);
        page found{std::vector<citrus_pair>(room), std::nullopt};
        size_t count = 0;
        uint64_t next = 0;
        const int32_t status = pairs_of(&at_, low, high, found.pairs.data(), room, &count, &next);
        found.pairs.resize(count);
        if (status == CITRUS_MORE) found.next = next;
        else refuse_unless_done(status);
        return found;
    }

    // What a compare or a take came to. The value that it found, if it is another one, is written to `expected`; it is read after the call that
    // wrote it, so it comes by reference.
    static compared told_of(int32_t status, uint64_t &expected, const uint64_t &found) {
        if (status != CITRUS_DIFFERENT) return is_done(status) ? compared::done : compared::absent;
        expected = found;
        return compared::different;
    }

    // Takes the pair out while `goes` says yes to its value; the value taken out.
    template <class Goes> std::optional<uint64_t> take_while(uint64_t key, uint64_t value, Goes goes) {
        while (goes(value)) {
            const compared told = take(key, value);
            if (told == compared::done) return value;
            if (told == compared::absent) break;
        }
        return std::nullopt;
    }

    // Another thread may take the pair that was found first.
    template <class Find> std::optional<citrus_pair> pop(Find find) {
        while (const std::optional<citrus_pair> found = find())
            if (const std::optional<uint64_t> value = remove(found->key)) return citrus_pair{found->key, *value};
        return std::nullopt;
    }

    template <class Visit> void each_page(uint64_t low, uint64_t high, Visit visit) {
        std::optional<uint64_t> from = low;
        while (from) {
            const page found = list(*from, high);
            visit(found);
            from = found.next;
        }
    }

    // The value is read after the call that wrote it, so it comes by reference.
    static std::optional<uint64_t> told(int32_t status, const uint64_t &value) {
        if (is_done(status)) return value;
        return std::nullopt;
    }
};

namespace of_ranges {

// A pass over the pairs of a key range, up or down: page by page, each of one moment, later than that of the page before. The next page is
// listed when the one before is through.
template <bool is_down, class Source> class pass {
public:
    pass(Source from, uint64_t low, uint64_t high, size_t room) noexcept : from_(from), low_(low), high_(high), room_(room) {}

    // Lists the first page. Whether there is a pair.
    bool begin() {
        next_ = is_down ? high_ : low_;
        return turn();
    }

    const citrus_pair &now() const noexcept { return page_.pairs[at_]; }

    // Whether there is another pair.
    bool step() { return ++at_ < page_.size() || turn(); }

private:
    Source from_;
    uint64_t low_, high_;
    size_t room_, at_ = 0;
    page page_;
    std::optional<uint64_t> next_;

    // Lists the next page that isn't empty, if there is one.
    bool turn() {
        while (next_) {
            page_ = is_down ? from_.list_down(low_, *next_, room_) : from_.list(*next_, high_, room_);
            next_ = page_.next;
            at_ = 0;
            if (!page_.empty()) return true;
        }
        return false;
    }
};

} // namespace of_ranges

// The pairs of a key range, as `handle::range` and `index::range` give them: keys ascend from `begin` on, and descend from `rbegin` on. Page by
// page, each of one moment, later than that of the page before: so none comes twice or out of order, what is there all the time comes, and the
// whole is of no one moment. One pass is made at a time in each direction: another `begin`, or `rbegin`, takes the place of the one before.
template <class Source> class pages_of_range {
    template <bool is_down> using pass = of_ranges::pass<is_down, Source>;

    template <bool is_down> class stepper {
    public:
        using iterator_category = std::input_iterator_tag;
        using value_type = citrus_pair;
        using difference_type = std::ptrdiff_t;
        using pointer = const citrus_pair *;
        using reference = const citrus_pair &;

        // The pair before a step, for `*it++`.
        class stepped {
        public:
            const citrus_pair &operator*() const noexcept { return pair_; }

        private:
            friend class stepper;
            explicit stepped(citrus_pair pair) noexcept : pair_(pair) {}

            citrus_pair pair_;
        };

        stepper() noexcept = default;

        reference operator*() const noexcept { return of_->now(); }
        pointer operator->() const noexcept { return &**this; }

        stepper &operator++() {
            if (!of_->step()) of_ = nullptr;
            return *this;
        }

        stepped operator++(int) {
            const stepped before(**this);
            ++*this;
            return before;
        }

        // Whether both are at the end, or both aren't.
        friend bool operator==(const stepper &one, const stepper &other) noexcept { return one.of_ == other.of_; }
        friend bool operator!=(const stepper &one, const stepper &other) noexcept { return one.of_ != other.of_; }

    private:
        friend class pages_of_range;
        explicit stepper(pass<is_down> *of) noexcept : of_(of) {}

        pass<is_down> *of_ = nullptr;
    };

public:
    using iterator = stepper<false>;
    using reverse_iterator = stepper<true>;

    // The keys from low to high, by pages with room for so many pairs.
    pages_of_range(Source from, uint64_t low, uint64_t high, size_t room) noexcept : up_(from, low, high, room), down_(from, low, high, room) {}

    // Lists the first page.
    iterator begin() { return iterator(up_.begin() ? &up_ : nullptr); }
    iterator end() noexcept { return iterator(); }

    // The same from the greatest key down.
    reverse_iterator rbegin() { return reverse_iterator(down_.begin() ? &down_ : nullptr); }
    reverse_iterator rend() noexcept { return reverse_iterator(); }

private:
    pass<false> up_;
    pass<true> down_;
};

// Up to 8 places of an index by which one thread looks up many keys beside each other, for one thread at a time: see citrus.h. The index lives
// as long as one of its handles or lanes.
class alignas(128) lanes {
public:
    // Closed lanes, which refuse each call by fault::closed.
    lanes() noexcept = default;

    lanes(lanes &&other) noexcept : at_(std::exchange(other.at_, closed)) {}

    lanes &operator=(lanes &&other) noexcept {
        if (this != &other) {
            close();
            at_ = std::exchange(other.at_, closed);
        }
        return *this;
    }

    lanes(const lanes &) = delete;
    lanes &operator=(const lanes &) = delete;

    ~lanes() { citrus_close_lanes(&at_); }

    void close() noexcept { citrus_close_lanes(&at_); }

    bool is_open() const noexcept { return at_.at != nullptr; }

    // Looks up so many keys, and writes the answer of each at its index. Each was so at a moment of the call. Throws closed or no_memory.
    void get_many(const uint64_t *keys, size_t count, citrus_answer *answers) {
        if (!is_open()) throw error(fault::closed);
        if (count == 0) return; // then there may be no memory of keys
        const int32_t status = citrus_get_many(&at_, keys, count, answers, count);
        if (status != CITRUS_DONE) throw error(static_cast<fault>(status));
    }

    // The same of a list of keys: the value of each, where it is present.
    std::vector<std::optional<uint64_t>> get_many(const std::vector<uint64_t> &keys) {
        std::vector<citrus_answer> answers(keys.size());
        get_many(keys.data(), keys.size(), answers.data());
        std::vector<std::optional<uint64_t>> values(keys.size());
        for (size_t i = 0; i < keys.size(); i++)
            if (answers[i].found) values[i] = answers[i].value;
        return values;
    }

#ifdef __cpp_lib_span
    // The same of spans. Throws bad_argument where there is room for fewer answers than keys.
    void get_many(std::span<const uint64_t> keys, std::span<citrus_answer> answers) {
        if (answers.size() < keys.size()) throw error(fault::bad_argument);
        get_many(keys.data(), keys.size(), answers.data());
    }
#endif

private:
    friend class handle;
    static constexpr citrus_lanes closed = CITRUS_CLOSED_LANES;

    citrus_lanes at_ = closed;
};

inline lanes handle::open_lanes(uint32_t count) {
    lanes opened;
    refuse_unless_done(citrus_open_lanes(&at_, &opened.at_, count));
    return opened;
}

inline pair_range handle::range(uint64_t low, uint64_t high, size_t room) { return pair_range({this}, low, high, room); }

inline page of_ranges::by_handle::list(uint64_t low, uint64_t high, size_t room) const { return its->list(low, high, room); }
inline page of_ranges::by_handle::list_down(uint64_t low, uint64_t high, size_t room) const { return its->list_down(low, high, room); }

} // namespace citrus

#endif
#endif
