// An index that threads share as one object, for C++17, over citrus.hpp: it has the handles, and each call takes one.
//
//     citrus::index index(100000, 4);                   // for 100,000 pairs and four calls at a time
//     index.insert(5, 50);                              // from any thread
//     std::optional<uint64_t> value = index.get(5);
//     for (const auto &[key, value] : index.range(1, 9)) std::cout << key;
//     auto mine = index.lend();                         // a handle for a few calls
//
// Keys and values are 64-bit numbers where nothing is said. `citrus::index<K, V>` has those of types of yours, and what it lends is a
// `citrus::keyed_handle<K, V>`:
//
//     citrus::index<std::chrono::sys_seconds, double> degrees(100000, 4);
//     degrees.insert(now, 21.5);
//
// Where its type is named it is `citrus::index<>`.
//
// A thread is lent the handle that it had last, where nobody has it: so with as many handles as threads each comes to have its own, and a call
// costs little more than by a handle that is kept. No thread keeps anything: threads may come and go.
//
// What is left to owe beside what citrus.hpp says: the index outlives what it lent, and all calls.
#ifndef CITRUS_INDEX_HPP
#define CITRUS_INDEX_HPP

#include "citrus_keyed.hpp"
// In an older language citrus.hpp says so, and this one says nothing more.
#if __cplusplus >= 201703L
#include <array>
#include <atomic>

namespace citrus {

namespace of_index {

// Where a thread had a handle of an index last. It is a hint alone: it keeps nothing from others, and may lead to an index that is gone.
struct home {
    uint64_t index;
    size_t place;
};

// Of so many indexes a thread knows its home; of two whose numbers are alike but for a multiple of it, that of the later one.
inline constexpr size_t homes = 16;

inline home &home_here(uint64_t index) noexcept {
    static thread_local std::array<home, homes> known{};
    return known[index % homes];
}

// No two indexes have the same number, and none has 0.
inline uint64_t next_number() noexcept {
    static std::atomic<uint64_t> made{0};
    return made.fetch_add(1, std::memory_order_relaxed) + 1;
}

// Nor have two threads.
inline uint64_t thread_number() noexcept {
    static std::atomic<uint64_t> made{0};
    static thread_local uint64_t number = 0;
    if (!number) number = made.fetch_add(1, std::memory_order_relaxed) + 1;
    return number;
}

} // namespace of_index

template <class K = uint64_t, class V = uint64_t> class index {
public:
    // What it lends.
    using handle_type = std::conditional_t<std::is_same_v<K, uint64_t> && std::is_same_v<V, uint64_t>, handle, keyed_handle<K, V>>;

private:
    using words = of_keys::words<K, V>;
    using passed_key = of_keys::passed<K>;

    // A handle, and whether somebody has it. In lines of its own.
    struct alignas(128) place {
        std::atomic<bool> is_out{false};
        handle_type its;

        bool take() noexcept { return !is_out.load(std::memory_order_relaxed) && !is_out.exchange(true, std::memory_order_acquire); }
        void put_back() noexcept { is_out.store(false, std::memory_order_release); }
    };

    // Lists by a handle that is lent for the page.
    struct by_lent {
        index *its;

        page list(uint64_t low, uint64_t high, size_t room) const { return by_words(*its->lend()).list(low, high, room); }
        page list_down(uint64_t low, uint64_t high, size_t room) const { return by_words(*its->lend()).list_down(low, high, room); }
    };

public:
    // What `range` gives: a `pages_of_range`, or a `keyed_range` of types of yours.
    using range_type = std::conditional_t<std::is_same_v<handle_type, handle>, pages_of_range<by_lent>, keyed_range<K, V, by_lent>>;

    // A handle for a call or a few. It goes back when this ends: what `hold` or `range` of it gave ends before.
    class lent {
    public:
        lent(lent &&other) noexcept : at_(std::exchange(other.at_, nullptr)) {}
        lent(const lent &) = delete;
        lent &operator=(const lent &) = delete;
        lent &operator=(lent &&) = delete;

        ~lent() {
            if (at_) at_->put_back();
        }

        handle_type &operator*() const noexcept { return at_->its; }
        handle_type *operator->() const noexcept { return &at_->its; }

    private:
        friend class index;
        explicit lent(place &at) noexcept : at_(&at) {}

        place *at_;
    };

    // A new index, in which so many pairs always fit, with handles for so many calls at a time. Throws bad_argument or no_memory.
    index(uint32_t pairs, uint32_t handles, waiter how = waiter::eer) : index(options{pairs, handles, how}) {}

    // The same by options.
    explicit index(const options &asked) : index(handle_type(asked), asked.handles) {}

    index(const index &) = delete;
    index &operator=(const index &) = delete;

    // Lends a handle. Throws no_handle where all are out at this moment, in other threads' calls too.
    [[nodiscard]] lent lend() {
        of_index::home &mine = of_index::home_here(number_);
        const size_t first = mine.index == number_ ? mine.place : of_index::thread_number() % places_.size();
        for (size_t i = 0; i < places_.size(); i++) {
            const size_t at = (first + i) % places_.size();
            if (!places_[at].take()) continue;
            mine = {number_, at};
            return lent(places_[at]);
        }
        throw error(fault::no_handle);
    }

    // The calls below are those of `handle`, by a handle that is lent: they throw no_handle too.
    std::optional<V> get(passed_key key) { return lend()->get(key); }
    bool contains(passed_key key) { return lend()->contains(key); }
    bool insert(passed_key key, V value) { return lend()->insert(key, value); }
    std::optional<V> replace(passed_key key, V value) { return lend()->replace(key, value); }
    compared compare_exchange(passed_key key, V &expected, V desired) { return lend()->compare_exchange(key, expected, desired); }
    template <class Change> std::optional<V> update(passed_key key, Change change) { return lend()->update(key, std::move(change)); }
    std::optional<V> upsert(passed_key key, V value) { return lend()->upsert(key, value); }
    std::optional<V> remove(passed_key key) { return lend()->remove(key); }
    compared take(passed_key key, V &expected) { return lend()->take(key, expected); }
    template <class Goes> std::optional<V> remove_if(passed_key key, Goes goes) { return lend()->remove_if(key, std::move(goes)); }
    auto list(passed_key low, passed_key high, size_t room = handle::page_room) { return lend()->list(low, high, room); }
    auto list_down(passed_key low, passed_key high, size_t room = handle::page_room) { return lend()->list_down(low, high, room); }
    auto first() { return lend()->first(); }
    auto first_from(passed_key low) { return lend()->first_from(low); }
    auto last() { return lend()->last(); }
    auto last_to(passed_key high) { return lend()->last_to(high); }
    auto pop_first() { return lend()->pop_first(); }
    auto pop_first_from(passed_key low) { return lend()->pop_first_from(low); }
    auto pop_last() { return lend()->pop_last(); }
    auto pop_last_to(passed_key high) { return lend()->pop_last_to(high); }
    bool empty() { return lend()->empty(); }
    uint64_t size() { return lend()->size(); }
    uint64_t size(passed_key low) { return lend()->size(low); }
    uint64_t size(passed_key low, passed_key high) { return lend()->size(low, high); }

    // The pairs of the range, up by `begin` and down by `rbegin`. A handle is lent for each page, and none is out between: so what is done
    // with a pair may call by the index.
    range_type range() { return range_of(0, UINT64_MAX, handle::page_room); }
    range_type range(passed_key low) { return range_of(words::of_key(low), UINT64_MAX, handle::page_room); }
    range_type range(passed_key low, passed_key high, size_t room = handle::page_room) {
        return range_of(words::of_key(low), words::of_key(high), room);
    }

private:
    std::vector<place> places_;
    const uint64_t number_;

    index(handle_type &&first, uint32_t handles) : places_(handles), number_(of_index::next_number()) {
        for (size_t i = 1; i < places_.size(); i++) places_[i].its = first.share();
        places_[0].its = std::move(first);
    }

    static handle &by_words(handle_type &its) noexcept { return its; }

    range_type range_of(uint64_t low, uint64_t high, size_t room) { return range_type(pages_of_range<by_lent>({this}, low, high, room)); }
};

// Where nothing is said of keys and values they are numbers.
index(uint32_t, uint32_t, waiter = waiter::eer) -> index<>;
index(const options &) -> index<>;

} // namespace citrus

#endif
#endif
