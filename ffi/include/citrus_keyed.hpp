// Handles whose keys and values are of types of yours, for C++17: those of citrus.hpp by other words. Keys are those of citrus_key.hpp, and
// values what can be copied as bytes and has 8 of them at most, such as numbers and pointers.
//
//     citrus::keyed_handle<int64_t, double> mine(100000, 2);
//     mine.insert(-5, 21.5);
//     for (const auto &[key, value] : mine.range(-10, 10)) std::cout << key;
//
// Each call is the one of `handle` with its name: what it does, costs and throws. A key is made a word once for each call. A range goes from its
// low key to its high one, both among it, and where one isn't said it has no end there. `citrus::index<K, V>` (citrus_index.hpp) lends such
// handles, and `citrus::map<K, T>` (citrus_map.hpp) has objects as values.
#ifndef CITRUS_KEYED_HPP
#define CITRUS_KEYED_HPP

#include "citrus_key.hpp"
// In an older language citrus.hpp says so, and this one says nothing more.
#if __cplusplus >= 201703L

namespace citrus {

// A pair of a typed index.
template <class K, class V> struct keyed_pair {
    K key;
    V value;
};

// The pairs of a list, and the key after them where there were more than room. All of them are of one moment.
template <class K, class V> struct keyed_page {
    std::vector<keyed_pair<K, V>> pairs;
    std::optional<K> next;

    auto begin() const noexcept { return pairs.begin(); }
    auto end() const noexcept { return pairs.end(); }
    size_t size() const noexcept { return pairs.size(); }
    bool empty() const noexcept { return pairs.empty(); }
};

// What a tidy came to, as `tidied`.
template <class K> struct keyed_tidied {
    uint32_t made;
    std::optional<K> next;
};

namespace of_keys {

// Refuses a type of values that have no word, with a sentence.
template <class V> constexpr bool needs_value() noexcept {
    static_assert(std::is_trivially_copyable_v<V> && sizeof(V) <= sizeof(uint64_t),
                  "a value can be copied as bytes, and has 8 of them at most; citrus::map takes others");
    return true;
}

// What keys and values are for the library.
template <class K, class V> struct words {
    static uint64_t of_key(const K &key) noexcept { return key_traits<K>::encode(key); }
    static K key_of(uint64_t word) noexcept { return key_traits<K>::decode(word); }

    static std::optional<K> key_of(const std::optional<uint64_t> &word) noexcept {
        if (!word) return std::nullopt;
        return key_of(*word);
    }

    static uint64_t of_value(const V &value) noexcept {
        uint64_t word = 0;
        std::memcpy(&word, &value, sizeof value);
        return word;
    }

    static V value_of(uint64_t word) noexcept {
        std::array<unsigned char, sizeof(V)> bytes;
        std::memcpy(&bytes, &word, sizeof bytes);
        return of_keys::same_bits<V>(bytes);
    }

    static std::optional<V> value_of(const std::optional<uint64_t> &word) noexcept {
        if (!word) return std::nullopt;
        return value_of(*word);
    }

    static keyed_pair<K, V> pair_of(const citrus_pair &pair) noexcept { return {key_of(pair.key), value_of(pair.value)}; }

    static keyed_page<K, V> page_of(const page &found) {
        keyed_page<K, V> told{{}, key_of(found.next)};
        told.pairs.reserve(found.size());
        for (const citrus_pair &one : found) told.pairs.push_back(pair_of(one));
        return told;
    }

    static std::optional<keyed_pair<K, V>> pair_of(const std::optional<citrus_pair> &pair) noexcept {
        if (!pair) return std::nullopt;
        return pair_of(*pair);
    }
};

} // namespace of_keys

// A section, as `section`, with a value of a type of yours.
template <class V> class keyed_section {
public:
    keyed_section() noexcept = default;

    explicit operator bool() const noexcept { return bool(its_); }
    V value() const noexcept { return of_keys::words<uint64_t, V>::value_of(its_.value()); }
    void leave() noexcept { its_.leave(); }

private:
    template <class, class> friend class keyed_handle;
    explicit keyed_section(section &&its) noexcept : its_(std::move(its)) {}

    section its_;
};

// The pairs of a key range, as `pair_range` has them: up from `begin` on, and down from `rbegin` on.
template <class K, class V, class Source = of_ranges::by_handle> class keyed_range {
    using words = of_keys::words<K, V>;
    using range_of_words = pages_of_range<Source>;

    template <class At> class stepper {
    public:
        using iterator_category = std::input_iterator_tag;
        using value_type = keyed_pair<K, V>;
        using difference_type = std::ptrdiff_t;
        using pointer = void;
        using reference = value_type;

        stepper() noexcept = default;

        value_type operator*() const noexcept { return words::pair_of(*at_); }

        stepper &operator++() {
            ++at_;
            return *this;
        }

        void operator++(int) { ++at_; }

        friend bool operator==(const stepper &one, const stepper &other) noexcept { return one.at_ == other.at_; }
        friend bool operator!=(const stepper &one, const stepper &other) noexcept { return one.at_ != other.at_; }

    private:
        friend class keyed_range;
        explicit stepper(At at) noexcept : at_(at) {}

        At at_;
    };

public:
    using iterator = stepper<typename range_of_words::iterator>;
    using reverse_iterator = stepper<typename range_of_words::reverse_iterator>;

    explicit keyed_range(range_of_words &&all) noexcept : all_(std::move(all)) {}

    iterator begin() { return iterator(all_.begin()); }
    iterator end() noexcept { return iterator(all_.end()); }
    reverse_iterator rbegin() { return reverse_iterator(all_.rbegin()); }
    reverse_iterator rend() noexcept { return reverse_iterator(all_.rend()); }

private:
    range_of_words all_;
};

// Lanes, as `lanes`, with keys and values of types of yours.
template <class K, class V> class keyed_lanes {
    using words = of_keys::words<K, V>;

public:
    // Closed lanes, which refuse each call by fault::closed.
    keyed_lanes() noexcept = default;

    void close() noexcept { its_.close(); }
    bool is_open() const noexcept { return its_.is_open(); }

    // The value of each key, where it is present, at the key's index.
    void get_many(const K *keys, size_t count, std::optional<V> *values) { look_up(keys, count, values); }

    std::vector<std::optional<V>> get_many(const std::vector<K> &keys) {
        std::vector<std::optional<V>> values(keys.size());
        look_up(keys.begin(), keys.size(), values.data());
        return values;
    }

#ifdef __cpp_lib_span
    // Throws bad_argument where there is room for fewer values than keys.
    void get_many(std::span<const K> keys, std::span<std::optional<V>> values) {
        if (values.size() < keys.size()) throw error(fault::bad_argument);
        look_up(keys.begin(), keys.size(), values.data());
    }
#endif

private:
    template <class, class> friend class keyed_handle;
    explicit keyed_lanes(lanes &&its) noexcept : its_(std::move(its)) {}

    template <class Keys> void look_up(Keys keys, size_t count, std::optional<V> *values) {
        std::vector<uint64_t> asked(count);
        std::vector<citrus_answer> answers(count);
        for (uint64_t &word : asked) word = words::of_key(*keys++);
        its_.get_many(asked.data(), count, answers.data());
        for (const citrus_answer &answer : answers) *values++ = answer.found ? std::optional<V>(words::value_of(answer.value)) : std::nullopt;
    }

    lanes its_;
};

// A handle, as `handle`, with keys and values of types of yours.
template <class K, class V = uint64_t> class keyed_handle : private handle {
    template <class, class> friend class index;
    static_assert(needs_key<K>() && of_keys::needs_value<V>());
    using words = of_keys::words<K, V>;
    using pair = keyed_pair<K, V>;
    using passed_key = of_keys::passed<K>;

public:
    using handle::close, handle::fair_share, handle::is_open, handle::left, handle::page_room, handle::poll, handle::stats;

    // A closed handle, which refuses each call by fault::closed.
    keyed_handle() noexcept = default;

    // The first handle of a new index.
    keyed_handle(uint32_t pairs, uint32_t handles, waiter how = waiter::eer) : handle(pairs, handles, how) {}
    explicit keyed_handle(const options &asked) : handle(asked) {}

    // A handle by words, of an index whose keys and values are all of these types.
    explicit keyed_handle(handle &&by_words) noexcept : handle(std::move(by_words)) {}

    keyed_handle share(uint32_t handles, uint64_t tickets) { return keyed_handle(handle::share(handles, tickets)); }
    keyed_handle share() { return keyed_handle(handle::share()); }

    std::optional<keyed_handle> reopen() {
        std::optional<handle> again = handle::reopen();
        if (!again) return std::nullopt;
        return keyed_handle(std::move(*again));
    }

    std::optional<V> get(passed_key key) { return words::value_of(handle::get(words::of_key(key))); }
    bool contains(passed_key key) { return handle::contains(words::of_key(key)); }
    bool insert(passed_key key, V value) { return handle::insert(words::of_key(key), words::of_value(value)); }
    std::optional<V> replace(passed_key key, V value) { return words::value_of(handle::replace(words::of_key(key), words::of_value(value))); }
    std::optional<V> upsert(passed_key key, V value) { return words::value_of(handle::upsert(words::of_key(key), words::of_value(value))); }
    std::optional<V> remove(passed_key key) { return words::value_of(handle::remove(words::of_key(key))); }

    // Values are compared byte by byte, as those of an atomic.
    compared compare_exchange(passed_key key, V &expected, V desired) {
        uint64_t word = words::of_value(expected);
        const compared told = handle::compare_exchange(words::of_key(key), word, words::of_value(desired));
        if (told == compared::different) expected = words::value_of(word);
        return told;
    }

    compared take(passed_key key, V &expected) {
        uint64_t word = words::of_value(expected);
        const compared told = handle::take(words::of_key(key), word);
        if (told == compared::different) expected = words::value_of(word);
        return told;
    }

    template <class Goes> std::optional<V> remove_if(passed_key key, Goes goes) {
        const auto goes_out = [&](uint64_t word) { return goes(words::value_of(word)); };
        return words::value_of(handle::remove_if(words::of_key(key), goes_out));
    }

    template <class Change> std::optional<V> update(passed_key key, Change change) {
        const auto changed = [&](uint64_t word) { return words::of_value(change(words::value_of(word))); };
        return words::value_of(handle::update(words::of_key(key), changed));
    }

    keyed_page<K, V> list(passed_key low, passed_key high, size_t room = page_room) {
        return words::page_of(handle::list(words::of_key(low), words::of_key(high), room));
    }

    keyed_page<K, V> list_down(passed_key low, passed_key high, size_t room = page_room) {
        return words::page_of(handle::list_down(words::of_key(low), words::of_key(high), room));
    }

    std::optional<pair> first() { return words::pair_of(handle::first()); }
    std::optional<pair> first_from(passed_key low) { return words::pair_of(handle::first_from(words::of_key(low))); }
    std::optional<pair> last() { return words::pair_of(handle::last()); }
    std::optional<pair> last_to(passed_key high) { return words::pair_of(handle::last_to(words::of_key(high))); }
    std::optional<pair> last(passed_key low, passed_key high) { return words::pair_of(handle::last(words::of_key(low), words::of_key(high))); }

    std::optional<pair> pop_first() { return words::pair_of(handle::pop_first()); }
    std::optional<pair> pop_first_from(passed_key low) { return words::pair_of(handle::pop_first_from(words::of_key(low))); }
    std::optional<pair> pop_last() { return words::pair_of(handle::pop_last()); }
    std::optional<pair> pop_last_to(passed_key high) { return words::pair_of(handle::pop_last_to(words::of_key(high))); }

    using handle::empty;
    uint64_t size() { return handle::size(); }
    uint64_t size(passed_key low) { return handle::size(words::of_key(low)); }
    uint64_t size(passed_key low, passed_key high) { return handle::size(words::of_key(low), words::of_key(high)); }

    template <class Stays> uint64_t retain(passed_key low, passed_key high, Stays stays) {
        const auto stay = [&](uint64_t key, uint64_t value) { return stays(words::key_of(key), words::value_of(value)); };
        return handle::retain(words::of_key(low), words::of_key(high), stay);
    }

    uint64_t clear() { return handle::clear(); }
    uint64_t clear(passed_key low) { return handle::clear(words::of_key(low)); }
    uint64_t clear(passed_key low, passed_key high) { return handle::clear(words::of_key(low), words::of_key(high)); }

    keyed_range<K, V> range() { return keyed_range<K, V>(handle::range()); }
    keyed_range<K, V> range(passed_key low) { return keyed_range<K, V>(handle::range(words::of_key(low))); }
    keyed_range<K, V> range(passed_key low, passed_key high, size_t room = page_room) {
        return keyed_range<K, V>(handle::range(words::of_key(low), words::of_key(high), room));
    }

    keyed_tidied<K> tidy(passed_key low, passed_key high, uint32_t turns = 1000) {
        const tidied came = handle::tidy(words::of_key(low), words::of_key(high), turns);
        return {came.made, words::key_of(came.next)};
    }

    [[nodiscard]] keyed_section<V> hold(passed_key key) { return keyed_section<V>(handle::hold(words::of_key(key))); }
    [[nodiscard]] section enter(passed_key key) { return handle::enter(words::of_key(key)); }

    void wait(passed_key low, passed_key high) { handle::wait(words::of_key(low), words::of_key(high)); }
    uint64_t begin(passed_key low, passed_key high) { return handle::begin(words::of_key(low), words::of_key(high)); }

    [[nodiscard]] keyed_lanes<K, V> open_lanes(uint32_t count = CITRUS_MAX_LANES) { return keyed_lanes<K, V>(handle::open_lanes(count)); }
};

} // namespace citrus

#endif
#endif
