// Keys of many types by numbers: for each type 64 keys, which ascend with their numbers; and a handle whose keys are such, called by their
// numbers, so that what judges a handle of numbers judges it too.
#ifndef NUMBERED_HPP
#define NUMBERED_HPP

#include <citrus_keyed.hpp>
#include <cmath>

constexpr uint64_t NUMBERS = 64;

enum class colour : int8_t {};

// A type of a user's own.
struct user_id {
    uint32_t number;
};

inline bool operator==(const user_id &one, const user_id &other) { return one.number == other.number; }

template <> struct citrus::key_traits<user_id> {
    static constexpr unsigned bits = 32;
    static constexpr uint64_t encode(const user_id &key) noexcept { return key.number; }
    static constexpr user_id decode(uint64_t word) noexcept { return {uint32_t(word)}; }
};

using moment = std::chrono::time_point<std::chrono::system_clock, std::chrono::milliseconds>;

// The key of a number.
template <class K> K key_at(uint64_t number);

template <> inline uint64_t key_at(uint64_t number) { return number; }
template <> inline int64_t key_at(uint64_t number) { return (int64_t(number) - 32) * (int64_t{1} << 58); }
template <> inline colour key_at(uint64_t number) { return colour(int8_t(4 * number - 128)); }
template <> inline user_id key_at(uint64_t number) { return {uint32_t(number << 26)}; }
template <> inline moment key_at(uint64_t number) { return moment(std::chrono::hours(int64_t(number) - 32)); }
template <> inline std::pair<int32_t, float> key_at(uint64_t number) { return {int32_t(number / 8) - 4, (float(number % 8) - 4) * 1.5f}; }

template <> inline std::array<unsigned char, 3> key_at(uint64_t number) {
    return {uint8_t(number / 16), uint8_t(number / 4 % 4 * 85), uint8_t(number % 4)};
}

template <> inline std::tuple<bool, char, int16_t> key_at(uint64_t number) {
    return {number / 32, "09AZaz~\x7f"[number / 4 % 8], int16_t(int(number % 4) * 20000 - 30000)};
}

// Below the first and above the last number are the infinities, and what is no number above all.
template <> inline double key_at(uint64_t number) {
    const double ends = std::numeric_limits<double>::infinity(), size = double(number) - 32;
    if (number == 0) return -ends;
    if (number == NUMBERS - 2) return ends;
    if (number == NUMBERS - 1) return std::numeric_limits<double>::quiet_NaN();
    return size * std::fabs(size) * 1e300;
}

// Six keys alone, and 0 with a sign each second time.
template <> inline float key_at(uint64_t number) {
    static thread_local bool has_sign = false;
    const float end = std::numeric_limits<float>::infinity();
    if (number == 2) return (has_sign = !has_sign) ? -0.0f : 0.0f;
    return number == 0 ? -end : number == 1 ? -1.5f : number == 3 ? 1.5f : number == 4 ? end : std::numeric_limits<float>::quiet_NaN();
}

template <class K> bool is_same(const K &one, const K &other) {
    if constexpr (std::is_floating_point_v<K>) return one == other || (std::isnan(one) && std::isnan(other));
    else return one == other;
}

// The number of a key; NUMBERS where it has none.
template <class K> uint64_t number_of(const K &key) {
    for (uint64_t number = 0; number < NUMBERS; number++)
        if (is_same(key, key_at<K>(number))) return number;
    return NUMBERS;
}

// A handle with such keys, called by their numbers.
template <class K> class numbered {
    using pair = citrus::keyed_pair<K, uint64_t>;

public:
    numbered(uint32_t pairs, uint32_t handles, citrus::waiter how) : its_(pairs, handles, how) {}

    numbered share() { return numbered(its_.share()); }

    citrus::keyed_handle<K> &by_keys() { return its_; }

    std::optional<uint64_t> get(uint64_t number) { return its_.get(key_at<K>(number)); }
    auto hold(uint64_t number) { return its_.hold(key_at<K>(number)); }
    bool insert(uint64_t number, uint64_t value) { return its_.insert(key_at<K>(number), value); }
    std::optional<uint64_t> replace(uint64_t number, uint64_t value) { return its_.replace(key_at<K>(number), value); }
    std::optional<uint64_t> upsert(uint64_t number, uint64_t value) { return its_.upsert(key_at<K>(number), value); }
    std::optional<uint64_t> remove(uint64_t number) { return its_.remove(key_at<K>(number)); }

    citrus::compared compare_exchange(uint64_t number, uint64_t &expected, uint64_t desired) {
        return its_.compare_exchange(key_at<K>(number), expected, desired);
    }

    citrus::compared take(uint64_t number, uint64_t &expected) { return its_.take(key_at<K>(number), expected); }

    citrus::page list(uint64_t low, uint64_t high, size_t room = citrus::handle::page_room) {
        const auto found = its_.list(key_at<K>(low), key_at<K>(high), room);
        citrus::page told;
        for (const pair &one : found) told.pairs.push_back({number_of(one.key), one.value});
        if (found.next) told.next = number_of(*found.next);
        return told;
    }

    std::optional<citrus_pair> first_from(uint64_t low) { return by_number(its_.first_from(key_at<K>(low))); }
    std::optional<citrus_pair> last(uint64_t low, uint64_t high) { return by_number(its_.last(key_at<K>(low), key_at<K>(high))); }

    citrus::tidied tidy(uint64_t low, uint64_t high, uint32_t turns) {
        const auto came = its_.tidy(key_at<K>(low), key_at<K>(high), turns);
        return {came.made, came.next ? std::optional<uint64_t>(number_of(*came.next)) : std::nullopt};
    }

private:
    citrus::keyed_handle<K> its_;

    explicit numbered(citrus::keyed_handle<K> &&its) : its_(std::move(its)) {}

    static std::optional<citrus_pair> by_number(const std::optional<pair> &found) {
        if (!found) return std::nullopt;
        return citrus_pair{number_of(found->key), found->value};
    }
};

#endif
