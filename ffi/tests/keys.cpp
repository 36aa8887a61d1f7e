// Which types are keys, and their words: those ascend with the keys and tell them again. Without the library.
#include "cases.h"
#include <algorithm>
#include <citrus_index.hpp>
#include <citrus_map.hpp>
#include <cmath>
#include <string>

using citrus::is_key_v, citrus::key_bits_v, citrus::key_traits;

enum class colour : int8_t { red = -1, green, blue };
enum plain { small, large = 1000 };

struct user_id {
    uint32_t number;
};

inline bool operator==(const user_id &one, const user_id &other) { return one.number == other.number; }

template <> struct citrus::key_traits<user_id> {
    static constexpr unsigned bits = 32;
    static constexpr uint64_t encode(const user_id &key) noexcept { return key.number; }
    static constexpr user_id decode(uint64_t word) noexcept { return {uint32_t(word)}; }
};

template <class... Ks> constexpr bool are_keys = (is_key_v<Ks> && ...);
template <class... Ks> constexpr bool are_no_keys = (!is_key_v<Ks> && ...);

static_assert(are_keys<bool, char, signed char, unsigned char, wchar_t, char16_t, char32_t, short, unsigned short, int, unsigned, long>);
static_assert(are_keys<unsigned long, long long, unsigned long long, float, double, std::byte, colour, plain, user_id, std::chrono::nanoseconds>);
static_assert(are_keys<std::chrono::duration<float>, std::chrono::system_clock::time_point, std::chrono::steady_clock::time_point>);
static_assert(are_keys<std::pair<int, float>, std::tuple<user_id, bool, short>, std::array<char, 8>, std::pair<std::array<char, 2>, colour>>);
static_assert(are_no_keys<std::string, const char *, double *, void, long double, std::nullptr_t, std::chrono::duration<long double>, __int128>);
static_assert(are_no_keys<std::pair<int, std::string>, std::tuple<>, std::array<int, 0>, std::array<std::string, 2>>);
// These have 64 bits and one more, and 2^32 of them.
static_assert(are_no_keys<std::pair<uint64_t, bool>, std::tuple<int, bool, int>, std::array<short, 5>>);
static_assert(are_no_keys<std::pair<std::pair<uint64_t, uint64_t>, bool>>);
static_assert(are_no_keys<std::array<uint64_t, (size_t{1} << 26) + 1>, std::array<std::array<bool, 1 << 16>, (1 << 16) + 1>>);
static_assert(key_bits_v<std::pair<uint64_t, bool>> > 64 && key_bits_v<std::string> == 0);

// Words are made at compile time.
static_assert(key_traits<int>::encode(-1) == 0x7fffffff && key_traits<int>::decode(0x7fffffff) == -1);
static_assert(key_traits<double>::encode(-0.0) == uint64_t{1} << 63 && key_traits<double>::encode(1) == 0xbff0000000000000);
static_assert(key_traits<std::pair<uint32_t, uint32_t>>::encode({7, 9}) == (uint64_t{7} << 32 | 9));
static_assert(key_traits<std::tuple<char, bool>>::decode(key_traits<std::tuple<char, bool>>::encode({'a', true})) == std::tuple('a', true));
static_assert(key_traits<std::array<unsigned char, 8>>::encode({1, 2, 3, 4, 5, 6, 7, 8}) == 0x0102030405060708);

#if __cplusplus >= 202002L
static_assert(citrus::key<int> && citrus::key<user_id> && !citrus::key<std::string> && !citrus::key<std::pair<uint64_t, bool>>);
#endif

// These ascend, and so do their words, which tell them again.
template <class K> static void ascend(const std::vector<K> &keys) {
    for (const K &key : keys) {
        WANT(key_traits<K>::decode(key_traits<K>::encode(key)) == key, true);
        WANT(key_traits<K>::encode(key) <= UINT64_MAX >> (64 - key_traits<K>::bits), true);
    }
    for (size_t i = 1; i < keys.size(); i++) WANT(key_traits<K>::encode(keys[i - 1]) < key_traits<K>::encode(keys[i]), true);
}

template <class K> static void integers() {
    using limits = std::numeric_limits<K>;
    const K middle = limits::is_signed ? K(-1) : K(limits::max() / 2);
    ascend<K>({limits::min(), K(limits::min() + 1), middle, K(middle + 1), K(limits::max() - 1), limits::max()});
    WANT(key_traits<K>::encode(limits::min()), 0);
    WANT(key_traits<K>::encode(limits::max()), UINT64_MAX >> (64 - 8 * sizeof(K)));
}

static void words_of_integers() {
    integers<char>(), integers<signed char>(), integers<unsigned char>(), integers<wchar_t>(), integers<char16_t>(), integers<char32_t>();
    integers<short>(), integers<unsigned short>(), integers<int>(), integers<unsigned>(), integers<long>(), integers<unsigned long>();
    integers<long long>(), integers<unsigned long long>();
    ascend<bool>({false, true});
    ascend<colour>({colour::red, colour::green, colour::blue});
    ascend<plain>({small, large});
    ascend<std::byte>({std::byte{0}, std::byte{127}, std::byte{128}, std::byte{255}});
    ascend<user_id>({{0}, {5}, {UINT32_MAX}});
}

template <class K, class Bits> static void floating() {
    using limits = std::numeric_limits<K>;
    using traits = key_traits<K>;
    const K least = limits::denorm_min(), end = limits::infinity();
    ascend<K>({-end, -limits::max(), K(-1.5), -limits::min(), -least, 0, least, limits::min(), 1, K(1.5), limits::max(), end});
    WANT(traits::encode(-K(0)), traits::encode(K(0)));
    WANT(std::signbit(traits::decode(traits::encode(-K(0)))), false);
    for (const K none : {limits::quiet_NaN(), -limits::quiet_NaN(), limits::signaling_NaN(), -limits::signaling_NaN(), K(std::nan("7"))}) {
        WANT(traits::encode(none), traits::encode(limits::quiet_NaN()));
        WANT(traits::encode(none) > traits::encode(end), true);
        const K told = traits::decode(traits::encode(none)), quiet = limits::quiet_NaN();
        WANT(memcmp(&told, &quiet, sizeof told), 0);
    }
    std::vector<K> drawn;
    for (uint64_t state = 88172645463325252u; drawn.size() < 20000;) {
        const Bits bits = static_cast<Bits>(draw(&state));
        K number;
        memcpy(&number, &bits, sizeof number);
        if (!std::isnan(number)) drawn.push_back(number);
    }
    std::sort(drawn.begin(), drawn.end());
    drawn.erase(std::unique(drawn.begin(), drawn.end()), drawn.end());
    ascend<K>(drawn);
}

static void words_of_floating_numbers() { floating<float, uint32_t>(), floating<double, uint64_t>(); }

static void words_of_times() {
    using namespace std::chrono;
    ascend<seconds>({seconds(-5), seconds(0), seconds(5)});
    ascend<duration<double>>({duration<double>(-0.5), duration<double>(0), duration<double>(0.25)});
    using moment = system_clock::time_point;
    ascend<moment>({moment::min(), moment() - hours(1), moment(), system_clock::now()});
    ascend<steady_clock::time_point>({steady_clock::time_point(), steady_clock::now()});
}

static void words_of_parts() {
    ascend<std::pair<uint32_t, uint32_t>>({{0, 0}, {0, UINT32_MAX}, {1, 0}, {UINT32_MAX, UINT32_MAX}});
    ascend<std::pair<int, float>>({{-1, 5}, {0, -1.5f}, {0, 0}, {0, 1}, {1, -1e30f}});
    ascend<std::pair<bool, user_id>>({{false, {7}}, {true, {0}}, {true, {UINT32_MAX}}});
    ascend<std::tuple<bool, char, short, int>>({{false, 'a', 0, -1}, {false, 'a', 0, 1}, {false, 'b', -1, 0}, {true, 'a', -5, 0}});
    ascend<std::tuple<int64_t>>({{INT64_MIN}, {-1}, {INT64_MAX}});
    ascend<std::array<unsigned char, 8>>({{0, 0, 0, 0, 0, 0, 0, 1}, {0, 0, 0, 0, 0, 0, 1, 0}, {255, 255, 255, 255, 255, 255, 255, 255}});
    ascend<std::array<int, 2>>({{-1, 5}, {0, -5}, {0, 5}});
    ascend<std::array<double, 1>>({{-1}, {5}});
    ascend<std::array<bool, 64>>({{false}, {true}});
    using nested = std::pair<std::array<char, 2>, std::pair<bool, short>>;
    ascend<nested>({{{'a', 'b'}, {false, 1}}, {{'a', 'b'}, {true, -1}}, {{'b', 'a'}, {false, 0}}});
}

#if __has_include(<netinet/in.h>)
#include <arpa/inet.h>
static void words_of_addresses() {
    static const char *const texts[] = {"0.0.0.0", "10.0.0.1", "10.0.0.255", "10.0.1.0", "127.0.0.1", "192.168.0.1", "255.255.255.255"};
    uint64_t before = 0;
    for (const char *const text : texts) {
        in_addr address{};
        WANT(inet_pton(AF_INET, text, &address), 1);
        const uint64_t word = key_traits<in_addr>::encode(address);
        WANT(word, ntohl(address.s_addr));
        WANT(key_traits<in_addr>::decode(word).s_addr, address.s_addr);
        WANT(word > before || word == 0, true);
        before = word;
    }
}
#else
static void words_of_addresses() {}
#endif

int main() {
    const struct plain_case cases[] = {
        {"keys: words of integers, characters and enumerations", words_of_integers},
        {"keys: words of floating numbers", words_of_floating_numbers},
        {"keys: words of durations and points of time", words_of_times},
        {"keys: words of pairs, tuples and arrays", words_of_parts},
        {"keys: words of IPv4 addresses", words_of_addresses},
    };
    run_plain_cases(cases, COUNT_OF(cases));
    return failed_cases != 0;
}
