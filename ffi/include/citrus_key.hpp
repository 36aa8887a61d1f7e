// Which types may be keys, for C++17: those whose values stand for words of at most 64 bits, in the same order. Integers, bool, characters,
// enumerations, float and double, durations and points of time are, and IPv4 addresses; so are pairs, tuples and arrays of keys that have 64
// bits together at most, the first part highest. A type of yours becomes one in five lines:
//
//     template <> struct citrus::key_traits<user_id> {
//         static constexpr unsigned bits = 32;
//         static constexpr uint64_t encode(const user_id &key) noexcept { return key.number; }
//         static constexpr user_id decode(uint64_t word) noexcept { return {uint32_t(word)}; }
//     };
//
// where `a < b` is `encode(a) < encode(b)`, each word is below 2^bits, and `decode(encode(a))` is `a`.
//
// Of floating numbers -0 is the key 0, since they are equal. All that are no numbers are one key, above infinity.
#ifndef CITRUS_KEY_HPP
#define CITRUS_KEY_HPP

#include "citrus.hpp"
// In an older language that header says so, and this one says nothing more.
#if __cplusplus >= 201703L
#include <array>
#include <chrono>
#include <cstring>
#include <limits>
#include <tuple>
#include <type_traits>
#if __has_include(<netinet/in.h>)
#include <netinet/in.h>
#endif

namespace citrus {

// What makes a type a key: see above.
template <class K, class = void> struct key_traits;

// So many bits a word of this type has at most, or 0 where it has no traits; and whether they fit, so that the type is a key.
template <class K, class = void> inline constexpr unsigned key_bits_v = 0;
template <class K> inline constexpr unsigned key_bits_v<K, std::void_t<decltype(key_traits<K>::bits)>> = key_traits<K>::bits;
template <class K> inline constexpr bool is_key_v = key_bits_v<K> >= 1 && key_bits_v<K> <= 64;

#if __cplusplus >= 202002L
template <class K>
concept key = is_key_v<K>;
#endif

// Refuses a type that is no key, with a sentence.
template <class K> constexpr bool needs_key() noexcept {
    static_assert(key_bits_v<K> > 0, "a key's type has citrus::key_traits: numbers have, and pairs, tuples and arrays of keys; "
                                     "citrus_key.hpp says how one of yours gets them");
    static_assert(key_bits_v<K> <= 64, "a key has 64 bits at most, with all its parts");
    return true;
}

namespace of_keys {

// So many bits are too many, however many more there are.
inline constexpr unsigned too_many = 65;

constexpr unsigned together(uint64_t bits) noexcept { return bits < too_many ? static_cast<unsigned>(bits) : too_many; }

// The greatest word of so many bits, from 1 to 64.
constexpr uint64_t greatest_word(unsigned bits) noexcept { return std::numeric_limits<uint64_t>::max() >> (64 - bits); }

// How a key is passed: by value where a register has room for it.
template <class K> using passed = std::conditional_t<std::is_trivially_copyable_v<K> && sizeof(K) <= sizeof(uint64_t), K, const K &>;

// A word with one more part behind it. A part of 64 bits is alone.
template <class Part> constexpr uint64_t beside(uint64_t word, const Part &part) noexcept {
    constexpr unsigned bits = key_traits<Part>::bits;
    return (bits < 64 ? word << bits % 64 : 0) | key_traits<Part>::encode(part);
}

// The part of a word that has so many bits behind it.
template <class Part> constexpr Part part_of(uint64_t word, unsigned behind) noexcept {
    return key_traits<Part>::decode(word >> behind & greatest_word(key_traits<Part>::bits));
}

// The same bits as another type, at compile time too where the compiler can.
#if defined __has_builtin
#if __has_builtin(__builtin_bit_cast)
#define CITRUS_HAS_BIT_CAST
#endif
#endif
#ifdef CITRUS_HAS_BIT_CAST
#undef CITRUS_HAS_BIT_CAST
template <class To, class From> constexpr To same_bits(const From &from) noexcept { return __builtin_bit_cast(To, from); }
#else
template <class To, class From> To same_bits(const From &from) noexcept {
    To to;
    std::memcpy(&to, &from, sizeof to);
    return to;
}
#endif

} // namespace of_keys

template <> struct key_traits<bool> {
    static constexpr unsigned bits = 1;
    static constexpr uint64_t encode(bool key) noexcept { return key; }
    static constexpr bool decode(uint64_t word) noexcept { return word != 0; }
};

// Integers and characters. Negative ones come first.
template <class K> struct key_traits<K, std::enable_if_t<std::is_integral_v<K> && sizeof(K) <= sizeof(uint64_t)>> {
    static constexpr unsigned bits = 8 * sizeof(K);
    static constexpr uint64_t encode(K key) noexcept { return (static_cast<uint64_t>(key) ^ sign) & of_keys::greatest_word(bits); }
    static constexpr K decode(uint64_t word) noexcept { return static_cast<K>(word ^ sign); }

private:
    static constexpr uint64_t sign = std::is_signed_v<K> ? uint64_t{1} << (bits - 1) : 0;
};

template <class K> struct key_traits<K, std::enable_if_t<std::is_enum_v<K> && is_key_v<std::underlying_type_t<K>>>> {
    using number = std::underlying_type_t<K>;
    static constexpr unsigned bits = key_traits<number>::bits;
    static constexpr uint64_t encode(K key) noexcept { return key_traits<number>::encode(static_cast<number>(key)); }
    static constexpr K decode(uint64_t word) noexcept { return static_cast<K>(key_traits<number>::decode(word)); }
};

// IEEE 754: the bits of those that aren't negative ascend with them, and those of the negative ones descend.
template <class K> struct key_traits<K, std::enable_if_t<std::is_floating_point_v<K> && sizeof(K) <= sizeof(uint64_t)>> {
    static_assert(std::numeric_limits<K>::is_iec559, "floating numbers are those of IEEE 754");
    using word_type = std::conditional_t<sizeof(K) == sizeof(uint32_t), uint32_t, uint64_t>;

    static constexpr unsigned bits = 8 * sizeof(K);

    static constexpr uint64_t encode(K key) noexcept {
        const word_type its = of_keys::same_bits<word_type>(key), size = its & ~sign;
        if (size > infinity) return no_number;
        if (size == 0) return sign;
        return its & sign ? ~its : its | sign;
    }

    static constexpr K decode(uint64_t word) noexcept {
        if (word >= no_number) return std::numeric_limits<K>::quiet_NaN();
        const auto its = static_cast<word_type>(word);
        return of_keys::same_bits<K>(its & sign ? its ^ sign : ~its);
    }

private:
    static constexpr word_type sign = word_type{1} << (bits - 1);
    static constexpr word_type infinity = (sign - 1) >> (std::numeric_limits<K>::digits - 1) << (std::numeric_limits<K>::digits - 1);
    static constexpr word_type no_number = (sign | infinity) + 1;
};

template <class Rep, class Period> struct key_traits<std::chrono::duration<Rep, Period>, std::enable_if_t<is_key_v<Rep>>> {
    using duration = std::chrono::duration<Rep, Period>;
    static constexpr unsigned bits = key_traits<Rep>::bits;
    static constexpr uint64_t encode(const duration &key) noexcept { return key_traits<Rep>::encode(key.count()); }
    static constexpr duration decode(uint64_t word) noexcept { return duration(key_traits<Rep>::decode(word)); }
};

template <class Clock, class Duration> struct key_traits<std::chrono::time_point<Clock, Duration>, std::enable_if_t<is_key_v<Duration>>> {
    using time_point = std::chrono::time_point<Clock, Duration>;
    static constexpr unsigned bits = key_traits<Duration>::bits;
    static constexpr uint64_t encode(const time_point &key) noexcept { return key_traits<Duration>::encode(key.time_since_epoch()); }
    static constexpr time_point decode(uint64_t word) noexcept { return time_point(key_traits<Duration>::decode(word)); }
};

template <class... Parts> struct key_traits<std::tuple<Parts...>, std::enable_if_t<(... && (key_bits_v<Parts> > 0))>> {
    using tuple = std::tuple<Parts...>;
    static constexpr unsigned bits = of_keys::together((uint64_t{0} + ... + key_bits_v<Parts>));

    static constexpr uint64_t encode(const tuple &key) noexcept { return encode(key, std::index_sequence_for<Parts...>()); }
    static constexpr tuple decode(uint64_t word) noexcept { return decode(word, std::index_sequence_for<Parts...>()); }

private:
    template <size_t... I> static constexpr uint64_t encode(const tuple &key, std::index_sequence<I...>) noexcept {
        uint64_t word = 0;
        static_cast<void>(((word = of_keys::beside(word, std::get<I>(key))), ...));
        return word;
    }

    template <size_t... I> static constexpr tuple decode(uint64_t word, std::index_sequence<I...>) noexcept {
        return tuple(of_keys::part_of<Parts>(word, bits_behind<I>())...);
    }

    template <size_t I> static constexpr unsigned bits_behind() noexcept {
        constexpr std::array<unsigned, sizeof...(Parts)> all{key_bits_v<Parts>...};
        unsigned behind = 0;
        for (size_t i = I + 1; i < all.size(); i++) behind += all[i];
        return behind;
    }
};

template <class First, class Second>
struct key_traits<std::pair<First, Second>, std::enable_if_t<(key_bits_v<First> > 0 && key_bits_v<Second> > 0)>> {
    using pair = std::pair<First, Second>;
    static constexpr unsigned bits = key_traits<std::tuple<First, Second>>::bits;
    static constexpr uint64_t encode(const pair &key) noexcept { return of_keys::beside(key_traits<First>::encode(key.first), key.second); }
    static constexpr pair decode(uint64_t word) noexcept {
        return pair(of_keys::part_of<First>(word, key_bits_v<Second>), of_keys::part_of<Second>(word, 0));
    }
};

template <class Part, size_t N> struct key_traits<std::array<Part, N>, std::enable_if_t<(key_bits_v<Part> > 0)>> {
    using array = std::array<Part, N>;
    static constexpr unsigned bits = N < of_keys::too_many ? of_keys::together(N * uint64_t{key_bits_v<Part>}) : of_keys::too_many;

    static constexpr uint64_t encode(const array &key) noexcept {
        uint64_t word = 0;
        for (const Part &part : key) word = of_keys::beside(word, part);
        return word;
    }

    static constexpr array decode(uint64_t word) noexcept { return decode(word, std::make_index_sequence<N>()); }

private:
    template <size_t... I> static constexpr array decode(uint64_t word, std::index_sequence<I...>) noexcept {
        return {{of_keys::part_of<Part>(word, key_bits_v<Part> * static_cast<unsigned>(N - 1 - I))...}};
    }
};

#if __has_include(<netinet/in.h>)
// An IPv4 address. Its first byte stands first in memory, where the lowest byte of a number of this machine stands.
template <> struct key_traits<in_addr> {
    static constexpr unsigned bits = 8 * sizeof(in_addr);
    static constexpr uint64_t encode(const in_addr &key) noexcept { return __builtin_bswap32(key.s_addr); }
    static constexpr in_addr decode(uint64_t word) noexcept { return {__builtin_bswap32(static_cast<uint32_t>(word))}; }
};
#endif

} // namespace citrus

#endif
#endif
