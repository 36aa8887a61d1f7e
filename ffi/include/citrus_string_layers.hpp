// What citrus_string_map.hpp stands on: the keys that strings have in an index, and the objects that its pairs lead to. Programs include that one.
//
// A string's first 7 bytes, and behind them each next 4, are a slice. Where many strings have one slice a layer is made for them: the key of a
// pair is then the number of the layer and the next slice, so the pairs of a layer stand in the order of its strings. (Mao, Kohler and Morris,
// "Cache craftiness for fast multicore key-value storage", 2012, whose layers are trees of their own.)
#ifndef CITRUS_STRING_LAYERS_HPP
#define CITRUS_STRING_LAYERS_HPP

#include "citrus.hpp"
// In an older language that header says so, and this one says nothing more.
#if __cplusplus >= 201703L
#include <algorithm>
#include <atomic>
#include <cstring>
#include <limits>
#include <memory>
#include <mutex>
#include <new>
#include <string>
#include <string_view>

namespace citrus {
namespace of_strings {

// So many bytes are in a string's first slice, and in each later one. How many a slice has stands behind them.
inline constexpr size_t first_bytes = 7, later_bytes = 4;
inline constexpr unsigned length_bits = 3, slice_bits = 8 * later_bytes + length_bits;

// Keys below it are first slices; the others have the number of a layer, of which there are 2^28.
inline constexpr uint64_t layer_bit = uint64_t{1} << 63;
inline constexpr uint64_t most_layers = uint64_t{1} << (63 - slice_bits);

// The next bytes, the first one highest, with zeros where there are fewer, and how many there are: so a string comes before those that go on
// from it. A slice that is full is the same whether its string ends there or goes on.
inline uint64_t slice_of(std::string_view text, size_t most) noexcept {
    const size_t length = std::min(text.size(), most);
    unsigned char bytes[sizeof(uint64_t)] = {};
    std::copy_n(text.begin(), length, bytes);
    uint64_t word = 0;
    for (const unsigned char byte : bytes) word = word << 8 | byte;
    return word >> (8 * (sizeof word - most)) << length_bits | length;
}

// The key of a string outside of layers.
inline uint64_t first_key(std::string_view text) noexcept { return slice_of(text, first_bytes); }
inline constexpr uint64_t last_first_key = layer_bit - 1;

// The key in a layer of what is left of a string there; and the least and the greatest of the layer's keys.
inline uint64_t low_key(uint64_t number) noexcept { return layer_bit | number << slice_bits; }
inline uint64_t high_key(uint64_t number) noexcept { return low_key(number) | ((uint64_t{1} << slice_bits) - 1); }
inline uint64_t key_in(uint64_t number, std::string_view rest) noexcept { return low_key(number) | slice_of(rest, later_bytes); }

// The key of a section in which a string is looked up: one for each first slice. The waiters of classes take it modulo 64, so the lowest six
// bits are mixed with all the others; otherwise nearly all strings would be of the few classes that the slice's length makes.
inline uint64_t section_key(std::string_view text) noexcept {
    constexpr unsigned class_bits = 6;
    constexpr uint64_t golden = 0x9e3779b97f4a7c15;
    const uint64_t key = first_key(text);
    return key ^ ((key >> class_bits) * golden) >> (64 - class_bits);
}

// The key of a section that goes through many strings. It is greater than those of strings.
inline constexpr uint64_t scans = std::numeric_limits<uint64_t>::max();

// A string and its value, in one block: the text stands behind it.
template <class T> struct leaf {
    T value;
    const size_t size;

    std::string_view text() const noexcept { return {reinterpret_cast<const char *>(this + 1), size}; }

    static leaf *make(std::string_view text, T &&value) {
        void *const at = ::operator new(sizeof(leaf) + text.size(), std::align_val_t{alignof(leaf)});
        leaf *made = nullptr;
        try {
            made = ::new (at) leaf{std::move(value), text.size()};
        } catch (...) {
            ::operator delete(at, std::align_val_t{alignof(leaf)});
            throw;
        }
        std::copy(text.begin(), text.end(), reinterpret_cast<char *>(made + 1));
        return made;
    }

    static void drop(leaf *old) noexcept {
        old->~leaf();
        ::operator delete(static_cast<void *>(old), std::align_val_t{alignof(leaf)});
    }
};

template <class T> struct leaf_drop {
    void operator()(leaf<T> *old) const noexcept { leaf<T>::drop(old); }
};
template <class T> using own_leaf = std::unique_ptr<leaf<T>, leaf_drop<T>>;

// Strings that begin with one prefix, which has the bytes of whole slices. Its number and its prefix stay as long as it is there: so whoever
// read the pair that leads to it may go on in it, whatever was put above it since.
struct layer {
    uint64_t number = 0;
    // A mark has it too, and outlives the layer.
    const std::shared_ptr<const std::string> kept;
    const std::string_view prefix;
    // How many pairs it has. Updates that are under way count theirs a little later, so it is a hint.
    std::atomic<int64_t> pairs{2};

    explicit layer(std::string_view begins) : kept(std::make_shared<const std::string>(begins)), prefix(*kept) {}

    size_t depth() const noexcept { return prefix.size(); }
    uint64_t key_of(std::string_view text) const noexcept { return key_in(number, text.substr(depth())); }

    // Whether a string begins with the prefix, where it has so many bytes of it.
    bool has(std::string_view text, size_t known) const noexcept {
        return text.size() >= depth() && std::memcmp(text.data() + known, prefix.data() + known, depth() - known) == 0;
    }
};

// What stands in the place of a layer that has become empty, until it is taken out or put back. Readers go on by it, and nothing is added below
// it. It is an object of its own, so that no second one is taken for it.
struct mark {
    layer *of = nullptr;
    // What whoever put it there knows of its place, for when the layer may be gone: the key of its pair, the layer that has the pair if one
    // does, the number, the key of its sections and the prefix.
    uint64_t at = 0;
    layer *above = nullptr;
    uint64_t number = 0, section = 0;
    std::shared_ptr<const std::string> prefix;
};

// What a pair leads to: the address of an object, whose kind is in the lowest two bits.
enum kind : uint64_t { is_leaf = 0, is_layer = 1, is_mark = 2 };
inline constexpr uint64_t kinds = 3;
static_assert(alignof(layer) > kinds && alignof(mark) > kinds, "two bits are for the kind");

template <class Object> uint64_t word_of(const Object *object, kind of) noexcept { return reinterpret_cast<uintptr_t>(object) | of; }
inline kind kind_of(uint64_t word) noexcept { return static_cast<kind>(word & kinds); }
template <class Object> Object *object_of(uint64_t word) noexcept { return reinterpret_cast<Object *>(static_cast<uintptr_t>(word & ~kinds)); }

// The layer in which a reader goes on.
inline layer *layer_of(uint64_t word) noexcept { return kind_of(word) == is_mark ? object_of<mark>(word)->of : object_of<layer>(word); }

// How far the way to a string was gone: the key to look at, the layer that has it, and so many bytes of the string that all have there.
struct way {
    uint64_t at;
    layer *in = nullptr;
    size_t known = first_bytes;

    explicit way(std::string_view text) noexcept : at(first_key(text)) {}

    void enter(layer &next, std::string_view text) noexcept {
        at = next.key_of(text);
        in = &next;
        known = next.depth() + later_bytes;
    }
};

// The numbers of layers, which are given out again.
class numbers {
public:
    // Throws full where each is out.
    uint64_t take() {
        const std::lock_guard<std::mutex> locked(lock_);
        if (free_.empty()) {
            if (next_ == most_layers) throw error(fault::full);
            // So that putting one back never fails.
            if (free_.capacity() <= next_) free_.reserve(2 * free_.capacity() + 64);
            return next_++;
        }
        const uint64_t number = free_.back();
        free_.pop_back();
        return number;
    }

    void put(uint64_t number) noexcept {
        const std::lock_guard<std::mutex> locked(lock_);
        free_.push_back(number);
    }

private:
    std::mutex lock_;
    std::vector<uint64_t> free_;
    uint64_t next_ = 0;
};

} // namespace of_strings
} // namespace citrus

#endif
#endif
