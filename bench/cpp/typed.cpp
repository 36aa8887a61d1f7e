// Gets by signed keys: of a typed handle and index where TYPED is defined, else the same by words, with the flip of a key's upper bit in the call.
// All that a call leads to, as far as compilers see it, is compiled into it.
#include <citrus_index.hpp>

#ifdef TYPED
using Index = citrus::index<int64_t>;
inline int64_t key_for(int64_t key) { return key; }
#else
using Index = citrus::index<>;
inline uint64_t key_for(int64_t key) { return static_cast<uint64_t>(key) ^ uint64_t{1} << 63; }
#endif
using Handle = Index::handle_type;

struct Answer {
    uint64_t value;
    bool is_there;
};

inline Answer answer_of(std::optional<uint64_t> found) { return {found.value_or(0), found.has_value()}; }

extern "C" {
__attribute__((flatten)) Answer get_by_handle(Handle *on, int64_t key) { return answer_of(on->get(key_for(key))); }

__attribute__((flatten)) Answer get_by_index(Index *on, int64_t key) { return answer_of(on->lend()->get(key_for(key))); }
}
