// The concurrent map of oneTBB, from strings.
#include "strings.hpp"
#include "tombstones.hpp"

class TbbStrings {
    using Map = TombstoneMap<std::string>;

public:
    static constexpr bool takes_out = false;

    struct Client {
        Map &map;

        uint64_t get(const std::string &text) { return map.get(text).value_or(0); }

        uint64_t range(const std::string &low, uint64_t most) {
            uint64_t sum = 0;
            map.first(low, most, [&sum](const std::string &text, uint64_t value) { sum += value + text.size(); });
            return sum;
        }

        bool insert(const std::string &text, uint64_t value) { return map.put(text, value); }
        bool remove(const std::string &text) { return map.del(text); }
        void settle() {}
    };

    Client client(size_t) { return {map_}; }

    // Makes it empty, while no other call is made.
    void clear() { map_.clear(); }

private:
    Map map_;
};

int main(int count, char **words) {
    measure_strings("TBB map", string_options(count, words), [](uint64_t, size_t) { return std::make_unique<TbbStrings>(); });
}
