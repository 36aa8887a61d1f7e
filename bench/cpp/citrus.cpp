// CITRUS in plain C++, without words that are used again.
#include "citrus.hpp"
#include "client.hpp"
#include "measuring.hpp"

struct CitrusPlace {
    Citrus &tree;
    uint32_t thread;

    std::optional<uint64_t> get(uint64_t key) { return tree.get(thread, key); }
    bool put(uint64_t key, uint64_t value) { return tree.put(thread, key, value); }
    bool del(uint64_t key) { return tree.del(thread, key); }
};

struct CitrusClient {
    CitrusPlace place;

    bool may_call() const { return true; }
    uint64_t call(const Op &op) { return PlainClient<CitrusPlace>{place}.call(op); }
};

class CitrusOfRoom {
public:
    explicit CitrusOfRoom(const Room &room) : tree_(room.places) {}
    CitrusClient client(uint32_t place) { return {{tree_, place}}; }

private:
    Citrus tree_;
};

int main(int count, char **words) {
    measure_all("plain CITRUS", options_of(count, words), [](const Room &room) { return std::make_unique<CitrusOfRoom>(room); });
}
