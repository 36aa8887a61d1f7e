// The same steps as the proved tree's, in C++, with each waiter: on words that stand apart as there, and with `--packed` on words that
// stand one after another.
#include "measuring.hpp"
#include "same_tree.hpp"

template <class W> class TreeClient {
public:
    TreeClient(SameTree<W> &tree, TreeSeat seat) : tree_(tree), seat_(std::move(seat)) {}

    // A call takes up to four tickets.
    bool may_call() const { return seat_.tickets / 4 > 0; }

    // An update's number, as of the proved tree: both have the same sums.
    uint64_t call(const Op &op) {
        switch (op.kind) {
        case Kind::Put: return tree_.put(seat_, op.key, op.value);
        case Kind::Del: return tree_.del(seat_, op.key);
        default: return tree_.get(seat_, op.key).value_or(0);
        }
    }

private:
    SameTree<W> &tree_;
    TreeSeat seat_;
};

// A tree with some more slots than keys. Each place may keep some back.
template <class W> class TreeOfRoom {
public:
    explicit TreeOfRoom(const Room &room)
        : tree_(room.keys + (room.kept_back + 5) * room.places, room.places, room.kept_back),
          tickets_(4 * (room.operations + room.keys)) {}

    TreeClient<W> client(uint32_t place) { return {tree_, tree_.seat(place, tickets_)}; }

private:
    SameTree<W> tree_;
    uint64_t tickets_;
};

template <class W> void measure_waiter(const Options &options) {
    const std::string name = std::string("C++ ") + W::name + " waiter" + W::Layout::suffix;
    measure_all(name, options, [](const Room &room) { return std::make_unique<TreeOfRoom<W>>(room); });
}

template <class L> void measure_waiters(const Options &options) {
    measure_waiter<Eer<L>>(options);
    measure_waiter<Domain<L>>(options);
    measure_waiter<Deer<L>>(options);
}

int main(int count, char **words) {
    const Options options = options_of(count, words);
    if (options.packed) measure_waiters<Packed>(options);
    else measure_waiters<Spaced>(options);
}
