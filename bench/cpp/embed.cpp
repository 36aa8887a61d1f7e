// The C library, as a program that links it sees it: an index for each waiter, and a handle for each place. Where more threads than
// processors are measured, and where single calls are, there is one more series, of updates that take turns.
#include "handle_places.hpp"
#include "measuring.hpp"
#include <citrus_turns.hpp>

// An index with room for each key.
template <class Turns> class IndexOfRoom {
public:
    IndexOfRoom(const Room &room, citrus::waiter waiter) {
        handles_.emplace_back(citrus::options{uint32_t(room.keys), room.places, waiter, FIXED_SALT});
        for (uint32_t place = 1; place < room.places; place++) handles_.push_back(handles_[0].share());
    }

    HandleClient<Turns> client(uint32_t place) { return {{handles_[place], turns_}}; }

private:
    std::vector<citrus::handle> handles_;
    Turns turns_;
};

template <class Turns> void measure_waiter(const char *name, const Options &options, citrus::waiter waiter) {
    measure_all(name, options, [=](const Room &room) { return std::make_unique<IndexOfRoom<Turns>>(room, waiter); });
}

int main(int count, char **words) {
    const Options options = options_of(count, words);
    measure_waiter<NoTurns>(LIBRARY " first waiter", options, citrus::waiter::eer);
    if (options.subject == Subject::Crowded || options.subject == Subject::Latency)
        measure_waiter<citrus::turns>(LIBRARY " first waiter in turn", options, citrus::waiter::eer);
    measure_waiter<NoTurns>(LIBRARY " second waiter", options, citrus::waiter::domain);
    measure_waiter<NoTurns>(LIBRARY " third waiter", options, citrus::waiter::deer);
}
