// Sections and waits of each waiter in one, two and four threads: the atomic accesses of the bench `waits` of crates/tree_benches on
// the same words, and nothing else. `waits ROUNDS [--packed]` writes a line for each as that program does with the word `times`.
#include "waiters.hpp"
#include <chrono>
#include <cstdio>
#include <cstdlib>
#include <string>
#include <thread>

enum class Work { Section, WaitFew, WaitAll };

template <class W> __attribute__((noinline)) void read(Words &words, Seat seat, uint32_t rounds) {
    for (uint32_t key = 0; key < rounds; key++) {
        W::enter(words, seat, key);
        W::leave(words, seat);
    }
}

template <class W> __attribute__((noinline)) void wait(Words &words, Seat seat, Keys keys, uint32_t places, uint32_t rounds) {
    for (uint32_t i = 0; i < rounds && seat.tickets > 0; i++) {
        seat.tickets--;
        seat.waits++;
        Grace grace{keys, words[W::Layout::clock].fetch_add(1)};
        while (!W::poll(words, seat, grace, places)) std::this_thread::yield();
    }
}

template <class W> void measure(const char *what, Work work, uint32_t places, uint32_t rounds) {
    Words words(W::Layout::head + W::room(places), W::Layout::head);
    W::set_up(words, places);
    const Keys keys = work == Work::WaitAll ? Keys{0, UINT64_MAX} : Keys{8, 15};
    const auto run = [&](uint32_t place) {
        Seat seat{place, rounds, {}};
        if (work == Work::Section) read<W>(words, seat, rounds);
        else wait<W>(words, seat, keys, places, rounds);
    };
    const auto begun = std::chrono::steady_clock::now();
    std::vector<std::thread> threads;
    for (uint32_t place = 1; place < places; place++) threads.emplace_back(run, place);
    run(0);
    for (auto &thread : threads) thread.join();
    const std::chrono::duration<double, std::nano> passed = std::chrono::steady_clock::now() - begun;
    printf("%s waiter, %s, %u threads: %.1f ns\n", W::name, what, places, passed.count() / rounds);
}

template <class W> void measure_all(uint32_t rounds) {
    for (uint32_t places : {1, 2, 4}) measure<W>("enter and leave", Work::Section, places, rounds);
    for (uint32_t places : {1, 2, 4}) measure<W>("wait for 8 keys", Work::WaitFew, places, rounds);
    for (uint32_t places : {1, 2, 4}) measure<W>("wait for all keys", Work::WaitAll, places, rounds);
}

template <class L> void measure_waiters(uint32_t rounds) {
    measure_all<Eer<L>>(rounds);
    measure_all<Domain<L>>(rounds);
    measure_all<Deer<L>>(rounds);
}

int main(int count, char **args) {
    if (count < 2) return 2;
    const uint32_t rounds = strtoul(args[1], nullptr, 10);
    if (count > 2 && args[2] == std::string("--packed")) measure_waiters<Packed>(rounds);
    else measure_waiters<Spaced>(rounds);
}
