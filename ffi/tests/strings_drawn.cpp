// The map of citrus_string_map.hpp by drawn schedules: threads are fibers of one thread, and each call of the library is where another may go on. What
// is freed is filled and not given out again. Two to four fibers call for one to five strings that begin alike; one order explains the replies for
// each, and when all is taken out no value and no layer is left. Usage: strings_drawn [ROUNDS [SEED]]. It ends with the first round that fails.
//
// The calls are wrapped where the program is linked (--wrap): those below, sched_yield and select, by which waits rest.
#include "cases.h"
#include "strings.hpp"
#include <cstdlib>
#include <cstring>
#include <functional>
#include <malloc.h>
#include <sys/resource.h>
#include <ucontext.h>

// Memory that isn't given back: so many bytes at most, of a fault that makes a call endless too.
static const rlimit bound{2000000000, 2000000000};

enum { MOST_FIBERS = 4, STACK = 256 * 1024, MOST_STEPS = 1000000, LONGEST_SLEEP = 500 };

struct fiber {
    ucontext_t context{};
    std::vector<char> stack = std::vector<char>(STACK);
    std::function<void()> work;
    bool is_over = false;
    long sleeps_until = 0; // the step
};

static ucontext_t scheduler;
static fiber fibers[MOST_FIBERS];
static int running = -1;
static uint64_t schedule = 1;
// Of so many places to go over to another fiber one isn't taken; 0 where each is. And in one of so many steps a fiber falls asleep, if in any.
static uint64_t stays = 0, sleeps = 0;
static long steps = 0;

static uint64_t below(uint64_t bound) { return (drawn(schedule) >> 20) % bound; }

static void go_over() {
    if (running < 0) return;
    fiber &mine = fibers[std::exchange(running, -1)];
    if (sleeps && below(sleeps) == 0) mine.sleeps_until = steps + long(below(LONGEST_SLEEP));
    swapcontext(&mine.context, &scheduler);
}

static void may_go_over() {
    if (stays == 0 || below(stays) > 0) go_over();
}

// A call of the library, between two such places.
template <class Made> auto around(Made call) {
    may_go_over();
    const auto told = call();
    may_go_over();
    return told;
}

extern "C" {
#define WRAPPED(name, parameters, arguments) \
    int32_t __real_##name parameters; \
    int32_t __wrap_##name parameters; \
    int32_t __wrap_##name parameters { \
        return around([=] { return __real_##name arguments; }); \
    }
WRAPPED(citrus_get, (citrus_handle * handle, uint64_t key, uint64_t *value), (handle, key, value))
WRAPPED(citrus_insert_once, (citrus_handle * handle, uint64_t key, uint64_t value), (handle, key, value))
WRAPPED(citrus_compare_once, (citrus_handle * handle, uint64_t key, uint64_t expected, uint64_t value, uint64_t *found), (handle, key, expected, value, found))
WRAPPED(citrus_remove_once, (citrus_handle * handle, uint64_t key, uint64_t *old), (handle, key, old))
WRAPPED(citrus_take_once, (citrus_handle * handle, uint64_t key, uint64_t expected, uint64_t *found), (handle, key, expected, found))
WRAPPED(citrus_list_once, (citrus_handle * handle, uint64_t low, uint64_t high, citrus_pair *pairs, size_t room, size_t *count, uint64_t *next),
        (handle, low, high, pairs, room, count, next))
WRAPPED(citrus_list_down_once, (citrus_handle * handle, uint64_t low, uint64_t high, citrus_pair *pairs, size_t room, size_t *count, uint64_t *next),
        (handle, low, high, pairs, room, count, next))
WRAPPED(citrus_first_once, (citrus_handle * handle, uint64_t low, uint64_t *key, uint64_t *value), (handle, low, key, value))
WRAPPED(citrus_enter, (citrus_handle * handle, uint64_t key), (handle, key))
WRAPPED(citrus_release, (citrus_handle * handle), (handle))
WRAPPED(citrus_begin, (citrus_handle * handle, uint64_t low, uint64_t high, uint64_t *cookie), (handle, low, high, cookie))
WRAPPED(citrus_poll, (citrus_handle * handle, uint64_t cookie), (handle, cookie))

int __wrap_sched_yield();
int __wrap_sched_yield() {
    go_over();
    return 0;
}

int __wrap_select(int, fd_set *, fd_set *, fd_set *, timeval *);
int __wrap_select(int, fd_set *, fd_set *, fd_set *, timeval *) {
    go_over();
    return 0;
}
}

static void fill(void *at) {
    if (at) memset(at, 0xdd, malloc_usable_size(at));
}
void operator delete(void *at) noexcept { fill(at); }
void operator delete(void *at, size_t) noexcept { fill(at); }
void operator delete(void *at, std::align_val_t) noexcept { fill(at); }
void operator delete(void *at, size_t, std::align_val_t) noexcept { fill(at); }

static void body(int which) {
    fibers[which].work();
    fibers[which].is_over = true;
    running = -1;
    setcontext(&scheduler);
}

// One that isn't over; one that is awake, if there is one.
static unsigned drawn_fiber(unsigned count) {
    const unsigned from = unsigned(below(count));
    unsigned found = from;
    for (unsigned i = 0; i < count; i++) {
        const unsigned which = (from + i) % count;
        if (fibers[which].is_over) continue;
        found = which;
        if (fibers[which].sleeps_until <= steps) break;
    }
    return found;
}

// Whether all come to their end.
static bool run(unsigned count) {
    for (unsigned i = 0; i < count; i++) {
        fiber &its = fibers[i];
        getcontext(&its.context);
        its.context.uc_stack.ss_sp = its.stack.data();
        its.context.uc_stack.ss_size = its.stack.size();
        its.context.uc_link = &scheduler;
        its.is_over = false;
        its.sleeps_until = 0;
        makecontext(&its.context, reinterpret_cast<void (*)()>(body), 1, int(i));
    }
    unsigned left = count;
    for (steps = 0; left > 0 && steps < MOST_STEPS; steps++) {
        const unsigned which = drawn_fiber(count);
        running = int(which);
        swapcontext(&scheduler, &fibers[which].context);
        left -= fibers[which].is_over;
    }
    return left == 0;
}

static std::vector<std::string> drawn_texts() {
    static const char *const all[] = {"aaaaaaa", "aaaaaaab", "aaaaaaac", "aaaaaaabbbb", "aaaaaaabbbbc", "aaaaaaabbbbd", "aaaaaaabbbbccccc", "aaaaaaabbbbccccd", "aaaaaaaxxxxccccc", "b", ""};
    std::set<std::string> texts;
    for (uint64_t left = 1 + below(5); left > 0; left--) texts.insert(all[below(COUNT_OF(all))]);
    return {texts.begin(), texts.end()};
}

// Of all rounds.
static uint64_t layers_seen = 0, calls_judged = 0;

static void judge(const std::vector<std::string> &texts, const std::vector<Value> &before, std::vector<Told> &told) {
    for (size_t at = 0; at < texts.size(); at++) {
        std::vector<Call *> calls = replies_for(at, told);
        OneOrder<Call, Value> order(before[at]);
        WANT(order.find(calls) == nullptr, true);
        calls_judged += calls.size();
    }
}

static void round_of(unsigned threads, uint64_t calls) {
    const std::vector<std::string> texts = drawn_texts();
    std::vector<strings> maps;
    strings first(200, threads);
    for (unsigned who = 1; who < threads; who++) maps.push_back(first.share());
    maps.push_back(std::move(first));
    std::vector<Told> told(threads + 1, Told(texts.size()));
    std::vector<Value> before(texts.size());
    for (size_t at = 0; at < texts.size(); at++)
        if (below(2) && maps[0].insert(texts[at], object(at))) before[at] = at;
    for (unsigned who = 0; who < threads; who++)
        fibers[who].work = [&, who] {
            for (uint64_t i = 0; i < calls; i++) {
                call_for(maps[who], below(STRING_CALLS), texts, below(texts.size()), (who + 1) * 1000 + i, told[who], may_go_over);
                if (below(16) == 0) maps[who].flush();
            }
        };
    WANT(run(threads), true);
    layers_seen += maps[0].layers();
    for (size_t at = 0; at < texts.size(); at++) call_for(maps[0], GET_TEXT, texts, at, 0, told.back(), [] {});
    judge(texts, before, told);
    for (const std::string &text : texts) maps[0].retire(text);
    for (strings &map : maps) map.flush();
    WANT(maps[0].empty(), true);
    WANT(maps[0].layers(), 0);
}

int main(int count, char **words) {
    const uint64_t rounds = count > 1 ? strtoull(words[1], nullptr, 10) : 1000, seed = count > 2 ? strtoull(words[2], nullptr, 10) : 1;
    setrlimit(RLIMIT_AS, &bound);
    schedule = 88172645463325252u ^ seed * 0x9e3779b97f4a7c15u;
    uint64_t round = 0;
    for (; round < rounds && !wrong_here; round++) {
        stays = 2 * below(3);
        sleeps = 20 * below(3);
        const unsigned threads = 2 + unsigned(below(MOST_FIBERS - 1));
        // Short ones are many different beginnings; in long ones much is dropped meanwhile.
        round_of(threads, round % 16 ? 2 + below(8) : 50 + below(50));
        WANT(there, 0);
        WANT(not_right, 0);
    }
    printf("%" PRIu64 " rounds, %" PRIu64 " replies judged, %" PRIu64 " layers at the ends\n", round, calls_judged, layers_seen);
    end_case("C++ strings by drawn schedules", "");
    return failed_cases != 0;
}
