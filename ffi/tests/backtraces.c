/* Whom a call of the library stands for: a backtrace from within it names its caller, at whatever instruction it is interrupted, and so it is with
 * a call that hangs. `backtraces hang` aborts while a call hangs, for a debugger to look at. */
#define _GNU_SOURCE
#include "cases.h"
#include <execinfo.h>
#include <pthread.h>
#include <signal.h>
#include <stdatomic.h>
#include <stdbool.h>
#include <stdlib.h>
#include <string.h>
#include <sys/time.h>
#include <unistd.h>

enum { MOST_FRAMES = 64, KEYS = 3000, ROUNDS = 12 };

/* The callers stand in a section of their own, which the linker marks by these. */
#define CALLER __attribute__((noinline, section("callers")))
extern const char __start_callers[], __stop_callers[];

static atomic_ulong looked, named, changed;
static atomic_bool is_calling;

static void look_at_callers(int number) {
    void *frames[MOST_FRAMES];
    (void)number;
    if (!is_calling) return;
    const int count = backtrace(frames, MOST_FRAMES);
    looked++;
    for (int i = 0; i < count; i++)
        if ((const char *)frames[i] >= __start_callers && (const char *)frames[i] < __stop_callers) {
            named++;
            return;
        }
}

static void look_every(suseconds_t microseconds) {
    const struct itimerval each = {{0, microseconds}, {0, microseconds}};
    if (setitimer(ITIMER_REAL, &each, NULL)) abort();
}

/* The first backtrace of a program takes memory, which a signal handler mustn't. */
static void look_from_now_on(void) {
    void *frame;
    struct sigaction action;
    backtrace(&frame, 1);
    memset(&action, 0, sizeof action);
    action.sa_handler = look_at_callers;
    action.sa_flags = SA_RESTART;
    if (sigaction(SIGALRM, &action, NULL)) abort();
    looked = named = 0;
}

static void many_calls(citrus_handle *mine, citrus_lanes *lanes) {
    static citrus_pair pairs[KEYS];
    static citrus_answer answers[KEYS];
    static uint64_t keys[KEYS];
    uint64_t told = 0, next = 0;
    uint32_t made = 0;
    size_t count = 0;
    citrus_handle other = CITRUS_CLOSED_HANDLE;
    for (uint64_t i = 0; i < KEYS; i++) {
        keys[i] = i;
        WANT(citrus_insert(mine, i, i), CITRUS_DONE);
        WANT(citrus_upsert(mine, i, i + 1, &told), CITRUS_DONE);
        WANT(citrus_compare(mine, i, i + 1, i, &told), CITRUS_DONE);
        WANT(citrus_get(mine, i / 2, &told), CITRUS_DONE);
        WANT(citrus_hold(mine, i, &told), CITRUS_DONE);
        WANT(citrus_release(mine), CITRUS_DONE);
        WANT(citrus_first(mine, i / 3, &next, &told), CITRUS_DONE);
        WANT(citrus_last(mine, 0, i, &next, &told), CITRUS_DONE);
        WANT(citrus_begin(mine, 0, i, &next), CITRUS_DONE);
        WANT(citrus_poll(mine, next), CITRUS_DONE);
        WANT(citrus_wait(mine, i, i), CITRUS_DONE);
    }
    WANT(citrus_list(mine, 0, KEYS, pairs, KEYS, &count, &next), CITRUS_DONE);
    WANT(citrus_get_many(lanes, keys, KEYS, answers, KEYS), CITRUS_DONE);
    WANT(citrus_share(mine, 1, 1000, &other), CITRUS_DONE);
    citrus_close(&other);
    WANT(citrus_reopen(mine, &other), CITRUS_DONE);
    citrus_close(&other);
    WANT(citrus_tidy(mine, 0, KEYS, 1000, &made, &next) >= CITRUS_DONE, 1);
    for (uint64_t i = 0; i < KEYS; i++) WANT(citrus_remove(mine, i * 7 % KEYS, &told), CITRUS_DONE);
}

static CALLER void calls_all(uint32_t waiter) {
    is_calling = true;
    for (int round = 0; round < ROUNDS; round++) {
        citrus_handle mine = CITRUS_CLOSED_HANDLE;
        citrus_lanes lanes = CITRUS_CLOSED_LANES;
        WANT(citrus_open(&mine, KEYS, 12, waiter), CITRUS_DONE);
        WANT(citrus_open_lanes(&mine, &lanes, CITRUS_MAX_LANES), CITRUS_DONE);
        many_calls(&mine, &lanes);
        citrus_close_lanes(&lanes);
        citrus_close(&mine);
    }
    is_calling = false;
}

static void each_interrupted_call_has_its_caller(uint32_t waiter) {
    look_from_now_on();
    look_every(70);
    calls_all(waiter);
    look_every(0);
    WANT(looked > 100, 1);
    WANT(named, looked);
}

/* Inserts and removes until it hangs: a reader is in a section, and stays. While its user's wait is the latest a handle begins none for its slots,
 * and then it waits for all readers inside its call. */
static CALLER void changes_behind_a_reader(citrus_handle *mine, const atomic_bool *is_over) {
    uint64_t told = 0, cookie;
    for (uint64_t key = 0; !*is_over; key++) {
        if (citrus_begin(mine, 0, 0, &cookie) != CITRUS_DONE) abort();
        if (citrus_insert(mine, key, key) < CITRUS_DONE || citrus_remove(mine, key / 2, &told) < CITRUS_DONE) abort();
        changed++;
    }
}

struct reader {
    citrus_handle handle;
    pthread_t writer;
    bool is_to_abort;
    atomic_bool is_over;
};

/* Interrupts the writer until no change came meanwhile: then it hangs behind the section. */
static void *reads_and_stays(void *of) {
    struct reader *const me = of;
    unsigned long before, then;
    if (citrus_enter(&me->handle, 5) != CITRUS_DONE) abort();
    while (!changed) usleep(1000);
    is_calling = true;
    do {
        before = changed;
        for (then = looked; looked < then + 20; usleep(1000)) pthread_kill(me->writer, SIGALRM);
        usleep(200000);
    } while (before != changed);
    if (me->is_to_abort) abort();
    is_calling = false;
    me->is_over = true;
    if (citrus_release(&me->handle) != CITRUS_DONE) abort();
    return NULL;
}

/* The fewer slots a handle may keep back, the sooner it waits. */
enum { FEWEST = 16 };

static void hang(uint32_t waiter, bool is_to_abort) {
    const citrus_options options = citrus_options_for(100000, 2, waiter);
    citrus_handle mine = CITRUS_CLOSED_HANDLE;
    struct reader reader = {CITRUS_CLOSED_HANDLE, pthread_self(), is_to_abort, false};
    pthread_t id;
    look_from_now_on();
    changed = 0;
    WANT(citrus_open_keeping(&mine, &options, FEWEST), CITRUS_DONE);
    WANT(citrus_share(&mine, 1, citrus_fair_share(&mine, 1), &reader.handle), CITRUS_DONE);
    if (pthread_create(&id, NULL, reads_and_stays, &reader)) abort();
    changes_behind_a_reader(&mine, &reader.is_over);
    pthread_join(id, NULL);
    citrus_close(&reader.handle);
    citrus_close(&mine);
}

static void a_call_that_hangs_has_its_caller(uint32_t waiter) {
    hang(waiter, false);
    WANT(looked >= 20, 1);
    WANT(named, looked);
}

static const struct waiter_case cases[] = {
    {"backtraces: each call that is interrupted has its caller", each_interrupted_call_has_its_caller},
    {"backtraces: a call that hangs has its caller", a_call_that_hangs_has_its_caller},
};

int main(int count, char **words) {
    if (count == 2 && strcmp(words[1], "hang") == 0) hang(CITRUS_EER, true);
    run_waiter_cases(cases, COUNT_OF(cases));
    return failed_cases != 0;
}
