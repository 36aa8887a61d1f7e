/* Sections that stay open: each answer of citrus_hold, enter, release and wait, and what other calls answer meanwhile. */
#include "crew.h"
#include <time.h>

/* An index with one handle more than these, which the first can share, and the keys 1 to 9 with ten times their key. */
static void open_handles(citrus_handle *handles, uint32_t count, uint32_t waiter) {
    WANT(citrus_open(&handles[0], 100, count + 1, waiter), CITRUS_DONE);
    for (uint32_t i = 1; i < count; i++) WANT(citrus_share(&handles[0], 1, 1000, &handles[i]), CITRUS_DONE);
    for (uint64_t key = 1; key <= 9; key++) WANT(citrus_insert(&handles[0], key, 10 * key), CITRUS_DONE);
}

static void close_handles(citrus_handle *handles, uint32_t count) {
    for (uint32_t i = 0; i < count; i++) citrus_close(&handles[i]);
}

static void a_value_is_held_and_released(uint32_t waiter) {
    citrus_handle mine = CITRUS_CLOSED_HANDLE;
    uint64_t told = UNTOUCHED;
    open_handles(&mine, 1, waiter);
    for (int turn = 0; turn < 3; turn++) {
        WANT(citrus_hold(&mine, 5, &told), CITRUS_DONE);
        WANT(told, 50);
        WANT(citrus_release(&mine), CITRUS_DONE);
        WANT(citrus_release(&mine), CITRUS_UNCHANGED);
        WANT(citrus_enter(&mine, 5), CITRUS_DONE);
        WANT(citrus_release(&mine), CITRUS_DONE);
    }
    WANT(citrus_remove(&mine, 5, &told), CITRUS_DONE);
    citrus_close(&mine);
}

static void an_absent_key_isnt_held(uint32_t waiter) {
    citrus_handle mine = CITRUS_CLOSED_HANDLE;
    uint64_t told = UNTOUCHED;
    open_handles(&mine, 1, waiter);
    WANT(citrus_hold(&mine, 0, &told), CITRUS_UNCHANGED);
    WANT(citrus_hold(&mine, 10, &told), CITRUS_UNCHANGED);
    WANT(citrus_hold(&mine, UINT64_MAX, &told), CITRUS_UNCHANGED);
    WANT(told, UNTOUCHED);
    WANT(citrus_release(&mine), CITRUS_UNCHANGED);
    WANT(citrus_get(&mine, 5, &told), CITRUS_DONE);
    citrus_close(&mine);
}

static void keys_at_their_ends_are_held(uint32_t waiter) {
    static const uint64_t ends[] = {0, UINT64_MAX};
    citrus_handle mine = CITRUS_CLOSED_HANDLE;
    uint64_t told = UNTOUCHED;
    WANT(citrus_open(&mine, 2, 1, waiter), CITRUS_DONE);
    for (size_t i = 0; i < COUNT_OF(ends); i++) {
        WANT(citrus_insert(&mine, ends[i], ~ends[i]), CITRUS_DONE);
        WANT(citrus_hold(&mine, ends[i], &told), CITRUS_DONE);
        WANT(told, ~ends[i]);
        WANT(citrus_release(&mine), CITRUS_DONE);
        WANT(citrus_enter(&mine, ends[i]), CITRUS_DONE);
        WANT(citrus_release(&mine), CITRUS_DONE);
        WANT(citrus_wait(&mine, ends[i], ends[i]), CITRUS_DONE);
    }
    WANT(citrus_wait(&mine, 0, UINT64_MAX), CITRUS_DONE);
    citrus_close(&mine);
}

/* What each call of this handle, which is in a section, answers. */
static void each_call_says_so(citrus_handle *inside) {
    citrus_handle other = CITRUS_CLOSED_HANDLE;
    citrus_pair pair = {UNTOUCHED, UNTOUCHED};
    uint64_t told = UNTOUCHED, key = UNTOUCHED;
    size_t count = 9;
    uint32_t made = 9;
    WANT(citrus_hold(inside, 5, &told), CITRUS_HOLDS);
    WANT(citrus_hold(inside, 100, &told), CITRUS_HOLDS);
    WANT(citrus_enter(inside, 5), CITRUS_HOLDS);
    WANT(citrus_get(inside, 5, &told), CITRUS_HOLDS);
    WANT(citrus_insert(inside, 100, 1), CITRUS_HOLDS);
    WANT(citrus_replace(inside, 5, 1, &told), CITRUS_HOLDS);
    WANT(citrus_compare(inside, 5, 50, 1, &told), CITRUS_HOLDS);
    WANT(citrus_compare(inside, 5, 0, 1, &told), CITRUS_HOLDS);
    WANT(citrus_compare(inside, 100, 0, 1, &told), CITRUS_HOLDS);
    WANT(citrus_upsert(inside, 5, 1, &told), CITRUS_HOLDS);
    WANT(citrus_upsert(inside, 100, 1, &told), CITRUS_HOLDS);
    WANT(citrus_remove(inside, 5, &told), CITRUS_HOLDS);
    WANT(citrus_take(inside, 5, 50, &told), CITRUS_HOLDS);
    WANT(citrus_take(inside, 5, 0, &told), CITRUS_HOLDS);
    WANT(citrus_wait(inside, 0, UINT64_MAX), CITRUS_HOLDS);
    WANT(citrus_list(inside, 0, 9, &pair, 1, &count, &key), CITRUS_HOLDS);
    WANT(citrus_list_down(inside, 0, 9, &pair, 1, &count, &key), CITRUS_HOLDS);
    WANT(count, 0);
    WANT(citrus_first(inside, 0, &key, &told), CITRUS_HOLDS);
    WANT(citrus_last(inside, 0, 9, &key, &told), CITRUS_HOLDS);
    WANT(citrus_tidy(inside, 0, 9, 1, &made, &key), CITRUS_HOLDS);
    WANT(made, 0);
    WANT(citrus_share(inside, 1, 1, &other), CITRUS_HOLDS);
    WANT(citrus_reopen(inside, &other), CITRUS_HOLDS);
    WANT(told, UNTOUCHED);
    WANT(key, UNTOUCHED);
    WANT(pair.key, UNTOUCHED);
    WANT(other.at == NULL, 1);
}

/* A section is told before what is wrong with the call's words. */
static void wrong_words_are_told_later(citrus_handle *inside, citrus_handle *open) {
    citrus_pair pair = {UNTOUCHED, UNTOUCHED};
    uint64_t key = UNTOUCHED;
    size_t count = 9;
    uint32_t made = 9;
    WANT(citrus_wait(inside, 2, 1), CITRUS_HOLDS);
    WANT(citrus_tidy(inside, 2, 1, 0, &made, &key), CITRUS_HOLDS);
    WANT(citrus_list(inside, 9, 0, &pair, 0, &count, &key), CITRUS_HOLDS);
    WANT(citrus_share(inside, 100, 1, open), CITRUS_HOLDS);
    WANT(citrus_reopen(inside, open), CITRUS_HOLDS);
}

static void a_handle_in_a_section_does_nothing_else(uint32_t waiter) {
    citrus_handle handles[3] = {CITRUS_CLOSED_HANDLE, CITRUS_CLOSED_HANDLE, CITRUS_CLOSED_HANDLE};
    uint64_t told = UNTOUCHED, tickets = 0, before = 0;
    uint32_t left = 77;
    open_handles(handles, 3, waiter);
    citrus_close(&handles[2]);
    WANT(citrus_left(&handles[0], &left, &before), CITRUS_DONE);
    for (int turn = 0; turn < 2; turn++) {
        WANT(turn ? citrus_enter(&handles[0], 5) : citrus_hold(&handles[0], 5, &told), CITRUS_DONE);
        each_call_says_so(&handles[0]);
        wrong_words_are_told_later(&handles[0], &handles[1]);
        WANT(citrus_left(&handles[0], &left, &tickets), CITRUS_DONE);
        WANT(left, 1);
        WANT(tickets, before);
        WANT(citrus_release(&handles[0]), CITRUS_DONE);
    }
    WANT(citrus_get(&handles[0], 5, &told), CITRUS_DONE);
    WANT(told, 50);
    WANT(citrus_get(&handles[1], 100, &told), CITRUS_UNCHANGED);
    WANT(citrus_reopen(&handles[0], &handles[2]), CITRUS_DONE);
    close_handles(handles, 3);
}

static void others_go_on_beside_a_section(uint32_t waiter) {
    citrus_handle handles[2] = {CITRUS_CLOSED_HANDLE, CITRUS_CLOSED_HANDLE};
    citrus_pair pairs[9];
    uint64_t told = UNTOUCHED, next = 0;
    size_t count = 0;
    open_handles(handles, 2, waiter);
    WANT(citrus_hold(&handles[0], 5, &told), CITRUS_DONE);
    WANT(citrus_hold(&handles[1], 5, &told), CITRUS_DONE);
    WANT(citrus_release(&handles[1]), CITRUS_DONE);
    WANT(citrus_get(&handles[1], 5, &told), CITRUS_DONE);
    WANT(citrus_list(&handles[1], 0, 9, pairs, 9, &count, &next), CITRUS_DONE);
    WANT(count, 9);
    WANT(citrus_last(&handles[1], 0, 5, &next, &told), CITRUS_DONE);
    WANT(next, 5);
    WANT(citrus_compare(&handles[1], 5, 50, 51, &told), CITRUS_DONE);
    WANT(told, 50);
    WANT(citrus_replace(&handles[1], 5, 50, &told), CITRUS_DONE);
    WANT(told, 51);
    WANT(citrus_replace(&handles[1], 5, 51, &told), CITRUS_DONE);
    WANT(told, 50);
    WANT(citrus_wait(&handles[1], 6, 9), CITRUS_DONE);
    WANT(citrus_wait(&handles[1], 0, 4), CITRUS_DONE);
    WANT(citrus_release(&handles[0]), CITRUS_DONE);
    WANT(citrus_wait(&handles[1], 0, UINT64_MAX), CITRUS_DONE);
    WANT(citrus_hold(&handles[0], 5, &told), CITRUS_DONE);
    WANT(told, 51);
    close_handles(handles, 2);
}

/* Each leaves the section, and so a wait for its key ends. */
static void what_closes_a_handle_leaves_its_section(uint32_t waiter) {
    citrus_handle handles[3] = {CITRUS_CLOSED_HANDLE, CITRUS_CLOSED_HANDLE, CITRUS_CLOSED_HANDLE};
    uint64_t told = UNTOUCHED;
    open_handles(handles, 3, waiter);
    WANT(citrus_hold(&handles[2], 5, &told), CITRUS_DONE);
    WANT(citrus_share(&handles[0], 2, 10, &handles[2]), CITRUS_BAD_ARGUMENT);
    WANT(citrus_release(&handles[2]), CITRUS_DONE);
    WANT(citrus_enter(&handles[2], 5), CITRUS_DONE);
    WANT(citrus_share(&handles[0], 1, 10, &handles[2]), CITRUS_DONE);
    WANT(citrus_wait(&handles[1], 5, 5), CITRUS_DONE);
    WANT(citrus_release(&handles[2]), CITRUS_UNCHANGED);
    WANT(citrus_hold(&handles[0], 5, &told), CITRUS_DONE);
    citrus_close(&handles[0]);
    WANT(citrus_wait(&handles[1], 5, 5), CITRUS_DONE);
    WANT(citrus_reopen(&handles[1], &handles[0]), CITRUS_DONE);
    WANT(citrus_release(&handles[0]), CITRUS_UNCHANGED);
    WANT(citrus_enter(&handles[0], 5), CITRUS_DONE);
    WANT(citrus_open(&handles[0], 5, 1, waiter), CITRUS_DONE);
    WANT(citrus_wait(&handles[1], 5, 5), CITRUS_DONE);
    WANT(citrus_release(&handles[0]), CITRUS_UNCHANGED);
    close_handles(handles, 3);
}

/* A wait uses a ticket; a hold needs none. */
static void tickets_of_waits(uint32_t waiter) {
    citrus_handle handles[2] = {CITRUS_CLOSED_HANDLE, CITRUS_CLOSED_HANDLE};
    uint64_t told = UNTOUCHED, tickets = 0;
    uint32_t left = 0;
    open_handles(handles, 1, waiter);
    citrus_close(&handles[0]);
    WANT(citrus_open(&handles[0], 10, 2, waiter), CITRUS_DONE);
    WANT(citrus_insert(&handles[0], 5, 50), CITRUS_DONE);
    WANT(citrus_share(&handles[0], 1, 2, &handles[1]), CITRUS_DONE);
    for (uint64_t before = 2; before >= 1; before--) {
        WANT(citrus_wait(&handles[1], 2, 1), CITRUS_BAD_ARGUMENT);
        WANT(citrus_left(&handles[1], &left, &tickets), CITRUS_DONE);
        WANT(tickets, before);
        WANT(citrus_wait(&handles[1], 1, 1), CITRUS_DONE);
    }
    WANT(citrus_wait(&handles[1], 1, 1), CITRUS_SPENT);
    WANT(citrus_wait(&handles[1], 2, 1), CITRUS_BAD_ARGUMENT);
    WANT(citrus_hold(&handles[1], 5, &told), CITRUS_DONE);
    WANT(told, 50);
    WANT(citrus_wait(&handles[1], 1, 1), CITRUS_HOLDS);
    WANT(citrus_release(&handles[1]), CITRUS_DONE);
    WANT(citrus_enter(&handles[1], 5), CITRUS_DONE);
    WANT(citrus_release(&handles[1]), CITRUS_DONE);
    WANT(citrus_left(&handles[1], &left, &tickets), CITRUS_DONE);
    WANT(tickets, 0);
    close_handles(handles, 2);
}

/* A thread waits, and says when it has. */
struct waiting {
    citrus_handle handle;
    uint64_t low, high;
    int32_t status;
    _Atomic int is_over;
};

static void *wait_for_keys(void *at) {
    struct waiting *waiting = at;
    waiting->status = citrus_wait(&waiting->handle, waiting->low, waiting->high);
    waiting->is_over = 1;
    return NULL;
}

/* Whether a wait for these keys lasts until this section is left. A wait that doesn't has this long to show it. */
static void lasts_until_release(citrus_handle *inside, struct waiting *waiting) {
    const struct timespec a_while = {0, 10000000};
    pthread_t id;
    waiting->is_over = 0;
    if (pthread_create(&id, NULL, wait_for_keys, waiting)) abort();
    nanosleep(&a_while, NULL);
    WANT(waiting->is_over, 0);
    WANT(citrus_release(inside), CITRUS_DONE);
    pthread_join(id, NULL);
    WANT(waiting->status, CITRUS_DONE);
}

static void a_wait_lasts_until_its_sections_are_left(uint32_t waiter) {
    static const uint64_t ranges[][2] = {{5, 5}, {4, 5}, {5, 6}, {0, UINT64_MAX}, {1, 64}};
    citrus_handle handles[2] = {CITRUS_CLOSED_HANDLE, CITRUS_CLOSED_HANDLE};
    uint64_t told = UNTOUCHED;
    open_handles(handles, 2, waiter);
    struct waiting waiting = {.handle = handles[1]};
    handles[1] = citrus_closed_handle();
    for (size_t i = 0; i < COUNT_OF(ranges); i++) {
        waiting.low = ranges[i][0];
        waiting.high = ranges[i][1];
        WANT(i % 2 ? citrus_enter(&handles[0], 5) : citrus_hold(&handles[0], 5, &told), CITRUS_DONE);
        lasts_until_release(&handles[0], &waiting);
    }
    citrus_close(&waiting.handle);
    citrus_close(&handles[0]);
}

static double seconds_of(clockid_t clock) {
    struct timespec now;
    clock_gettime(clock, &now);
    return (double)now.tv_sec + (double)now.tv_nsec / 1e9;
}

/* A wait for a while, with the processor's time that it took its thread, and all the time. */
struct long_wait {
    citrus_handle handle;
    int32_t status;
    double processor, all;
    _Atomic int is_begun;
};

static void *wait_and_measure(void *at) {
    struct long_wait *wait = at;
    const double processor = seconds_of(CLOCK_THREAD_CPUTIME_ID), all = seconds_of(CLOCK_MONOTONIC);
    wait->is_begun = 1;
    wait->status = citrus_wait(&wait->handle, 5, 5);
    wait->processor = seconds_of(CLOCK_THREAD_CPUTIME_ID) - processor;
    wait->all = seconds_of(CLOCK_MONOTONIC) - all;
    return NULL;
}

/* It yields the processor, and then sleeps. */
static void a_long_wait_leaves_the_processor_to_others(uint32_t waiter) {
    const struct timespec long_time = {0, 300000000};
    citrus_handle handles[2] = {CITRUS_CLOSED_HANDLE, CITRUS_CLOSED_HANDLE};
    struct long_wait wait = {.status = CITRUS_LOST};
    uint64_t told = UNTOUCHED;
    pthread_t id;
    open_handles(handles, 2, waiter);
    wait.handle = handles[1];
    WANT(citrus_hold(&handles[0], 5, &told), CITRUS_DONE);
    if (pthread_create(&id, NULL, wait_and_measure, &wait)) abort();
    while (!wait.is_begun) continue;
    nanosleep(&long_time, NULL);
    WANT(citrus_release(&handles[0]), CITRUS_DONE);
    pthread_join(id, NULL);
    WANT(wait.status, CITRUS_DONE);
    WANT(wait.processor < wait.all / 2, 1);
    citrus_close(&wait.handle);
    citrus_close(&handles[0]);
}

static const struct waiter_case cases[] = {
    {"a value is held and released", a_value_is_held_and_released},
    {"an absent key isn't held", an_absent_key_isnt_held},
    {"keys at their ends are held", keys_at_their_ends_are_held},
    {"a handle in a section does nothing else", a_handle_in_a_section_does_nothing_else},
    {"others go on beside a section", others_go_on_beside_a_section},
    {"what closes a handle leaves its section", what_closes_a_handle_leaves_its_section},
    {"tickets of waits", tickets_of_waits},
    {"a wait lasts until its sections are left", a_wait_lasts_until_its_sections_are_left},
    {"a long wait leaves the processor to others", a_long_wait_leaves_the_processor_to_others},
};

int main(void) {
    run_waiter_cases(cases, COUNT_OF(cases));
    return failed_cases != 0;
}
