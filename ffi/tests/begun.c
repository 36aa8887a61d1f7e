/* Waits that are begun and asked about later: each answer of citrus_begin and citrus_poll. */
#include "cases.h"

/* Two handles of an index that has the keys 5 and 6. */
static void open_two(citrus_handle *handles, uint32_t waiter) {
    WANT(citrus_open(&handles[0], 100, 2, waiter), CITRUS_DONE);
    WANT(citrus_share(&handles[0], 1, 1000, &handles[1]), CITRUS_DONE);
    WANT(citrus_insert(&handles[0], 5, 50), CITRUS_DONE);
    WANT(citrus_insert(&handles[0], 6, 60), CITRUS_DONE);
}

/* Asks until the wait is over; a poll may have several things to look at in turn. */
static int32_t ask(citrus_handle *by, uint64_t cookie) {
    int32_t status = CITRUS_UNCHANGED;
    for (int turn = 0; turn < 1000 && status == CITRUS_UNCHANGED; turn++) status = citrus_poll(by, cookie);
    return status;
}

static void a_wait_for_nobody_is_over(uint32_t waiter) {
    static const uint64_t ranges[][2] = {{5, 5}, {0, UINT64_MAX}, {UINT64_MAX, UINT64_MAX}, {0, 0}, {1, 9}};
    citrus_handle handles[2] = {CITRUS_CLOSED_HANDLE, CITRUS_CLOSED_HANDLE};
    uint64_t cookie = UNTOUCHED, last = UNTOUCHED;
    open_two(handles, waiter);
    for (size_t i = 0; i < COUNT_OF(ranges); i++) {
        WANT(citrus_begin(&handles[0], ranges[i][0], ranges[i][1], &cookie), CITRUS_DONE);
        WANT(cookie != last, 1);
        WANT(ask(&handles[0], cookie), CITRUS_DONE);
        WANT(citrus_poll(&handles[0], cookie), CITRUS_MOVED);
        last = cookie;
    }
    citrus_close(&handles[0]);
    citrus_close(&handles[1]);
}

static void a_wait_is_over_when_its_section_is_left(uint32_t waiter) {
    citrus_handle handles[2] = {CITRUS_CLOSED_HANDLE, CITRUS_CLOSED_HANDLE};
    citrus_pair pairs[2];
    uint64_t told = UNTOUCHED, cookie = UNTOUCHED, next = 0;
    size_t count = 0;
    open_two(handles, waiter);
    WANT(citrus_hold(&handles[1], 5, &told), CITRUS_DONE);
    WANT(citrus_begin(&handles[0], 5, 5, &cookie), CITRUS_DONE);
    WANT(ask(&handles[0], cookie), CITRUS_UNCHANGED);
    WANT(citrus_poll(&handles[0], cookie + 1), CITRUS_MOVED);
    WANT(ask(&handles[0], cookie), CITRUS_UNCHANGED);
    WANT(citrus_get(&handles[0], 5, &told), CITRUS_DONE);
    WANT(citrus_replace(&handles[0], 5, 51, &told), CITRUS_DONE);
    WANT(citrus_list(&handles[0], 0, 9, pairs, 2, &count, &next), CITRUS_DONE);
    WANT(citrus_poll(&handles[0], cookie), CITRUS_UNCHANGED);
    WANT(citrus_release(&handles[1]), CITRUS_DONE);
    WANT(ask(&handles[0], cookie), CITRUS_DONE);
    WANT(citrus_poll(&handles[0], cookie), CITRUS_MOVED);
    citrus_close(&handles[0]);
    citrus_close(&handles[1]);
}

static void a_section_with_another_key_holds_no_wait_up(uint32_t waiter) {
    citrus_handle handles[2] = {CITRUS_CLOSED_HANDLE, CITRUS_CLOSED_HANDLE};
    uint64_t cookie = UNTOUCHED;
    open_two(handles, waiter);
    WANT(citrus_enter(&handles[1], 5), CITRUS_DONE);
    WANT(citrus_begin(&handles[0], 0, 4, &cookie), CITRUS_DONE);
    WANT(ask(&handles[0], cookie), CITRUS_DONE);
    WANT(citrus_begin(&handles[0], 6, 9, &cookie), CITRUS_DONE);
    WANT(ask(&handles[0], cookie), CITRUS_DONE);
    WANT(citrus_begin(&handles[0], 4, 6, &cookie), CITRUS_DONE);
    WANT(ask(&handles[0], cookie), CITRUS_UNCHANGED);
    citrus_close(&handles[1]);
    WANT(ask(&handles[0], cookie), CITRUS_DONE);
    citrus_close(&handles[0]);
}

static void a_later_wait_takes_the_place_of_the_first(uint32_t waiter) {
    citrus_handle handles[2] = {CITRUS_CLOSED_HANDLE, CITRUS_CLOSED_HANDLE};
    uint64_t first = UNTOUCHED, second = UNTOUCHED;
    open_two(handles, waiter);
    WANT(citrus_poll(&handles[0], 0), CITRUS_MOVED);
    WANT(citrus_begin(&handles[0], 5, 5, &first), CITRUS_DONE);
    WANT(citrus_begin(&handles[0], 6, 6, &second), CITRUS_DONE);
    WANT(citrus_poll(&handles[0], first), CITRUS_MOVED);
    WANT(ask(&handles[0], second), CITRUS_DONE);
    WANT(citrus_begin(&handles[0], 5, 5, &first), CITRUS_DONE);
    WANT(citrus_wait(&handles[0], 1, 1), CITRUS_DONE);
    WANT(citrus_poll(&handles[0], first), CITRUS_MOVED);
    WANT(citrus_begin(&handles[0], 5, 5, &first), CITRUS_DONE);
    WANT(citrus_poll(&handles[1], first), CITRUS_MOVED);
    WANT(ask(&handles[0], first), CITRUS_DONE);
    citrus_close(&handles[0]);
    citrus_close(&handles[1]);
}

static void a_handle_in_a_section_asks_later(uint32_t waiter) {
    citrus_handle handles[2] = {CITRUS_CLOSED_HANDLE, CITRUS_CLOSED_HANDLE};
    uint64_t cookie = UNTOUCHED, none = UNTOUCHED;
    open_two(handles, waiter);
    WANT(citrus_begin(&handles[0], 5, 5, &cookie), CITRUS_DONE);
    WANT(citrus_enter(&handles[0], 5), CITRUS_DONE);
    WANT(citrus_poll(&handles[0], cookie), CITRUS_HOLDS);
    WANT(citrus_begin(&handles[0], 5, 5, &none), CITRUS_HOLDS);
    WANT(citrus_begin(&handles[0], 6, 5, &none), CITRUS_HOLDS);
    WANT(none, UNTOUCHED);
    WANT(citrus_release(&handles[0]), CITRUS_DONE);
    WANT(ask(&handles[0], cookie), CITRUS_DONE);
    citrus_close(&handles[0]);
    citrus_close(&handles[1]);
}

static void tickets_of_begun_waits(uint32_t waiter) {
    citrus_handle handles[2] = {CITRUS_CLOSED_HANDLE, CITRUS_CLOSED_HANDLE};
    uint64_t cookie = UNTOUCHED, none = UNTOUCHED, tickets = 0;
    uint32_t left = 0;
    WANT(citrus_open(&handles[0], 10, 2, waiter), CITRUS_DONE);
    WANT(citrus_share(&handles[0], 1, 1, &handles[1]), CITRUS_DONE);
    WANT(citrus_begin(&handles[1], 2, 1, &none), CITRUS_BAD_ARGUMENT);
    WANT(citrus_begin(&handles[1], 1, 2, &cookie), CITRUS_DONE);
    WANT(citrus_begin(&handles[1], 1, 2, &none), CITRUS_SPENT);
    WANT(citrus_begin(&handles[1], 2, 1, &none), CITRUS_BAD_ARGUMENT);
    WANT(none, UNTOUCHED);
    WANT(ask(&handles[1], cookie), CITRUS_DONE);
    WANT(citrus_left(&handles[1], &left, &tickets), CITRUS_DONE);
    WANT(tickets, 0);
    citrus_close(&handles[0]);
    citrus_close(&handles[1]);
}

static const struct waiter_case cases[] = {
    {"a wait for nobody is over", a_wait_for_nobody_is_over},
    {"a wait is over when its section is left", a_wait_is_over_when_its_section_is_left},
    {"a section with another key holds no wait up", a_section_with_another_key_holds_no_wait_up},
    {"a later wait takes the place of the first", a_later_wait_takes_the_place_of_the_first},
    {"a handle in a section asks later", a_handle_in_a_section_asks_later},
    {"tickets of begun waits", tickets_of_begun_waits},
};

int main(void) {
    run_waiter_cases(cases, COUNT_OF(cases));
    return failed_cases != 0;
}
