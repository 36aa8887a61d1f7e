/* Memory: each allocation fails in turn, and what was taken is given back. It is linked with --wrap for malloc, realloc and free, so that
 * the library's calls come here. */
#include "crew.h"

void *__real_malloc(size_t bytes);
void *__real_realloc(void *at, size_t bytes);
void __real_free(void *at);

/* How many allocations go well before one fails, if one is to fail; how large a block may be; how large the largest was that was asked for;
 * and how many blocks are held. */
static _Atomic int64_t until_failure = INT64_MAX;
static _Atomic size_t most_bytes = SIZE_MAX, bytes_asked;
static _Atomic int64_t held;

static int is_refused(size_t bytes) {
    if (bytes > bytes_asked) bytes_asked = bytes;
    return --until_failure < 0 || bytes > most_bytes;
}

void *__wrap_malloc(size_t bytes) {
    void *at = is_refused(bytes) ? NULL : __real_malloc(bytes);
    held += at != NULL;
    return at;
}

void *__wrap_realloc(void *at, size_t bytes) {
    void *moved = is_refused(bytes) ? NULL : __real_realloc(at, bytes);
    held += at == NULL && moved != NULL;
    return moved;
}

void __wrap_free(void *at) {
    held -= at != NULL;
    __real_free(at);
}

/* Lets each allocation of a call fail in turn, until it has all that it asks for: `call` returns its status. */
static void fail_each(int32_t (*call)(void), int64_t fewest) {
    int64_t failed = 0;
    const int64_t before = held;
    for (;; failed++) {
        until_failure = failed;
        const int32_t status = call();
        until_failure = INT64_MAX;
        if (status == CITRUS_DONE || wrong_here) break;
        WANT(status, CITRUS_NO_MEMORY);
        WANT(held, before);
    }
    WANT(failed >= fewest, 1);
}

static citrus_handle index_here = CITRUS_CLOSED_HANDLE, other_here = CITRUS_CLOSED_HANDLE;
static uint32_t waiter_here;

static int32_t open_it(void) { return citrus_open(&index_here, 100, 4, waiter_here); }
static int32_t share_it(void) { return citrus_share(&index_here, 1, 100, &other_here); }
static int32_t reopen_it(void) { return citrus_reopen(&index_here, &other_here); }

static int32_t list_it(void) {
    citrus_pair pairs[50];
    size_t count = 9;
    uint64_t next = UNTOUCHED;
    const int32_t status = citrus_list(&index_here, 0, 9, pairs, 50, &count, &next);
    WANT(count, status == CITRUS_DONE ? 2 : 0);
    WANT(next, UNTOUCHED);
    return status;
}

static int32_t tidy_it(void) {
    uint32_t made = 9;
    uint64_t next = UNTOUCHED;
    const int32_t status = citrus_tidy(&index_here, 0, 9, 10, &made, &next);
    WANT(made <= (status == CITRUS_DONE), 1);
    WANT(next, UNTOUCHED);
    return status;
}

static void each_allocation_fails(uint32_t waiter) {
    const int64_t before = held;
    uint64_t told = 0;
    uint32_t handles = 0;
    waiter_here = waiter;
    fail_each(open_it, 1);
    WANT(citrus_insert(&index_here, 1, 10), CITRUS_DONE);
    WANT(citrus_insert(&index_here, 5, 50), CITRUS_DONE);
    until_failure = 0;
    WANT(citrus_open(&index_here, 100, 4, waiter), CITRUS_NO_MEMORY);
    until_failure = INT64_MAX;
    fail_each(list_it, 1);
    fail_each(tidy_it, 1);
    fail_each(share_it, 1);
    WANT(citrus_left(&index_here, &handles, &told), CITRUS_DONE);
    WANT(handles, 2);
    WANT(told, CITRUS_ALL_TICKETS - 100 - 8 <= told ? told : 0);
    WANT(citrus_get(&other_here, 5, &told), CITRUS_DONE);
    WANT(told, 50);
    citrus_close(&other_here);
    fail_each(reopen_it, 1);
    WANT(list_it(), CITRUS_DONE);
    WANT(citrus_left(&other_here, &handles, &told), CITRUS_DONE);
    WANT(told, 100);
    citrus_close(&other_here);
    citrus_close(&index_here);
    WANT(held, before);
}

enum { KEEP = 4096 };

static citrus_lanes lanes_here = CITRUS_CLOSED_LANES;

static int32_t open_keeping_it(void) {
    const citrus_options options = citrus_options_for(100, 4, waiter_here);
    return citrus_open_keeping(&index_here, &options, KEEP);
}

static int32_t open_lanes_it(void) { return citrus_open_lanes(&index_here, &lanes_here, 2); }

/* How many bytes the largest block has that the call asks for. */
static size_t largest_of(int32_t (*call)(void)) {
    bytes_asked = 0;
    WANT(call(), CITRUS_DONE);
    return bytes_asked;
}

/* A share and lanes ask for 8 bytes for each slot that a handle may keep back; a reopen has what was asked for then, and a remove asks for none. */
static void each_handle_has_room_for_what_it_may_keep_back(uint32_t waiter) {
    const int64_t before = held;
    uint64_t told = 0;
    waiter_here = waiter;
    fail_each(open_keeping_it, 2);
    fail_each(share_it, 2);
    citrus_close(&other_here);
    fail_each(reopen_it, 1);
    citrus_close(&other_here);
    WANT(largest_of(reopen_it) < KEEP, 1);
    fail_each(open_lanes_it, 3);
    citrus_close_lanes(&lanes_here);
    citrus_close(&other_here);
    citrus_close(&index_here);
    WANT(open_keeping_it(), CITRUS_DONE);
    WANT(largest_of(share_it) / KEEP, 8);
    WANT(largest_of(open_lanes_it) / KEEP, 8);
    until_failure = 0;
    for (uint64_t i = 0; i < 3 * KEEP && !wrong_here; i++) {
        WANT(citrus_insert(&index_here, i % 90, i), CITRUS_DONE);
        WANT(citrus_remove(&index_here, i % 90, &told), CITRUS_DONE);
    }
    WANT(until_failure, 0);
    until_failure = INT64_MAX;
    citrus_close_lanes(&lanes_here);
    citrus_close(&other_here);
    citrus_close(&index_here);
    WANT(held, before);
}

/* What the index of the most pairs asks for, 72 bytes for each, is more than most machines have. Here it isn't given, so that none tries. */
static void the_largest_index_asks_for_its_memory(uint32_t waiter) {
    const int64_t before = held;
    bytes_asked = 0;
    most_bytes = 1 << 30;
    WANT(citrus_open(&index_here, CITRUS_MAX_PAIRS, CITRUS_MAX_HANDLES, waiter), CITRUS_NO_MEMORY);
    WANT(bytes_asked / CITRUS_MAX_PAIRS, 72);
    WANT(citrus_open(&index_here, CITRUS_MAX_PAIRS + 1, 1, waiter), CITRUS_BAD_ARGUMENT);
    most_bytes = SIZE_MAX;
    WANT(index_here.at == NULL, 1);
    WANT(held, before);
}

static void updates_firsts_and_sections_take_no_memory(uint32_t waiter) {
    uint64_t told = 0, key = 0, cookie = 0;
    WANT(citrus_open(&index_here, 100, 1, waiter), CITRUS_DONE);
    until_failure = 0;
    for (uint64_t i = 0; i < 1000; i++) {
        WANT(citrus_insert(&index_here, i % 90, i), CITRUS_DONE);
        WANT(citrus_replace(&index_here, i % 90, i + 1, &told), CITRUS_DONE);
        WANT(citrus_compare(&index_here, i % 90, i + 1, i + 2, &told), CITRUS_DONE);
        WANT(citrus_compare(&index_here, i % 90, i + 1, i, &told), CITRUS_DIFFERENT);
        WANT(citrus_first(&index_here, i % 90, &key, &told), CITRUS_DONE);
        WANT(citrus_last(&index_here, 0, i % 90, &key, &told), CITRUS_DONE);
        WANT(citrus_remove(&index_here, i % 90, &told), CITRUS_DONE);
        WANT(citrus_upsert(&index_here, i % 90, i, &told), CITRUS_NEW);
        WANT(citrus_get(&index_here, i % 90, &told), CITRUS_DONE);
        WANT(citrus_hold(&index_here, i % 90, &told), CITRUS_DONE);
        WANT(citrus_release(&index_here), CITRUS_DONE);
        WANT(citrus_wait(&index_here, 0, UINT64_MAX), CITRUS_DONE);
        WANT(citrus_begin(&index_here, 0, i, &cookie), CITRUS_DONE);
        while (citrus_poll(&index_here, cookie) == CITRUS_UNCHANGED) {}
        if (i >= 5) WANT(citrus_remove(&index_here, (i - 5) % 90, &told), CITRUS_DONE);
    }
    WANT(until_failure, 0);
    until_failure = INT64_MAX;
    citrus_close(&index_here);
}

/* Thread i opens an index of its own, shares handles, and drops them in an order of its own. */
static void *drop_handles(void *member) {
    struct member *me = member;
    uint64_t state = 1234567 + me->number;
    citrus_handle handles[8] = {CITRUS_CLOSED_HANDLE};
    uint64_t told = 0;
    for (int round = 0; round < 200; round++) {
        member_wants(me, "an open", 0, citrus_open(&handles[0], 20, 8, draw(&state) % 3), CITRUS_DONE);
        for (uint64_t i = 1; i < 8; i++) member_wants(me, "a share", i, citrus_share(&handles[0], 1, 1000, &handles[i]), CITRUS_DONE);
        for (uint64_t i = 0; i < 8; i++) member_wants(me, "an insert", i, citrus_insert(&handles[i], i, i), CITRUS_DONE);
        for (uint64_t i = 1; i < 8; i += 2) {
            citrus_close(&handles[i]);
            member_wants(me, "a reopen", i, citrus_reopen(&handles[0], &handles[i]), CITRUS_DONE);
        }
        for (uint64_t gone = draw(&state) % 8, left = 8; left; left--, gone = (gone + 3) % 8) {
            member_wants(me, "a remove", gone, citrus_remove(&handles[gone], gone, &told), CITRUS_DONE);
            citrus_close(&handles[gone]);
        }
    }
    return NULL;
}

/* What run_crew itself and the threads take of memory is made before, and given back, as well. */
static void dropped_handles_leave_nothing(void) {
    const int64_t before = held;
    run_crew(4, 1, 20, CITRUS_EER, drop_handles, NULL);
    WANT(held, before);
}

enum { HANDLES_EACH = 16, OWN_KEYS = 500 };

/* A thread that shares one handle after the other from its own, puts keys in with the new one and takes them out with its own, and closes
 * it. */
static void *close_one_after_the_other(void *member) {
    struct member *me = member;
    uint64_t told = 0;
    for (uint64_t round = 1; round < HANDLES_EACH; round++) {
        citrus_handle other = CITRUS_CLOSED_HANDLE;
        member_wants(me, "a share", round, citrus_share(&me->handle, 1, 100000, &other), CITRUS_DONE);
        for (uint64_t i = 0; i < OWN_KEYS; i++) {
            const uint64_t key = i * 7919 % OWN_KEYS * me->of + me->number;
            member_wants(me, "an insert of", key, citrus_insert(&other, key, round), CITRUS_DONE);
            if (i % 3 == 0) member_wants(me, "a remove of", key, citrus_remove(&other, key, &told), CITRUS_DONE);
        }
        citrus_close(&other);
        for (uint64_t i = 0; i < OWN_KEYS; i++) {
            const uint64_t key = i * 7919 % OWN_KEYS * me->of + me->number;
            const int32_t wanted = i % 3 == 0 ? CITRUS_UNCHANGED : CITRUS_DONE;
            member_wants(me, "a remove of", key, citrus_remove(&me->handle, key, &told), wanted);
        }
    }
    return NULL;
}

/* A handle that is closed holds nobody up: the updates of others go on. */
static void handles_are_closed_beside_updates(uint32_t waiter) {
    const int64_t before = held;
    run_crew(4, HANDLES_EACH, 4 * OWN_KEYS, waiter, close_one_after_the_other, NULL);
    WANT(held, before);
}

static const struct waiter_case waiter_cases[] = {
    {"each allocation fails in turn", each_allocation_fails},
    {"each handle has room for what it may keep back", each_handle_has_room_for_what_it_may_keep_back},
    {"the largest index asks for its memory", the_largest_index_asks_for_its_memory},
    {"updates, firsts and sections take no memory", updates_firsts_and_sections_take_no_memory},
    {"handles are closed beside updates", handles_are_closed_beside_updates},
};

static const struct plain_case plain_cases[] = {{"dropped handles leave nothing", dropped_handles_leave_nothing}};

int main(void) {
    run_waiter_cases(waiter_cases, COUNT_OF(waiter_cases));
    run_plain_cases(plain_cases, COUNT_OF(plain_cases));
    return failed_cases != 0;
}
