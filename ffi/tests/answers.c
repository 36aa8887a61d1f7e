/* Each answer of each call, in one thread. */
#include "cases.h"
#include <string.h>
#include <time.h>

static citrus_handle open_index(uint32_t pairs, uint32_t handles, uint32_t waiter) {
    citrus_handle index = CITRUS_CLOSED_HANDLE;
    WANT(citrus_open(&index, pairs, handles, waiter), CITRUS_DONE);
    return index;
}

static void an_absent_key(uint32_t waiter) {
    citrus_handle index = open_index(10, 1, waiter);
    uint64_t told = UNTOUCHED, key = UNTOUCHED;
    WANT(citrus_get(&index, 1, &told), CITRUS_UNCHANGED);
    WANT(citrus_replace(&index, 1, 10, &told), CITRUS_UNCHANGED);
    WANT(citrus_compare(&index, 1, 0, 10, &told), CITRUS_UNCHANGED);
    WANT(citrus_remove(&index, 1, &told), CITRUS_UNCHANGED);
    WANT(citrus_take(&index, 1, 0, &told), CITRUS_UNCHANGED);
    WANT(citrus_first(&index, 0, &key, &told), CITRUS_UNCHANGED);
    WANT(citrus_last(&index, 0, UINT64_MAX, &key, &told), CITRUS_UNCHANGED);
    WANT(citrus_get(&index, 1, &told), CITRUS_UNCHANGED);
    WANT(told, UNTOUCHED);
    WANT(key, UNTOUCHED);
    citrus_close(&index);
}

static void a_pair_comes_and_goes(uint32_t waiter) {
    citrus_handle index = open_index(10, 1, waiter);
    uint64_t told = UNTOUCHED;
    WANT(citrus_insert(&index, 1, 10), CITRUS_DONE);
    WANT(citrus_insert(&index, 1, 11), CITRUS_UNCHANGED);
    WANT(citrus_get(&index, 1, &told), CITRUS_DONE);
    WANT(told, 10);
    WANT(citrus_replace(&index, 1, 12, &told), CITRUS_DONE);
    WANT(told, 10);
    WANT(citrus_get(&index, 1, &told), CITRUS_DONE);
    WANT(told, 12);
    WANT(citrus_remove(&index, 1, &told), CITRUS_DONE);
    WANT(told, 12);
    told = UNTOUCHED;
    WANT(citrus_remove(&index, 1, &told), CITRUS_UNCHANGED);
    WANT(citrus_get(&index, 1, &told), CITRUS_UNCHANGED);
    WANT(told, UNTOUCHED);
    citrus_close(&index);
}

static void a_value_is_compared(uint32_t waiter) {
    citrus_handle index = open_index(10, 1, waiter);
    uint64_t told = UNTOUCHED;
    WANT(citrus_insert(&index, 1, 10), CITRUS_DONE);
    WANT(citrus_compare(&index, 1, 10, 11, &told), CITRUS_DONE);
    WANT(told, UNTOUCHED);
    WANT(citrus_compare(&index, 1, 10, 12, &told), CITRUS_DIFFERENT);
    WANT(told, 11);
    WANT(citrus_get(&index, 1, &told), CITRUS_DONE);
    WANT(told, 11);
    told = UNTOUCHED;
    WANT(citrus_compare(&index, 1, 11, 11, &told), CITRUS_DONE);
    WANT(citrus_compare(&index, 1, 11, 0, &told), CITRUS_DONE);
    WANT(citrus_compare(&index, 1, 0, UINT64_MAX, &told), CITRUS_DONE);
    WANT(citrus_compare(&index, 2, 0, 20, &told), CITRUS_UNCHANGED);
    WANT(told, UNTOUCHED);
    WANT(citrus_compare(&index, 1, 0, 5, &told), CITRUS_DIFFERENT);
    WANT(told, UINT64_MAX);
    WANT(citrus_remove(&index, 1, &told), CITRUS_DONE);
    WANT(citrus_compare(&index, 1, UINT64_MAX, 5, &told), CITRUS_UNCHANGED);
    WANT(citrus_get(&index, 1, &told), CITRUS_UNCHANGED);
    citrus_close(&index);
}

static void a_pair_is_taken(uint32_t waiter) {
    citrus_handle index = open_index(10, 1, waiter);
    uint64_t told = UNTOUCHED;
    for (uint64_t key = 1; key <= 7; key++) WANT(citrus_insert(&index, key, 10 * key), CITRUS_DONE);
    for (uint64_t key = 1; key <= 7; key++) {
        WANT(citrus_take(&index, key, 10 * key + 1, &told), CITRUS_DIFFERENT);
        WANT(told, 10 * key);
        told = UNTOUCHED;
        WANT(citrus_take(&index, key, 10 * key, &told), CITRUS_DONE);
        WANT(told, UNTOUCHED);
        WANT(citrus_take(&index, key, 10 * key, &told), CITRUS_UNCHANGED);
        WANT(citrus_get(&index, key, &told), CITRUS_UNCHANGED);
        WANT(told, UNTOUCHED);
    }
    WANT(citrus_insert(&index, 0, UINT64_MAX), CITRUS_DONE);
    WANT(citrus_take(&index, 0, 0, &told), CITRUS_DIFFERENT);
    WANT(told, UINT64_MAX);
    WANT(citrus_take(&index, 0, UINT64_MAX, &told), CITRUS_DONE);
    WANT(citrus_insert(&index, UINT64_MAX, 0), CITRUS_DONE);
    WANT(citrus_take(&index, UINT64_MAX, 0, &told), CITRUS_DONE);
    citrus_close(&index);
}

static void an_upsert_adds_and_then_replaces(uint32_t waiter) {
    citrus_handle index = open_index(10, 1, waiter);
    uint64_t told = UNTOUCHED;
    WANT(citrus_upsert(&index, 1, 10, &told), CITRUS_NEW);
    WANT(told, UNTOUCHED);
    WANT(citrus_upsert(&index, 1, 11, &told), CITRUS_DONE);
    WANT(told, 10);
    WANT(citrus_get(&index, 1, &told), CITRUS_DONE);
    WANT(told, 11);
    citrus_close(&index);
}

static void numbers_at_their_ends(uint32_t waiter) {
    citrus_handle index = open_index(10, 1, waiter);
    uint64_t told = UNTOUCHED, key = UNTOUCHED;
    WANT(citrus_insert(&index, UINT64_MAX, 0), CITRUS_DONE);
    WANT(citrus_insert(&index, 0, UINT64_MAX), CITRUS_DONE);
    WANT(citrus_get(&index, UINT64_MAX, &told), CITRUS_DONE);
    WANT(told, 0);
    WANT(citrus_first(&index, 0, &key, &told), CITRUS_DONE);
    WANT(key, 0);
    WANT(told, UINT64_MAX);
    WANT(citrus_first(&index, 1, &key, &told), CITRUS_DONE);
    WANT(key, UINT64_MAX);
    WANT(citrus_first(&index, UINT64_MAX, &key, &told), CITRUS_DONE);
    WANT(citrus_last(&index, 0, UINT64_MAX, &key, &told), CITRUS_DONE);
    WANT(key, UINT64_MAX);
    WANT(told, 0);
    WANT(citrus_last(&index, 0, UINT64_MAX - 1, &key, &told), CITRUS_DONE);
    WANT(key, 0);
    WANT(told, UINT64_MAX);
    WANT(citrus_last(&index, 0, 0, &key, &told), CITRUS_DONE);
    WANT(citrus_last(&index, 1, UINT64_MAX - 1, &key, &told), CITRUS_UNCHANGED);
    WANT(citrus_compare(&index, 0, UINT64_MAX, 0, &told), CITRUS_DONE);
    WANT(citrus_compare(&index, UINT64_MAX, 0, UINT64_MAX, &told), CITRUS_DONE);
    WANT(citrus_remove(&index, UINT64_MAX, &told), CITRUS_DONE);
    WANT(told, UINT64_MAX);
    WANT(citrus_first(&index, 1, &key, &told), CITRUS_UNCHANGED);
    WANT(citrus_last(&index, 0, UINT64_MAX, &key, &told), CITRUS_DONE);
    WANT(key, 0);
    WANT(told, 0);
    WANT(citrus_remove(&index, 0, &told), CITRUS_DONE);
    WANT(citrus_last(&index, 0, UINT64_MAX, &key, &told), CITRUS_UNCHANGED);
    citrus_close(&index);
}

/* At each key of some, and of those between them. */
static void firsts_and_lasts(uint32_t waiter) {
    citrus_handle index = open_index(10, 1, waiter);
    for (uint64_t key = 10; key <= 50; key += 10) WANT(citrus_insert(&index, key, key + 1), CITRUS_DONE);
    for (uint64_t at = 0; at <= 60; at++) {
        const uint64_t above = (at + 9) / 10 * 10, below = at / 10 * 10;
        uint64_t key = UNTOUCHED, value = UNTOUCHED;
        WANT(citrus_first(&index, at, &key, &value), at <= 50 ? CITRUS_DONE : CITRUS_UNCHANGED);
        WANT(key, at > 50 ? UNTOUCHED : above ? above : 10);
        WANT(value, key == UNTOUCHED ? UNTOUCHED : key + 1);
        key = value = UNTOUCHED;
        WANT(citrus_last(&index, 0, at, &key, &value), at >= 10 ? CITRUS_DONE : CITRUS_UNCHANGED);
        WANT(key, at < 10 ? UNTOUCHED : below < 50 ? below : 50);
        WANT(value, key == UNTOUCHED ? UNTOUCHED : key + 1);
        key = value = UNTOUCHED;
        const int is_there = at >= 10 && at - (below < 50 ? below : 50) <= 5;
        WANT(citrus_last(&index, at < 5 ? 0 : at - 5, at, &key, &value), is_there ? CITRUS_DONE : CITRUS_UNCHANGED);
        WANT(key == UNTOUCHED, !is_there);
        WANT(value == UNTOUCHED, !is_there);
    }
    citrus_close(&index);
}

/* Beside the pairs that it was opened for it has room for what its one handle may keep back. */
static void a_full_index(uint32_t waiter) {
    enum { FULL = 3 + 68 };
    citrus_handle index = open_index(3, 1, waiter);
    uint64_t told = UNTOUCHED;
    for (uint64_t key = 1; key <= FULL; key++) WANT(citrus_insert(&index, key, 10 * key), CITRUS_DONE);
    WANT(citrus_insert(&index, FULL + 1, 40), CITRUS_FULL);
    WANT(citrus_upsert(&index, FULL + 1, 40, &told), CITRUS_FULL);
    WANT(told, UNTOUCHED);
    WANT(citrus_insert(&index, 3, 31), CITRUS_UNCHANGED);
    WANT(citrus_upsert(&index, 3, 31, &told), CITRUS_DONE);
    WANT(told, 30);
    WANT(citrus_get(&index, FULL + 1, &told), CITRUS_UNCHANGED);
    WANT(citrus_remove(&index, 2, &told), CITRUS_DONE);
    WANT(told, 20);
    WANT(citrus_insert(&index, FULL + 1, 40), CITRUS_DONE);
    citrus_close(&index);
}

/* Handles that take pairs out keep slots back, and yet as many pairs fit as the index was opened for. */
static void as_many_pairs_fit_as_were_asked_for(uint32_t waiter) {
    enum { PAIRS = 200, HANDLES = 8, TAKEN_OUT = 60 };
    citrus_handle handles[HANDLES] = {open_index(PAIRS, HANDLES, waiter)};
    uint64_t told = UNTOUCHED, pairs = 0;
    for (size_t i = 1; i < HANDLES; i++) {
        WANT(citrus_share(&handles[0], 1, 1000, &handles[i]), CITRUS_DONE);
        for (uint64_t key = 0; key < TAKEN_OUT; key++) {
            WANT(citrus_insert(&handles[i], key, key), CITRUS_DONE);
            WANT(citrus_remove(&handles[i], key, &told), CITRUS_DONE);
        }
    }
    while (citrus_insert(&handles[0], pairs, 10 * pairs) == CITRUS_DONE) pairs++;
    WANT(citrus_insert(&handles[0], pairs, 10 * pairs), CITRUS_FULL);
    WANT(pairs >= PAIRS + 68 && pairs < PAIRS + 68 * HANDLES, 1);
    for (uint64_t key = 0; key <= pairs; key++)
        WANT(citrus_get(&handles[1], key, &told), key < pairs ? CITRUS_DONE : CITRUS_UNCHANGED);
    for (size_t i = 0; i < HANDLES; i++) citrus_close(&handles[i]);
}

static uint64_t scattered(uint64_t i) { return i * 0x9e3779b97f4a7c15u; }
static uint64_t ascending(uint64_t i) { return i; }
static uint64_t descending(uint64_t i) { return ~i; }
static uint64_t inwards(uint64_t i) { return i % 2 ? ~i : i; }

/* Puts keys in, in this order, and looks each up: how many seconds that takes. */
static double load_seconds(uint64_t (*key_of)(uint64_t), uint32_t waiter) {
    enum { LOADED = 100000 };
    citrus_handle index = open_index(LOADED, 1, waiter);
    struct timespec begin, end;
    uint64_t told = UNTOUCHED;
    clock_gettime(CLOCK_MONOTONIC, &begin);
    for (uint64_t i = 0; i < LOADED && !wrong_here; i++) WANT(citrus_insert(&index, key_of(i), i), CITRUS_DONE);
    for (uint64_t i = 0; i < LOADED && !wrong_here; i++) {
        WANT(citrus_get(&index, key_of(i), &told), CITRUS_DONE);
        WANT(told, i);
    }
    clock_gettime(CLOCK_MONOTONIC, &end);
    citrus_close(&index);
    return (double)(end.tv_sec - begin.tv_sec) + 1e-9 * (double)(end.tv_nsec - begin.tv_nsec);
}

/* On a path these would take a thousand times as long as keys in no order. */
static void keys_in_order_make_no_path(uint32_t waiter) {
    const double most = 20 * load_seconds(scattered, waiter) + 0.5;
    WANT(load_seconds(ascending, waiter) < most, 1);
    WANT(load_seconds(descending, waiter) < most, 1);
    WANT(load_seconds(inwards, waiter) < most, 1);
}

/* An insert whose way is deep turns nodes for tickets, but not the last ones: it needs four, as any update. */
static void a_deep_insert_with_few_tickets(uint32_t waiter) {
    citrus_handle index = open_index(10000, 2, waiter), few = CITRUS_CLOSED_HANDLE;
    uint32_t handles = 0;
    uint64_t tickets = 0, told = UNTOUCHED;
    WANT(citrus_share(&index, 1, 12, &few), CITRUS_DONE);
    for (uint64_t key = 0; key < 10000 && tickets <= 4; key++) {
        WANT(citrus_left(&index, &handles, &tickets), CITRUS_DONE);
        const uint64_t before = tickets;
        WANT(citrus_insert(&index, key, key), CITRUS_DONE);
        WANT(citrus_left(&index, &handles, &tickets), CITRUS_DONE);
        tickets = before - tickets;
        WANT(tickets <= 76, 1);
    }
    WANT(tickets > 4, 1);
    WANT(citrus_insert(&few, 10000, 7), CITRUS_DONE);
    WANT(citrus_left(&few, &handles, &tickets), CITRUS_DONE);
    WANT(tickets >= 8, 1);
    WANT(citrus_get(&few, 10000, &told), CITRUS_DONE);
    WANT(told, 7);
    citrus_close(&few);
    citrus_close(&index);
}

/* Takes out each key of a tree of 15, whose nodes have no child, one, or two, and sees that the others stay. */
static void a_remove_at_each_node(uint32_t waiter) {
    static const uint64_t order[] = {8, 4, 12, 2, 6, 10, 14, 1, 3, 5, 7, 9, 11, 13, 15};
    for (uint64_t gone = 1; gone <= 15; gone++) {
        citrus_handle index = open_index(40, 1, waiter);
        uint64_t told = UNTOUCHED;
        for (size_t i = 0; i < COUNT_OF(order); i++)
            if (gone % 2 == 0 || order[i] != gone - 1) WANT(citrus_insert(&index, order[i], 100 + order[i]), CITRUS_DONE);
        WANT(citrus_remove(&index, gone, &told), CITRUS_DONE);
        WANT(told, 100 + gone);
        for (uint64_t key = 1; key <= 15; key++) {
            const int is_there = key != gone && (gone % 2 == 0 || key != gone - 1);
            WANT(citrus_get(&index, key, &told), is_there ? CITRUS_DONE : CITRUS_UNCHANGED);
            if (is_there) WANT(told, 100 + key);
        }
        citrus_close(&index);
    }
}

static void lists(uint32_t waiter) {
    citrus_handle index = open_index(10, 1, waiter);
    citrus_pair pairs[4] = {{UNTOUCHED, UNTOUCHED}, {UNTOUCHED, UNTOUCHED}, {UNTOUCHED, UNTOUCHED}, {UNTOUCHED, UNTOUCHED}};
    size_t count = 9;
    uint64_t next = UNTOUCHED;
    WANT(citrus_list(&index, 0, UINT64_MAX, pairs, 4, &count, &next), CITRUS_DONE);
    WANT(count, 0);
    for (uint64_t key = 4; key >= 2; key--) WANT(citrus_insert(&index, key, 10 * key), CITRUS_DONE);
    WANT(citrus_list(&index, 0, UINT64_MAX, pairs, 4, &count, &next), CITRUS_DONE);
    WANT(count, 3);
    for (uint64_t i = 0; i < 3; i++) {
        WANT(pairs[i].key, 2 + i);
        WANT(pairs[i].value, 20 + 10 * i);
    }
    WANT(next, UNTOUCHED);
    WANT(citrus_list(&index, 2, 4, pairs, 2, &count, &next), CITRUS_MORE);
    WANT(count, 2);
    WANT(next, 4);
    WANT(citrus_list(&index, 2, 4, pairs, 3, &count, &next), CITRUS_DONE);
    WANT(citrus_list(&index, 3, 3, pairs, 1, &count, &next), CITRUS_DONE);
    WANT(count, 1);
    WANT(pairs[0].key, 3);
    WANT(citrus_list(&index, 5, 5, pairs, 4, &count, &next), CITRUS_DONE);
    WANT(count, 0);
    citrus_close(&index);
}

static void lists_go_down(uint32_t waiter) {
    citrus_handle index = open_index(10, 1, waiter);
    citrus_pair pairs[4] = {{UNTOUCHED, UNTOUCHED}, {UNTOUCHED, UNTOUCHED}, {UNTOUCHED, UNTOUCHED}, {UNTOUCHED, UNTOUCHED}};
    size_t count = 9;
    uint64_t next = UNTOUCHED;
    WANT(citrus_list_down(&index, 0, UINT64_MAX, pairs, 4, &count, &next), CITRUS_DONE);
    WANT(count, 0);
    WANT(citrus_insert(&index, 0, 5), CITRUS_DONE);
    for (uint64_t key = 4; key >= 2; key--) WANT(citrus_insert(&index, key, 10 * key), CITRUS_DONE);
    WANT(citrus_insert(&index, UINT64_MAX, 7), CITRUS_DONE);
    WANT(citrus_list_down(&index, 2, UINT64_MAX - 1, pairs, 4, &count, &next), CITRUS_DONE);
    WANT(count, 3);
    for (uint64_t i = 0; i < 3; i++) {
        WANT(pairs[i].key, 4 - i);
        WANT(pairs[i].value, 40 - 10 * i);
    }
    WANT(next, UNTOUCHED);
    WANT(citrus_list_down(&index, 0, UINT64_MAX, pairs, 3, &count, &next), CITRUS_MORE);
    WANT(count, 3);
    WANT(pairs[0].key, UINT64_MAX);
    WANT(pairs[2].key, 3);
    WANT(next, 2);
    WANT(citrus_list_down(&index, 0, next, pairs, 3, &count, &next), CITRUS_DONE);
    WANT(count, 2);
    WANT(pairs[1].key, 0);
    WANT(citrus_list_down(&index, 1, 1, pairs, 4, &count, &next), CITRUS_DONE);
    WANT(count, 0);
    citrus_close(&index);
}

static void handles_and_tickets_are_shared(uint32_t waiter) {
    citrus_handle first = open_index(10, 4, waiter), second = CITRUS_CLOSED_HANDLE, third = CITRUS_CLOSED_HANDLE;
    uint32_t handles = 0;
    uint64_t tickets = 0, told = UNTOUCHED;
    WANT(citrus_left(&first, &handles, &tickets), CITRUS_DONE);
    WANT(handles, 3);
    WANT(tickets, CITRUS_ALL_TICKETS);
    WANT(citrus_share(&first, 2, 1000, &second), CITRUS_DONE);
    WANT(citrus_share(&second, 1, 400, &third), CITRUS_DONE);
    WANT(citrus_left(&first, &handles, &tickets), CITRUS_DONE);
    WANT(handles, 1);
    WANT(tickets, CITRUS_ALL_TICKETS - 1000);
    WANT(citrus_left(&second, &handles, &tickets), CITRUS_DONE);
    WANT(handles, 0);
    WANT(tickets, 600);
    WANT(citrus_insert(&third, 1, 10), CITRUS_DONE);
    WANT(citrus_get(&first, 1, &told), CITRUS_DONE);
    WANT(told, 10);
    WANT(citrus_left(&third, &handles, &tickets), CITRUS_DONE);
    WANT(tickets >= 396 && tickets <= 400, 1);
    citrus_close(&third);
    WANT(citrus_share(&second, 1, 4, &third), CITRUS_BAD_ARGUMENT);
    WANT(citrus_share(&first, 1, 4, &third), CITRUS_DONE);
    WANT(citrus_get(&third, 1, &told), CITRUS_DONE);
    WANT(citrus_left(&first, &handles, &tickets), CITRUS_DONE);
    WANT(handles, 0);
    citrus_close(&third);
    citrus_close(&second);
    citrus_close(&first);
}

static citrus_numbers stats_of(citrus_handle *handle) {
    citrus_numbers stats = {.size = sizeof stats};
    uint32_t unshared = 0;
    uint64_t tickets = 0;
    WANT(citrus_stats(handle, &stats), CITRUS_DONE);
    WANT(citrus_left(handle, &unshared, &tickets), CITRUS_DONE);
    WANT(stats.size, sizeof stats);
    WANT(stats.unshared, unshared);
    WANT(stats.tickets, tickets);
    return stats;
}

static void what_a_handle_knows(uint32_t waiter) {
    citrus_handle index = open_index(10, 3, waiter), other = CITRUS_CLOSED_HANDLE;
    citrus_numbers stats = {.size = sizeof stats - 8, .slots = UNTOUCHED};
    uint64_t told = UNTOUCHED;
    WANT(citrus_stats(&index, &stats), CITRUS_BAD_ARGUMENT);
    WANT(stats.slots, UNTOUCHED);
    stats = stats_of(&index);
    WANT(stats.slots, 10 + 3 * 68);
    WANT(stats.free, stats.slots);
    WANT(stats.kept, 0);
    WANT(stats.room, 64);
    WANT(stats.handles, 3);
    WANT(stats.waits, 0);
    for (uint64_t key = 1; key <= 5; key++) WANT(citrus_insert(&index, key, 10 * key), CITRUS_DONE);
    WANT(stats_of(&index).free, stats.slots - 5);
    WANT(citrus_share(&index, 2, 1000, &other), CITRUS_DONE);
    WANT(stats_of(&index).unshared, 0);
    WANT(stats_of(&other).free, stats.slots);
    WANT(citrus_remove(&index, 5, &told), CITRUS_DONE);
    WANT(citrus_remove(&index, 4, &told), CITRUS_DONE);
    WANT(stats_of(&index).kept, 2);
    WANT(stats_of(&other).kept, 0);
    WANT(citrus_wait(&index, 0, UINT64_MAX), CITRUS_DONE);
    WANT(stats_of(&index).waits, 1);
    WANT(citrus_hold(&index, 1, &told), CITRUS_DONE);
    WANT(stats_of(&index).waits, 1);
    WANT(citrus_release(&index), CITRUS_DONE);
    citrus_close(&other);
    citrus_close(&index);
}

static void a_closed_handle_is_opened_again(uint32_t waiter) {
    citrus_handle first = open_index(10, 3, waiter), second = CITRUS_CLOSED_HANDLE, third = CITRUS_CLOSED_HANDLE;
    uint32_t handles = 0;
    uint64_t tickets = 0, told = UNTOUCHED;
    WANT(citrus_share(&first, 2, 1000, &second), CITRUS_DONE);
    WANT(citrus_insert(&second, 1, 10), CITRUS_DONE);
    WANT(citrus_left(&second, &handles, &tickets), CITRUS_DONE);
    const uint64_t before = tickets;
    WANT(citrus_reopen(&first, &third), CITRUS_UNCHANGED);
    WANT(third.at == NULL, 1);
    citrus_close(&second);
    WANT(citrus_reopen(&first, &third), CITRUS_DONE);
    WANT(citrus_left(&third, &handles, &tickets), CITRUS_DONE);
    WANT(handles, 1);
    WANT(tickets, before);
    WANT(citrus_get(&third, 1, &told), CITRUS_DONE);
    WANT(told, 10);
    WANT(citrus_remove(&third, 1, &told), CITRUS_DONE);
    WANT(citrus_get(&first, 1, &told), CITRUS_UNCHANGED);
    WANT(citrus_reopen(&first, &second), CITRUS_UNCHANGED);
    citrus_close(&third);
    citrus_close(&first);
}

/* What each of them had comes back once, that of the handle which opened the index too. */
static void tickets_are_shared_fairly(uint32_t waiter) {
    citrus_handle first = open_index(10, 4, waiter), second = CITRUS_CLOSED_HANDLE, third = CITRUS_CLOSED_HANDLE;
    uint32_t handles = 0;
    uint64_t tickets = 0;
    WANT(citrus_fair_share(&second, 1), 0);
    WANT(citrus_fair_share(&first, 1), CITRUS_ALL_TICKETS / 4);
    WANT(citrus_fair_share(&first, 3), CITRUS_ALL_TICKETS / 4 * 3);
    WANT(citrus_share(&first, 2, citrus_fair_share(&first, 2), &second), CITRUS_DONE);
    WANT(citrus_share(&second, 1, citrus_fair_share(&second, 1), &third), CITRUS_DONE);
    WANT(citrus_left(&third, &handles, &tickets), CITRUS_DONE);
    WANT(tickets, CITRUS_ALL_TICKETS / 4);
    WANT(citrus_fair_share(&second, 0), 0);
    WANT(citrus_fair_share(&first, 1), CITRUS_ALL_TICKETS / 4);
    citrus_close(&second);
    WANT(citrus_share(&first, 1, 0, &second), CITRUS_DONE);
    WANT(citrus_insert(&second, 1, 10), CITRUS_SPENT);
    citrus_close(&first);
    citrus_close(&second);
    citrus_close(&third);
}

static void all_handles_but_one_are_opened_again(uint32_t waiter) {
    citrus_handle handles[4] = {open_index(10, 4, waiter), CITRUS_CLOSED_HANDLE, CITRUS_CLOSED_HANDLE, CITRUS_CLOSED_HANDLE};
    uint32_t more = 0;
    uint64_t tickets = 0, all = 0, told = UNTOUCHED;
    for (uint64_t i = 1; i < 4; i++) WANT(citrus_share(&handles[0], 1, 1000 * i, &handles[i]), CITRUS_DONE);
    for (uint64_t i = 0; i < 3; i++) citrus_close(&handles[i]);
    for (uint64_t i = 0; i < 3; i++) WANT(citrus_reopen(&handles[3], &handles[i]), CITRUS_DONE);
    for (uint64_t i = 0; i < 4; i++) {
        WANT(citrus_left(&handles[i], &more, &tickets), CITRUS_DONE);
        WANT(more, 0);
        all += tickets;
        WANT(citrus_insert(&handles[i], i, i), CITRUS_DONE);
        WANT(citrus_get(&handles[3 - i], i, &told), CITRUS_DONE);
    }
    WANT(all, CITRUS_ALL_TICKETS);
    for (uint64_t i = 0; i < 4; i++) citrus_close(&handles[i]);
}

/* An open and a share close what they are made over. */
static void a_handle_that_is_made_over_is_left(uint32_t waiter) {
    citrus_handle first = open_index(10, 3, waiter), second = CITRUS_CLOSED_HANDLE, third = CITRUS_CLOSED_HANDLE;
    uint32_t handles = 0;
    uint64_t tickets = 0;
    WANT(citrus_share(&first, 1, 500, &second), CITRUS_DONE);
    WANT(citrus_share(&first, 1, 600, &second), CITRUS_DONE);
    WANT(citrus_reopen(&second, &third), CITRUS_DONE);
    WANT(citrus_left(&third, &handles, &tickets), CITRUS_DONE);
    WANT(tickets, 500);
    WANT(citrus_open(&third, 10, 1, waiter), CITRUS_DONE);
    WANT(citrus_reopen(&third, &second), CITRUS_BAD_ARGUMENT);
    citrus_close(&second);
    citrus_close(&third);
    WANT(citrus_reopen(&first, &second), CITRUS_DONE);
    WANT(citrus_reopen(&first, &third), CITRUS_DONE);
    WANT(citrus_reopen(&first, &third), CITRUS_BAD_ARGUMENT);
    citrus_close(&third);
    citrus_close(&second);
    citrus_close(&first);
}

static void the_index_lives_as_long_as_one_handle(uint32_t waiter) {
    citrus_handle first = open_index(10, 3, waiter), second = CITRUS_CLOSED_HANDLE;
    uint64_t told = UNTOUCHED;
    WANT(citrus_insert(&first, 1, 10), CITRUS_DONE);
    WANT(citrus_share(&first, 2, 1000, &second), CITRUS_DONE);
    citrus_close(&first);
    WANT(citrus_get(&second, 1, &told), CITRUS_DONE);
    WANT(told, 10);
    WANT(citrus_remove(&second, 1, &told), CITRUS_DONE);
    citrus_close(&second);
}

/* Into a static variable, as into any other; the old one is closed, and its close closes nothing else. */
static void a_handle_is_handed_on(uint32_t waiter) {
    static citrus_handle kept = CITRUS_CLOSED_HANDLE;
    citrus_handle first = open_index(10, 1, waiter);
    uint64_t told = UNTOUCHED;
    WANT(citrus_insert(&first, 1, 10), CITRUS_DONE);
    kept = first;
    first = citrus_closed_handle();
    WANT(citrus_get(&first, 1, &told), CITRUS_CLOSED);
    citrus_close(&first);
    WANT(citrus_get(&kept, 1, &told), CITRUS_DONE);
    WANT(told, 10);
    citrus_close(&kept);
}

static void slots_are_used_again(uint32_t waiter) {
    citrus_handle index = open_index(8, 1, waiter);
    uint64_t told = UNTOUCHED;
    for (uint64_t i = 0; i < 50000 && !wrong_here; i++) {
        WANT(citrus_insert(&index, i, 2 * i), CITRUS_DONE);
        if (i >= 5) {
            WANT(citrus_remove(&index, i - 5, &told), CITRUS_DONE);
            WANT(told, 2 * (i - 5));
        }
    }
    citrus_close(&index);
}

enum { MODEL_KEYS = 300 };

/* What a list, and a first, of this handle must tell, by the model: 0 where the key is absent, else its value. */
static void look_at_lists(citrus_handle *index, const uint64_t *model) {
    static citrus_pair pairs[MODEL_KEYS], down[MODEL_KEYS];
    size_t count = 0, at = 0;
    uint64_t next = 0, key = 0, value = 0;
    WANT(citrus_list(index, 0, UINT64_MAX, pairs, MODEL_KEYS, &count, &next), CITRUS_DONE);
    for (uint64_t i = 0; i < MODEL_KEYS; i++)
        if (model[i]) {
            WANT(at < count && pairs[at].key == i && pairs[at].value == model[i], 1);
            at++;
        }
    WANT(count, at);
    WANT(citrus_list_down(index, 0, UINT64_MAX, down, MODEL_KEYS, &count, &next), CITRUS_DONE);
    WANT(count, at);
    for (size_t i = 0; i < at; i++) WANT(down[i].key == pairs[at - 1 - i].key && down[i].value == pairs[at - 1 - i].value, 1);
    WANT(citrus_first(index, 0, &key, &value), at ? CITRUS_DONE : CITRUS_UNCHANGED);
    if (at) WANT(key == pairs[0].key && value == pairs[0].value, 1);
    WANT(citrus_last(index, 0, UINT64_MAX, &key, &value), at ? CITRUS_DONE : CITRUS_UNCHANGED);
    if (at) WANT(key == pairs[at - 1].key && value == pairs[at - 1].value, 1);
}

/* A last pair at or below a key must be told by this handle as the model has it. */
static void look_for_last(citrus_handle *index, const uint64_t *model, uint64_t high) {
    uint64_t wanted = high, key = UNTOUCHED, value = UNTOUCHED;
    while (wanted && !model[wanted]) wanted--;
    WANT(citrus_last(index, 0, high, &key, &value), model[wanted] ? CITRUS_DONE : CITRUS_UNCHANGED);
    if (model[wanted]) WANT(key == wanted && value == model[wanted], 1);
}

static void drawn_calls_as_a_model_has_them(uint32_t waiter) {
    citrus_handle index = open_index(MODEL_KEYS + 1, 1, waiter);
    uint64_t model[MODEL_KEYS], state = 88172645463325252u;
    memset(model, 0, sizeof model);
    for (uint64_t i = 1; i <= 100000 && !wrong_here; i++) {
        const uint64_t key = draw(&state) % MODEL_KEYS, was = model[key];
        uint64_t told = was;
        switch (draw(&state) % 10) {
        case 0: WANT(citrus_get(&index, key, &told), was ? CITRUS_DONE : CITRUS_UNCHANGED); break;
        case 1:
            WANT(citrus_insert(&index, key, i), was ? CITRUS_UNCHANGED : CITRUS_DONE);
            if (!was) model[key] = i;
            break;
        case 2:
            WANT(citrus_replace(&index, key, i, &told), was ? CITRUS_DONE : CITRUS_UNCHANGED);
            if (was) model[key] = i;
            break;
        case 3:
            WANT(citrus_upsert(&index, key, i, &told), was ? CITRUS_DONE : CITRUS_NEW);
            model[key] = i;
            break;
        case 4:
            WANT(citrus_compare(&index, key, was, i, &told), was ? CITRUS_DONE : CITRUS_UNCHANGED);
            if (was) model[key] = i;
            break;
        case 5: WANT(citrus_compare(&index, key, i, i, &told), was ? CITRUS_DIFFERENT : CITRUS_UNCHANGED); break;
        case 6: look_for_last(&index, model, key); break;
        case 7:
            WANT(citrus_take(&index, key, was, &told), was ? CITRUS_DONE : CITRUS_UNCHANGED);
            model[key] = 0;
            break;
        case 8: WANT(citrus_take(&index, key, i, &told), was ? CITRUS_DIFFERENT : CITRUS_UNCHANGED); break;
        default:
            WANT(citrus_remove(&index, key, &told), was ? CITRUS_DONE : CITRUS_UNCHANGED);
            model[key] = 0;
        }
        WANT(told, was);
        if (i % 5000 == 0) look_at_lists(&index, model);
    }
    citrus_close(&index);
}

static const struct waiter_case cases[] = {
    {"an absent key", an_absent_key},
    {"a pair comes and goes", a_pair_comes_and_goes},
    {"a value is compared", a_value_is_compared},
    {"a pair is taken", a_pair_is_taken},
    {"an upsert adds and then replaces", an_upsert_adds_and_then_replaces},
    {"numbers at their ends", numbers_at_their_ends},
    {"firsts and lasts", firsts_and_lasts},
    {"a full index", a_full_index},
    {"as many pairs fit as were asked for", as_many_pairs_fit_as_were_asked_for},
    {"keys in order make no path", keys_in_order_make_no_path},
    {"a deep insert with few tickets", a_deep_insert_with_few_tickets},
    {"what a handle knows", what_a_handle_knows},
    {"a remove at each node", a_remove_at_each_node},
    {"lists", lists},
    {"lists go down", lists_go_down},
    {"handles and tickets are shared", handles_and_tickets_are_shared},
    {"tickets are shared fairly", tickets_are_shared_fairly},
    {"a closed handle is opened again", a_closed_handle_is_opened_again},
    {"all handles but one are opened again", all_handles_but_one_are_opened_again},
    {"a handle that is made over is left", a_handle_that_is_made_over_is_left},
    {"the index lives as long as one handle", the_index_lives_as_long_as_one_handle},
    {"a handle is handed on", a_handle_is_handed_on},
    {"slots are used again", slots_are_used_again},
    {"drawn calls as a model has them", drawn_calls_as_a_model_has_them},
};

int main(void) {
    run_waiter_cases(cases, COUNT_OF(cases));
    return failed_cases != 0;
}
