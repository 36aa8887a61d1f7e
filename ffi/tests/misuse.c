/* Each misuse that the library can see: it is answered with a status, and changes nothing. */
#include "cases.h"
#include <stdlib.h>
#include <sys/mman.h>

static void a_closed_handle_at_each_call(void) {
    citrus_handle closed = CITRUS_CLOSED_HANDLE, other = CITRUS_CLOSED_HANDLE;
    uint64_t told = UNTOUCHED, key = UNTOUCHED;
    uint32_t handles = 77, made = 9;
    size_t count = 9;
    citrus_pair pair = {UNTOUCHED, UNTOUCHED};
    citrus_numbers stats = {.size = sizeof stats, .slots = UNTOUCHED};
    WANT(citrus_share(&closed, 1, 4, &other), CITRUS_CLOSED);
    WANT(citrus_reopen(&closed, &other), CITRUS_CLOSED);
    WANT(citrus_left(&closed, &handles, &told), CITRUS_CLOSED);
    WANT(citrus_stats(&closed, &stats), CITRUS_CLOSED);
    WANT(citrus_get(&closed, 1, &told), CITRUS_CLOSED);
    WANT(citrus_insert(&closed, 1, 10), CITRUS_CLOSED);
    WANT(citrus_replace(&closed, 1, 10, &told), CITRUS_CLOSED);
    WANT(citrus_compare(&closed, 1, 0, 10, &told), CITRUS_CLOSED);
    WANT(citrus_upsert(&closed, 1, 10, &told), CITRUS_CLOSED);
    WANT(citrus_remove(&closed, 1, &told), CITRUS_CLOSED);
    WANT(citrus_take(&closed, 1, 10, &told), CITRUS_CLOSED);
    WANT(citrus_list(&closed, 0, 9, &pair, 1, &count, &key), CITRUS_CLOSED);
    WANT(citrus_list_down(&closed, 0, 9, &pair, 1, &count, &key), CITRUS_CLOSED);
    WANT(citrus_first(&closed, 0, &key, &told), CITRUS_CLOSED);
    WANT(citrus_last(&closed, 0, 9, &key, &told), CITRUS_CLOSED);
    WANT(citrus_last(&closed, 9, 0, &key, &told), CITRUS_CLOSED);
    WANT(citrus_tidy(&closed, 0, 9, 1, &made, &key), CITRUS_CLOSED);
    WANT(citrus_hold(&closed, 1, &told), CITRUS_CLOSED);
    WANT(citrus_enter(&closed, 1), CITRUS_CLOSED);
    WANT(citrus_release(&closed), CITRUS_CLOSED);
    WANT(citrus_wait(&closed, 0, 9), CITRUS_CLOSED);
    WANT(citrus_wait(&closed, 9, 0), CITRUS_CLOSED);
    WANT(citrus_begin(&closed, 0, 9, &told), CITRUS_CLOSED);
    WANT(citrus_poll(&closed, 0), CITRUS_CLOSED);
    WANT(told, UNTOUCHED);
    WANT(key, UNTOUCHED);
    WANT(pair.key, UNTOUCHED);
    WANT(handles, 77);
    WANT(stats.slots, UNTOUCHED);
    WANT(count, 0);
    WANT(made, 0);
    WANT(closed.at == NULL && other.at == NULL, 1);
}

static void numbers_that_open_no_index(void) {
    static const uint32_t numbers[][3] = {
        {0, 1, 0}, {CITRUS_MAX_PAIRS + 1, 1, 0}, {UINT32_MAX, 1, 0}, {1, 0, 0},
        {1, CITRUS_MAX_HANDLES + 1, 0}, {1, UINT32_MAX, 0}, {1, 1, 3}, {1, 1, UINT32_MAX},
    };
    for (size_t i = 0; i < COUNT_OF(numbers); i++) {
        citrus_handle index = CITRUS_CLOSED_HANDLE;
        WANT(citrus_open(&index, numbers[i][0], numbers[i][1], numbers[i][2]), CITRUS_BAD_ARGUMENT);
        WANT(index.at == NULL, 1);
        citrus_close(&index);
    }
}

/* What a handle of this index keeps back at most, as the numbers tell it, and how many slots there are for it. */
static void want_room(citrus_handle *index, uint32_t pairs, uint32_t handles, uint64_t room) {
    citrus_numbers numbers = {.size = sizeof numbers};
    WANT(citrus_stats(index, &numbers), CITRUS_DONE);
    WANT(numbers.room, room);
    WANT(numbers.slots, pairs + (room + 4) * handles);
}

static void keeps(uint32_t pairs, uint32_t handles, uint32_t keep, uint64_t room) {
    citrus_handle index = CITRUS_CLOSED_HANDLE;
    const citrus_options options = citrus_options_for(pairs, handles, CITRUS_EER);
    WANT(citrus_open_keeping(&index, &options, keep), CITRUS_DONE);
    want_room(&index, pairs, handles, room);
    citrus_close(&index);
}

/* The usual number, which each open takes where none is given: an eighth of the pairs of each handle, from 64 to 65,536. */
static void usually_keeps(uint32_t pairs, uint32_t handles) {
    citrus_handle index = CITRUS_CLOSED_HANDLE;
    const uint32_t part = pairs / (8 * handles), room = part < 64 ? 64 : part > 65536 ? 65536 : part;
    const citrus_options options = citrus_options_for(pairs, handles, CITRUS_EER);
    keeps(pairs, handles, 0, room);
    WANT(citrus_open_with(&index, &options), CITRUS_DONE);
    want_room(&index, pairs, handles, room);
    WANT(citrus_open(&index, pairs, handles, CITRUS_EER), CITRUS_DONE);
    want_room(&index, pairs, handles, room);
    citrus_close(&index);
}

static void what_handles_keep_back(void) {
    static const uint32_t refused[][3] = {
        {5, 1, 1}, {5, 1, 15}, {5, 1, 1u << 30}, {5, 2, 1u << 29}, {5, 1, UINT32_MAX}, {UINT32_MAX, 1, 16}, {UINT32_MAX, CITRUS_MAX_HANDLES, UINT32_MAX},
        {0, 1, 16}, {5, 0, 16}, {5, CITRUS_MAX_HANDLES + 1, 16}, {CITRUS_MAX_ROOM - 19, 1, 0}, {UINT32_MAX, 1, 0},
    };
    keeps(5, 3, 16, 16);
    keeps(5, 3, 300, 300);
    static const uint32_t usual[][2] = {{5, 3}, {519, 1}, {520, 1}, {1039, 2}, {1040, 2}, {10000, 3}, {524287, 1}, {600000, 1}};
    for (size_t i = 0; i < COUNT_OF(usual); i++) usually_keeps(usual[i][0], usual[i][1]);
    keeps(520, 1, 0, 65);
    keeps(600000, 1, 0, 65536);
    for (size_t i = 0; i < COUNT_OF(refused); i++) {
        citrus_handle index = CITRUS_CLOSED_HANDLE;
        const citrus_options options = citrus_options_for(refused[i][0], refused[i][1], CITRUS_EER);
        WANT(citrus_open_keeping(&index, &options, refused[i][2]), CITRUS_BAD_ARGUMENT);
        WANT(index.at == NULL, 1);
    }
}

/* That of the most pairs has more memory than most machines: see memory.c. */
static void the_most_handles(void) {
    static citrus_handle handles[CITRUS_MAX_HANDLES];
    uint64_t told = UNTOUCHED;
    WANT(citrus_open(&handles[0], CITRUS_MAX_HANDLES, CITRUS_MAX_HANDLES, CITRUS_EER), CITRUS_DONE);
    for (uint64_t i = 1; i < CITRUS_MAX_HANDLES; i++) WANT(citrus_share(&handles[0], 1, 4, &handles[i]), CITRUS_DONE);
    for (uint64_t i = 0; i < CITRUS_MAX_HANDLES; i++) WANT(citrus_insert(&handles[i], i, 100 + i), CITRUS_DONE);
    for (uint64_t i = 0; i < CITRUS_MAX_HANDLES; i++) {
        WANT(citrus_get(&handles[0], i, &told), CITRUS_DONE);
        WANT(told, 100 + i);
    }
    for (uint64_t i = 0; i < CITRUS_MAX_HANDLES; i++) citrus_close(&handles[i]);
}

static void an_open_handle_is_opened_again(void) {
    citrus_handle index = CITRUS_CLOSED_HANDLE;
    uint64_t told = UNTOUCHED;
    WANT(citrus_open(&index, 5, 1, CITRUS_EER), CITRUS_DONE);
    WANT(citrus_insert(&index, 1, 10), CITRUS_DONE);
    WANT(citrus_open(&index, 5, 1, CITRUS_DEER), CITRUS_DONE);
    WANT(citrus_get(&index, 1, &told), CITRUS_UNCHANGED);
    WANT(citrus_insert(&index, 1, 11), CITRUS_DONE);
    WANT(citrus_open(&index, 0, 1, CITRUS_EER), CITRUS_BAD_ARGUMENT);
    WANT(citrus_get(&index, 1, &told), CITRUS_DONE);
    WANT(told, 11);
    citrus_close(&index);
    citrus_close(&index);
    WANT(citrus_get(&index, 1, &told), CITRUS_CLOSED);
}

static void more_is_shared_than_there_is(void) {
    citrus_handle first = CITRUS_CLOSED_HANDLE, second = CITRUS_CLOSED_HANDLE, third = CITRUS_CLOSED_HANDLE;
    uint32_t handles = 0;
    uint64_t tickets = 0;
    WANT(citrus_open(&first, 5, 3, CITRUS_EER), CITRUS_DONE);
    WANT(citrus_share(&first, 0, 4, &second), CITRUS_BAD_ARGUMENT);
    WANT(citrus_share(&first, 3, 4, &second), CITRUS_BAD_ARGUMENT);
    WANT(citrus_share(&first, UINT32_MAX, 4, &second), CITRUS_BAD_ARGUMENT);
    WANT(citrus_share(&first, 1, CITRUS_ALL_TICKETS + 1, &second), CITRUS_BAD_ARGUMENT);
    WANT(citrus_share(&first, 1, UINT64_MAX, &second), CITRUS_BAD_ARGUMENT);
    WANT(second.at == NULL, 1);
    WANT(citrus_left(&first, &handles, &tickets), CITRUS_DONE);
    WANT(handles, 2);
    WANT(tickets, CITRUS_ALL_TICKETS);
    WANT(citrus_share(&first, 1, CITRUS_ALL_TICKETS, &second), CITRUS_DONE);
    WANT(citrus_share(&first, 1, 1, &third), CITRUS_BAD_ARGUMENT);
    WANT(citrus_share(&first, 1, 0, &third), CITRUS_DONE);
    WANT(citrus_share(&second, 1, 4, &third), CITRUS_BAD_ARGUMENT);
    citrus_close(&third);
    citrus_close(&second);
    citrus_close(&first);
}

static void an_open_handle_at_a_reopen(void) {
    citrus_handle first = CITRUS_CLOSED_HANDLE, second = CITRUS_CLOSED_HANDLE, third = CITRUS_CLOSED_HANDLE;
    uint32_t handles = 0;
    uint64_t told = UNTOUCHED, tickets = 0;
    WANT(citrus_open(&first, 5, 3, CITRUS_EER), CITRUS_DONE);
    WANT(citrus_share(&first, 1, 600, &second), CITRUS_DONE);
    WANT(citrus_share(&first, 1, 700, &third), CITRUS_DONE);
    citrus_close(&third);
    WANT(citrus_open(&third, 5, 1, CITRUS_DEER), CITRUS_DONE);
    WANT(citrus_insert(&third, 1, 10), CITRUS_DONE);
    WANT(citrus_reopen(&first, &second), CITRUS_BAD_ARGUMENT);
    WANT(citrus_reopen(&first, &third), CITRUS_BAD_ARGUMENT);
    WANT(citrus_left(&second, &handles, &tickets), CITRUS_DONE);
    WANT(tickets, 600);
    WANT(citrus_get(&third, 1, &told), CITRUS_DONE);
    citrus_close(&third);
    WANT(citrus_reopen(&first, &third), CITRUS_DONE);
    WANT(citrus_left(&third, &handles, &tickets), CITRUS_DONE);
    WANT(tickets, 700);
    citrus_close(&third);
    citrus_close(&second);
    citrus_close(&first);
}

static void lists_of_nothing_and_of_too_much(void) {
    citrus_handle index = CITRUS_CLOSED_HANDLE;
    /* Addresses alone, of which few get memory: zeros. */
    const size_t bytes = (CITRUS_MAX_ROOM + (size_t)1) * sizeof(citrus_pair);
    citrus_pair *pairs = mmap(NULL, bytes, PROT_READ | PROT_WRITE, MAP_PRIVATE | MAP_ANONYMOUS | MAP_NORESERVE, -1, 0);
    size_t count = 9;
    uint64_t next = UNTOUCHED;
    if (pairs == MAP_FAILED) abort();
    WANT(citrus_open(&index, 5, 1, CITRUS_EER), CITRUS_DONE);
    WANT(citrus_insert(&index, 5, 50), CITRUS_DONE);
    WANT(citrus_list(&index, 6, 5, pairs, 1, &count, &next), CITRUS_BAD_ARGUMENT);
    WANT(count, 0);
    count = 9;
    WANT(citrus_list_down(&index, 6, 5, pairs, 1, &count, &next), CITRUS_BAD_ARGUMENT);
    WANT(count, 0);
    count = 9;
    WANT(citrus_list(&index, 0, 9, pairs, 0, &count, &next), CITRUS_BAD_ARGUMENT);
    WANT(count, 0);
    count = 9;
    WANT(citrus_list(&index, 0, 9, pairs, CITRUS_MAX_ROOM + (size_t)1, &count, &next), CITRUS_BAD_ARGUMENT);
    WANT(count, 0);
    WANT(pairs[0].key, 0);
    /* The library asks for as much memory as the room has, which a small machine doesn't promise. */
    const int32_t most = citrus_list(&index, 0, 9, pairs, CITRUS_MAX_ROOM, &count, &next);
    if (most == CITRUS_DONE) WANT(pairs[0].key, 5);
    else WANT(most, CITRUS_NO_MEMORY);
    WANT(citrus_list(&index, 0, 9, pairs, 100, &count, &next), CITRUS_DONE);
    WANT(count, 1);
    WANT(pairs[0].key, 5);
    WANT(pairs[1].key, 0);
    WANT(next, UNTOUCHED);
    citrus_close(&index);
    munmap(pairs, bytes);
}

static void a_handle_without_tickets(void) {
    citrus_handle index = CITRUS_CLOSED_HANDLE, spent = CITRUS_CLOSED_HANDLE;
    uint64_t told = UNTOUCHED, key = UNTOUCHED, tickets = 0;
    uint32_t handles = 0;
    WANT(citrus_open(&index, 50, 3, CITRUS_EER), CITRUS_DONE);
    WANT(citrus_insert(&index, 1, 10), CITRUS_DONE);
    WANT(citrus_share(&index, 1, 3, &spent), CITRUS_DONE);
    WANT(citrus_get(&spent, 1, &told), CITRUS_SPENT);
    WANT(citrus_insert(&spent, 2, 20), CITRUS_SPENT);
    WANT(citrus_replace(&spent, 1, 11, &told), CITRUS_SPENT);
    WANT(citrus_compare(&spent, 1, 10, 11, &told), CITRUS_SPENT);
    WANT(citrus_compare(&spent, 1, 0, 11, &told), CITRUS_SPENT);
    WANT(citrus_compare(&spent, 2, 0, 11, &told), CITRUS_SPENT);
    WANT(citrus_upsert(&spent, 1, 11, &told), CITRUS_SPENT);
    WANT(citrus_remove(&spent, 1, &told), CITRUS_SPENT);
    WANT(citrus_take(&spent, 1, 0, &told), CITRUS_SPENT);
    WANT(told, UNTOUCHED);
    WANT(citrus_left(&spent, &handles, &tickets), CITRUS_DONE);
    WANT(tickets, 3);
    WANT(citrus_first(&spent, 0, &key, &told), CITRUS_DONE);
    WANT(told, 10);
    told = UNTOUCHED;
    WANT(citrus_last(&spent, 0, UINT64_MAX, &key, &told), CITRUS_DONE);
    WANT(told, 10);
    WANT(citrus_left(&spent, &handles, &tickets), CITRUS_DONE);
    WANT(tickets, 3);
    citrus_close(&spent);
    WANT(citrus_get(&index, 2, &told), CITRUS_UNCHANGED);
    WANT(citrus_share(&index, 1, 4, &spent), CITRUS_DONE);
    WANT(citrus_get(&spent, 1, &told), CITRUS_DONE);
    WANT(citrus_get(&spent, 1, &told), CITRUS_DONE);
    citrus_close(&spent);
    citrus_close(&index);
}

/* Updates go on while 4 tickets are there, use at most 4 of them, and then are refused. */
static void tickets_end(void) {
    citrus_handle index = CITRUS_CLOSED_HANDLE, few = CITRUS_CLOSED_HANDLE;
    uint64_t told = UNTOUCHED, tickets = 0, before = 200;
    uint32_t handles = 0, updates = 0;
    WANT(citrus_open(&index, 50, 2, CITRUS_EER), CITRUS_DONE);
    WANT(citrus_share(&index, 1, before, &few), CITRUS_DONE);
    while (before >= 4 && !wrong_here) {
        const uint64_t key = updates % 10;
        WANT(updates / 10 % 2 ? citrus_remove(&few, key, &told) : citrus_insert(&few, key, 7), CITRUS_DONE);
        updates++;
        WANT(citrus_left(&few, &handles, &tickets), CITRUS_DONE);
        WANT(tickets <= before && before - tickets <= 4, 1);
        before = tickets;
    }
    WANT(updates >= 50, 1);
    WANT(citrus_insert(&few, 99, 7), CITRUS_SPENT);
    citrus_close(&few);
    citrus_close(&index);
}

static const struct plain_case cases[] = {
    {"a closed handle at each call", a_closed_handle_at_each_call},
    {"numbers that open no index", numbers_that_open_no_index},
    {"what handles keep back", what_handles_keep_back},
    {"the most handles", the_most_handles},
    {"an open handle is opened again", an_open_handle_is_opened_again},
    {"more is shared than there is", more_is_shared_than_there_is},
    {"an open handle at a reopen", an_open_handle_at_a_reopen},
    {"lists of nothing and of too much", lists_of_nothing_and_of_too_much},
    {"a handle without tickets", a_handle_without_tickets},
    {"tickets end", tickets_end},
};

int main(void) {
    run_plain_cases(cases, COUNT_OF(cases));
    return failed_cases != 0;
}
