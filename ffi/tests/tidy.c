/* What tidies answer and leave, in one thread, and that they leave every pair beside others' updates. */
#include "crew.h"

enum { KEYS = 3000, PAGE = 256 };

/* In orders whose ways become deep inserts turn nodes themselves. In the last one no way becomes deep, and the tree isn't the one of its keys'
 * priorities. */
static uint64_t ascending(uint64_t i) { return i; }
static uint64_t descending(uint64_t i) { return KEYS - 1 - i; }
static uint64_t inwards(uint64_t i) { return i % 2 ? KEYS - 1 - i / 2 : i / 2; }
static uint64_t scattered(uint64_t i) { return i * 1237 % KEYS; }

/* So many slots are free that none has to be given back for a turn before the handle keeps back all that it may but one. An index has these and four
 * for each handle beside those for its pairs. */
enum { ROOM = 100, KEEP = 64, EACH_HANDLE = KEEP + 4 };

/* The salt is fixed, so that each run has the same tree. */
static citrus_handle filled(uint64_t (*key_of)(uint64_t), uint32_t room, uint32_t handles, uint32_t waiter) {
    citrus_handle index = CITRUS_CLOSED_HANDLE;
    citrus_options options = citrus_options_for(KEYS + room - EACH_HANDLE, handles, waiter);
    options.salt = 5;
    WANT(citrus_open_keeping(&index, &options, KEEP), CITRUS_DONE);
    for (uint64_t i = 0; i < KEYS; i++) WANT(citrus_insert(&index, key_of(i), 10 * key_of(i)), CITRUS_DONE);
    return index;
}

static void want_all_pairs(citrus_handle *index) {
    static citrus_pair pairs[KEYS];
    size_t count = 0;
    uint64_t next = UNTOUCHED;
    WANT(citrus_list(index, 0, UINT64_MAX, pairs, KEYS, &count, &next), CITRUS_DONE);
    WANT(count, KEYS);
    for (uint64_t key = 0; key < count && !wrong_here; key++) WANT(pairs[key].key == key && pairs[key].value == 10 * key, 1);
}

/* Tidies all keys, so many turns a call: how many turns that made, and how many calls it took. */
static uint64_t turns_of(citrus_handle *index, uint32_t turns, uint64_t *calls) {
    uint64_t low = 0, sum = 0;
    uint32_t made = 0;
    for (*calls = 1;; ++*calls) {
        const uint64_t from = low;
        const int32_t status = citrus_tidy(index, low, UINT64_MAX, turns, &made, &low);
        WANT(made <= turns, 1);
        sum += made;
        if (status != CITRUS_MORE) WANT(status, CITRUS_DONE);
        if (status != CITRUS_MORE || wrong_here) return sum;
        WANT(low > from || made == turns, 1);
    }
}

static void once_tidied_no_turn_is_left(uint32_t waiter) {
    static uint64_t (*const orders[])(uint64_t) = {ascending, descending, inwards, scattered};
    for (size_t i = 0; i < COUNT_OF(orders) && !wrong_here; i++) {
        citrus_handle index = filled(orders[i], ROOM, 1, waiter);
        uint64_t calls = 0, again = 0;
        const uint64_t turns = turns_of(&index, UINT32_MAX, &calls);
        WANT(turns > 500 || orders[i] != scattered, 1);
        WANT(calls, (KEYS + PAGE - 1) / PAGE);
        want_all_pairs(&index);
        WANT(turns_of(&index, 1, &again), 0);
        WANT(again, calls);
        citrus_close(&index);
    }
}

/* The same turns are made whether a call tries one or all of them. */
static void turns_are_made_one_a_call(uint32_t waiter) {
    citrus_handle index = filled(scattered, ROOM, 1, waiter), other = filled(scattered, ROOM, 1, waiter);
    uint64_t calls = 0, single_calls = 0;
    const uint64_t turns = turns_of(&index, UINT32_MAX, &calls);
    WANT(turns_of(&other, 1, &single_calls), turns);
    WANT(single_calls >= turns, 1);
    want_all_pairs(&other);
    citrus_close(&other);
    citrus_close(&index);
}

static void a_range_is_tidied_alone(uint32_t waiter) {
    citrus_handle index = filled(scattered, ROOM, 1, waiter);
    uint32_t made = 0, again = 9;
    uint64_t next = UNTOUCHED;
    WANT(citrus_tidy(&index, 500, 500 + PAGE - 1, UINT32_MAX, &made, &next), CITRUS_DONE);
    WANT(made > 0, 1);
    WANT(citrus_tidy(&index, 500, 500 + PAGE - 1, 1, &again, &next), CITRUS_DONE);
    WANT(again, 0);
    WANT(next, UNTOUCHED);
    WANT(citrus_tidy(&index, 500, 500 + PAGE, UINT32_MAX, &made, &next), CITRUS_MORE);
    WANT(next, 500 + PAGE);
    next = UNTOUCHED;
    WANT(citrus_tidy(&index, KEYS, UINT64_MAX, 1, &again, &next), CITRUS_DONE);
    WANT(again, 0);
    WANT(next, UNTOUCHED);
    want_all_pairs(&index);
    citrus_close(&index);
}

/* An index that has as many pairs as slots has none for a turn. Slots that its handle keeps back are given back first. */
static void no_slot_is_free_for_a_turn(uint32_t waiter) {
    citrus_handle index = filled(scattered, 0, 1, waiter);
    uint32_t made = 9;
    uint64_t low = 0, told = 0, next = UNTOUCHED;
    int32_t status = CITRUS_MORE;
    while (status == CITRUS_MORE) status = citrus_tidy(&index, low, UINT64_MAX, 1000, &made, &low);
    WANT(status, CITRUS_FULL);
    WANT(made, 0);
    WANT(low < KEYS, 1);
    want_all_pairs(&index);
    /* A second remove would begin the handle's own wait for what the first one keeps back. */
    WANT(citrus_remove(&index, KEYS - 1, &told), CITRUS_DONE);
    WANT(citrus_tidy(&index, low, low, 1, &made, &next), CITRUS_MORE);
    WANT(made, 0);
    WANT(next, low);
    status = citrus_tidy(&index, low, low, 1, &made, &next);
    WANT(status == CITRUS_MORE || status == CITRUS_DONE, 1);
    WANT(made, 1);
    citrus_close(&index);
}

static void numbers_that_tidy_nothing(uint32_t waiter) {
    citrus_handle index = filled(scattered, ROOM, 2, waiter), few = CITRUS_CLOSED_HANDLE;
    uint32_t made = 9, handles = 0;
    uint64_t next = UNTOUCHED, tickets = 0;
    WANT(citrus_tidy(&index, 2, 1, 10, &made, &next), CITRUS_BAD_ARGUMENT);
    WANT(made, 0);
    made = 9;
    WANT(citrus_tidy(&index, 0, UINT64_MAX, 0, &made, &next), CITRUS_BAD_ARGUMENT);
    WANT(made, 0);
    WANT(citrus_share(&index, 1, 3, &few), CITRUS_DONE);
    made = 9;
    WANT(citrus_tidy(&few, 0, UINT64_MAX, 10, &made, &next), CITRUS_SPENT);
    WANT(made, 0);
    WANT(citrus_tidy(&few, 2, 1, 10, &made, &next), CITRUS_BAD_ARGUMENT);
    WANT(next, UNTOUCHED);
    WANT(citrus_left(&few, &handles, &tickets), CITRUS_DONE);
    WANT(tickets, 3);
    citrus_close(&few);
    citrus_close(&index);
}

/* Where tickets end it tells the key to go on with, and another handle goes on there. */
static void tickets_end_in_a_tidy(uint32_t waiter) {
    citrus_handle index = filled(scattered, ROOM, 2, waiter), few = CITRUS_CLOSED_HANDLE;
    uint32_t made = 9, handles = 0;
    uint64_t low = 0, tickets = 0, calls = 0;
    int32_t status = CITRUS_MORE;
    WANT(citrus_share(&index, 1, 30, &few), CITRUS_DONE);
    while (status == CITRUS_MORE) status = citrus_tidy(&few, low, UINT64_MAX, 1000, &made, &low);
    WANT(status, CITRUS_SPENT);
    WANT(citrus_left(&few, &handles, &tickets), CITRUS_DONE);
    WANT(tickets < 4, 1);
    citrus_close(&few);
    turns_of(&index, 1000, &calls);
    want_all_pairs(&index);
    citrus_close(&index);
}

/* One thread tidies, the others take pairs out and put them in again. */
static void *update_or_tidy(void *member) {
    struct member *me = member;
    _Atomic uint32_t *busy = me->shared;
    uint64_t low = 0, old = 0;
    uint32_t made = 0;
    if (me->number != 0) {
        for (uint64_t i = 0; i < 20000 && !me->wrong; i++) {
            const uint64_t key = (i * 7 % (KEYS / 4)) * 4 + me->number;
            member_wants(me, "an insert of", key, citrus_insert(&me->handle, key, 10 * key), i < KEYS / 4 ? CITRUS_DONE : CITRUS_UNCHANGED);
            if (i < KEYS / 4) continue;
            member_wants(me, "a remove of", key, citrus_remove(&me->handle, key, &old), CITRUS_DONE);
            member_wants(me, "the value of", key, old, 10 * key);
            member_wants(me, "an insert of", key, citrus_insert(&me->handle, key, 10 * key), CITRUS_DONE);
        }
        --*busy;
        return NULL;
    }
    while (*busy > 0) {
        const int32_t status = citrus_tidy(&me->handle, low, UINT64_MAX, 50, &made, &low);
        member_wants(me, "a tidy from", low, status == CITRUS_MORE ? CITRUS_DONE : status, CITRUS_DONE);
        if (status == CITRUS_DONE) low = 0;
    }
    return NULL;
}

static void tidies_stand_beside_updates(uint32_t waiter) {
    _Atomic uint32_t busy = 3;
    run_crew(4, 1, KEYS, waiter, update_or_tidy, &busy);
}

static const struct waiter_case cases[] = {
    {"once tidied no turn is left", once_tidied_no_turn_is_left},
    {"turns are made one a call", turns_are_made_one_a_call},
    {"a range is tidied alone", a_range_is_tidied_alone},
    {"no slot is free for a turn", no_slot_is_free_for_a_turn},
    {"numbers that tidy nothing", numbers_that_tidy_nothing},
    {"tickets end in a tidy", tickets_end_in_a_tidy},
    {"tidies stand beside updates", tidies_stand_beside_updates},
};

int main(void) {
    run_waiter_cases(cases, COUNT_OF(cases));
    return failed_cases != 0;
}
