/* Lanes: many lookups at once answer as one after another, alone and beside threads that update; what is refused; and what a close leaves.
 * Usage: lanes [ROUNDS]. */
#include "crew.h"

enum { PAIRS = 3000, MOST_KEYS = 1000, WRITERS = 4, KEYS_OF_ALL = 400 };

static uint64_t rounds = 3000;

static const uint32_t counts[] = {0, 1, 7, 8, 9, MOST_KEYS};

/* Which keys are asked for: those that are there are even. */
enum asked { ALL_THERE, NONE_THERE, HALF_THERE, KINDS };

static uint64_t value_of(uint64_t key) { return key * 7 + 1; }

static void fill(citrus_handle *handle, uint32_t handles, uint32_t waiter) {
    WANT(citrus_open(handle, PAIRS, handles, waiter), CITRUS_DONE);
    for (uint64_t i = 0; i < PAIRS; i++) {
        const uint64_t key = i * 1237 % PAIRS * 2;
        WANT(citrus_insert(handle, key, value_of(key)), CITRUS_DONE);
    }
}

static uint64_t key_for(enum asked which, uint64_t drawn) {
    const uint64_t even = drawn % PAIRS * 2;
    if (which == ALL_THERE) return even;
    return which == NONE_THERE ? even + 1 : even + drawn / PAIRS % 2;
}

/* Asks for so many keys, and for the room behind the answers. */
static void ask(citrus_lanes *lanes, enum asked which, uint32_t count) {
    uint64_t keys[MOST_KEYS + 1], state = 88172645463325252u + count;
    citrus_answer answers[MOST_KEYS + 1];
    for (uint32_t i = 0; i <= MOST_KEYS; i++) {
        keys[i] = key_for(which, draw(&state));
        answers[i].value = answers[i].found = UNTOUCHED;
    }
    WANT(citrus_get_many(lanes, keys, count, answers, MOST_KEYS + 1), CITRUS_DONE);
    for (uint32_t i = 0; i < count; i++) {
        const int is_there = keys[i] % 2 == 0;
        WANT(answers[i].found, is_there);
        WANT(answers[i].value, is_there ? value_of(keys[i]) : 0);
    }
    WANT(answers[count].value, UNTOUCHED);
    WANT(answers[count].found, UNTOUCHED);
}

static void answers_are_those_of_gets(uint32_t waiter) {
    for (uint32_t count = 1; count <= CITRUS_MAX_LANES; count++) {
        citrus_handle handle = CITRUS_CLOSED_HANDLE;
        citrus_lanes lanes = CITRUS_CLOSED_LANES;
        fill(&handle, 1 + count, waiter);
        WANT(citrus_open_lanes(&handle, &lanes, count), CITRUS_DONE);
        for (enum asked which = ALL_THERE; which < KINDS; which++)
            for (size_t i = 0; i < COUNT_OF(counts); i++) ask(&lanes, which, counts[i]);
        citrus_close_lanes(&lanes);
        citrus_close(&handle);
    }
}

/* Updates of a handle between two calls are seen by the second. */
static void updates_between_are_seen(uint32_t waiter) {
    citrus_handle handle = CITRUS_CLOSED_HANDLE;
    citrus_lanes lanes = CITRUS_CLOSED_LANES;
    const uint64_t keys[] = {2, 3, 2};
    citrus_answer answers[3];
    uint64_t old = 0;
    fill(&handle, 4, waiter);
    WANT(citrus_open_lanes(&handle, &lanes, 3), CITRUS_DONE);
    WANT(citrus_remove(&handle, 2, &old), CITRUS_DONE);
    WANT(citrus_insert(&handle, 3, 33), CITRUS_DONE);
    WANT(citrus_get_many(&lanes, keys, 3, answers, 3), CITRUS_DONE);
    WANT(answers[0].found, 0);
    WANT(answers[1].value, 33);
    WANT(answers[2].found, 0);
    WANT(citrus_insert(&handle, 2, 22), CITRUS_DONE);
    WANT(citrus_get_many(&lanes, keys, 3, answers, 3), CITRUS_DONE);
    WANT(answers[0].value, 22);
    WANT(answers[2].value, 22);
    citrus_close_lanes(&lanes);
    citrus_close(&handle);
}

static uint32_t handles_left(citrus_handle *handle) {
    uint32_t handles = UINT32_MAX;
    uint64_t tickets = 0;
    WANT(citrus_left(handle, &handles, &tickets), CITRUS_DONE);
    return handles;
}

static void what_cannot_be_is_refused(uint32_t waiter) {
    citrus_handle handle = CITRUS_CLOSED_HANDLE;
    citrus_lanes lanes = CITRUS_CLOSED_LANES, more = CITRUS_CLOSED_LANES;
    const uint64_t keys[] = {2, 4};
    citrus_answer answers[2] = {{UNTOUCHED, UNTOUCHED}, {UNTOUCHED, UNTOUCHED}};
    WANT(citrus_open_lanes(&handle, &lanes, 1), CITRUS_CLOSED);
    WANT(citrus_get_many(&lanes, keys, 2, answers, 2), CITRUS_CLOSED);
    citrus_close_lanes(&lanes);
    fill(&handle, 10, waiter);
    WANT(citrus_open_lanes(&handle, &lanes, 0), CITRUS_BAD_ARGUMENT);
    WANT(citrus_open_lanes(&handle, &lanes, 9), CITRUS_BAD_ARGUMENT);
    WANT(lanes.at == NULL, 1);
    WANT(citrus_enter(&handle, 2), CITRUS_DONE);
    WANT(citrus_open_lanes(&handle, &lanes, 1), CITRUS_HOLDS);
    WANT(citrus_release(&handle), CITRUS_DONE);
    WANT(handles_left(&handle), 9);
    WANT(citrus_open_lanes(&handle, &lanes, 5), CITRUS_DONE);
    WANT(handles_left(&handle), 4);
    WANT(citrus_open_lanes(&handle, &lanes, 1), CITRUS_BAD_ARGUMENT);
    WANT(citrus_open_lanes(&handle, &more, 5), CITRUS_BAD_ARGUMENT);
    WANT(handles_left(&handle), 4);
    WANT(citrus_get_many(&lanes, keys, 2, answers, 1), CITRUS_BAD_ARGUMENT);
    WANT(answers[0].value, UNTOUCHED);
    WANT(answers[1].found, UNTOUCHED);
    citrus_close_lanes(&lanes);
    citrus_close_lanes(&lanes);
    WANT(citrus_get_many(&lanes, keys, 2, answers, 2), CITRUS_CLOSED);
    citrus_close(&handle);
}

/* A reopen finds the place of each lane, with no ticket and nothing to share. */
static void a_close_leaves_the_places(uint32_t waiter) {
    citrus_handle handle = CITRUS_CLOSED_HANDLE, others[8];
    citrus_lanes lanes = CITRUS_CLOSED_LANES;
    fill(&handle, 9, waiter);
    WANT(citrus_open_lanes(&handle, &lanes, 8), CITRUS_DONE);
    for (int i = 0; i < 8; i++) others[i] = citrus_closed_handle();
    WANT(citrus_reopen(&handle, &others[0]), CITRUS_UNCHANGED);
    ask(&lanes, HALF_THERE, 100);
    citrus_close_lanes(&lanes);
    for (int i = 0; i < 8; i++) {
        uint32_t handles = UINT32_MAX;
        uint64_t tickets = UINT64_MAX;
        WANT(citrus_reopen(&handle, &others[i]), CITRUS_DONE);
        WANT(citrus_left(&others[i], &handles, &tickets), CITRUS_DONE);
        WANT(handles, 0);
        WANT(tickets, 0);
    }
    citrus_close(&others[0]);
    WANT(citrus_reopen(&handle, &others[0]), CITRUS_DONE);
    for (int i = 0; i < 8; i++) citrus_close(&others[i]);
    citrus_close(&handle);
}

/* The index lives as long as its lanes. */
static void lanes_keep_the_index(uint32_t waiter) {
    citrus_handle handle = CITRUS_CLOSED_HANDLE;
    citrus_lanes lanes = CITRUS_CLOSED_LANES;
    fill(&handle, 9, waiter);
    WANT(citrus_open_lanes(&handle, &lanes, 8), CITRUS_DONE);
    citrus_close(&handle);
    ask(&lanes, ALL_THERE, 1000);
    citrus_close_lanes(&lanes);
}

/* Outside their calls lanes are in no section. */
static void a_wait_does_not_wait_for_idle_lanes(uint32_t waiter) {
    citrus_handle handle = CITRUS_CLOSED_HANDLE;
    citrus_lanes lanes = CITRUS_CLOSED_LANES;
    fill(&handle, 9, waiter);
    WANT(citrus_open_lanes(&handle, &lanes, 8), CITRUS_DONE);
    ask(&lanes, HALF_THERE, 9);
    WANT(citrus_wait(&handle, 0, UINT64_MAX), CITRUS_DONE);
    citrus_close_lanes(&lanes);
    citrus_close(&handle);
}

/* What a thread knows of its own keys: 0 where the key is absent, else its value. The others' values say who wrote them. */
static void look_at_all(struct member *me, citrus_lanes *lanes, const uint64_t *known, uint64_t *state) {
    uint64_t keys[64];
    citrus_answer answers[64];
    const uint64_t count = draw(state) % 65;
    for (uint64_t i = 0; i < count; i++) keys[i] = draw(state) % KEYS_OF_ALL;
    member_wants(me, "many gets, so many:", count, citrus_get_many(lanes, keys, count, answers, 64), CITRUS_DONE);
    for (uint64_t i = 0; i < count; i++) {
        const uint64_t key = keys[i];
        if (key % me->of == me->number) {
            member_wants(me, "whether its own key is there, key", key, answers[i].found, known[key] != 0);
            member_wants(me, "the value of its own key", key, answers[i].value, known[key]);
        } else if (answers[i].found) {
            member_wants(me, "who wrote the value of key", key, answers[i].value % MOST_THREADS, key % me->of);
        } else {
            member_wants(me, "the value of an absent key", key, answers[i].value, 0);
        }
    }
}

static void *update_and_look(void *member) {
    struct member *me = member;
    citrus_lanes lanes = CITRUS_CLOSED_LANES;
    uint64_t known[KEYS_OF_ALL] = {0}, state = 88172645463325252u + 7919 * me->number, old = 0;
    member_wants(me, "an open of lanes", 0, citrus_open_lanes(&me->handle, &lanes, *(const uint32_t *)me->shared), CITRUS_DONE);
    for (uint64_t round = 1; round <= rounds && !me->wrong; round++) {
        const uint64_t key = draw(&state) % (KEYS_OF_ALL / me->of) * me->of + me->number;
        const uint64_t value = round * MOST_THREADS + me->number;
        if (known[key] && draw(&state) % 2) {
            member_wants(me, "a remove of", key, citrus_remove(&me->handle, key, &old), CITRUS_DONE);
            known[key] = 0;
        } else {
            member_wants(me, "an upsert of", key, citrus_upsert(&me->handle, key, value, &old), known[key] ? CITRUS_DONE : CITRUS_NEW);
            known[key] = value;
        }
        look_at_all(me, &lanes, known, &state);
    }
    citrus_close_lanes(&lanes);
    return NULL;
}

/* Each thread gives all handles that it could share to its lanes. */
static void each_is_told_its_own_keys(uint32_t waiter) {
    for (uint32_t count = 1; count <= CITRUS_MAX_LANES; count += count == 1 ? 1 : 3)
        run_crew(WRITERS, 1 + count, KEYS_OF_ALL, waiter, update_and_look, &count);
}

int main(int count, char **words) {
    static const struct waiter_case cases[] = {
        {"many gets answer as gets", answers_are_those_of_gets},
        {"many gets see the updates between them", updates_between_are_seen},
        {"what cannot be is refused", what_cannot_be_is_refused},
        {"a close of lanes leaves the places", a_close_leaves_the_places},
        {"lanes keep the index", lanes_keep_the_index},
        {"a wait does not wait for idle lanes", a_wait_does_not_wait_for_idle_lanes},
        {"many gets tell each thread its own keys", each_is_told_its_own_keys},
    };
    if (count > 1) rounds = strtoull(words[1], NULL, 10);
    run_waiter_cases(cases, COUNT_OF(cases));
    return failed_cases != 0;
}
