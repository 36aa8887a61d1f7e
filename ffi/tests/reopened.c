/* Handles that are closed and opened again, by many threads and by one: the places don't run out, the tickets are kept, and no pair comes
 * or goes. */
#include "crew.h"

enum { THREADS = 8, ROUNDS = 20000, KEYS = 100 };

static uint64_t tickets_of(citrus_handle *handle) {
    uint32_t handles = 0;
    uint64_t tickets = 0;
    WANT(citrus_left(handle, &handles, &tickets), CITRUS_DONE);
    return tickets;
}

/* A thread with a handle of its own shares another one from it, and in each round closes that and opens one again. Each of them is of the
 * index, and reads what it holds. Since each thread leaves a place before it asks for one, there always is one. */
static void *close_and_reopen(void *member) {
    struct member *me = member;
    citrus_handle other = CITRUS_CLOSED_HANDLE;
    uint64_t told = UNTOUCHED;
    member_wants(me, "a share", 0, citrus_share(&me->handle, 1, 1000, &other), CITRUS_DONE);
    for (uint64_t round = 0; round < ROUNDS; round++) {
        const uint64_t key = (round + me->number) % KEYS;
        citrus_close(&other);
        member_wants(me, "a reopen in round", round, citrus_reopen(&me->handle, &other), CITRUS_DONE);
        member_wants(me, "a get of", key, citrus_get(&other, key, &told), CITRUS_DONE);
        member_wants(me, "the value of", key, told, key);
    }
    citrus_close(&other);
    return NULL;
}

/* The same with updates of the thread's own keys, each by a place that others had too. */
static void *update_and_reopen(void *member) {
    struct member *me = member;
    citrus_handle other = CITRUS_CLOSED_HANDLE;
    uint64_t told = UNTOUCHED;
    member_wants(me, "a share", 0, citrus_share(&me->handle, 1, 10000000, &other), CITRUS_DONE);
    for (uint64_t round = 0; round < ROUNDS; round++) {
        const uint64_t key = round % KEYS * me->of + me->number, before = round / KEYS;
        if (before % 2) {
            member_wants(me, "a remove of", key, citrus_remove(&other, key, &told), CITRUS_DONE);
            member_wants(me, "the value of", key, told, before - 1);
        } else {
            member_wants(me, "an insert of", key, citrus_insert(&other, key, before), CITRUS_DONE);
        }
        citrus_close(&other);
        member_wants(me, "a reopen in round", round, citrus_reopen(&me->handle, &other), CITRUS_DONE);
    }
    citrus_close(&other);
    return NULL;
}

/* Runs the work in so many threads on the index, each with a handle of its own from which one more can be shared. */
static void run_members(struct member *members, void *(*work)(void *)) {
    pthread_t ids[THREADS];
    for (uint32_t i = 0; i < THREADS; i++)
        if (pthread_create(&ids[i], NULL, work, &members[i])) abort();
    for (uint32_t i = 0; i < THREADS; i++) {
        pthread_join(ids[i], NULL);
        wrong_here += members[i].wrong != 0;
    }
}

static void share_members(struct member *members, uint32_t waiter) {
    WANT(citrus_open(&members[0].handle, KEYS * THREADS, 2 * THREADS, waiter), CITRUS_DONE);
    for (uint32_t i = 0; i < THREADS; i++) {
        members[i].number = i;
        members[i].of = THREADS;
        if (i) WANT(citrus_share(&members[0].handle, 2, CITRUS_ALL_TICKETS / THREADS, &members[i].handle), CITRUS_DONE);
    }
}

/* Gets use no tickets, so what all handles have together is what the first one had: those of the threads, and those that are left. */
static void places_and_tickets_stay(uint32_t waiter) {
    struct member members[THREADS] = {{.handle = CITRUS_CLOSED_HANDLE}};
    citrus_handle left[THREADS] = {CITRUS_CLOSED_HANDLE}, none = CITRUS_CLOSED_HANDLE;
    citrus_pair pairs[KEYS + 1];
    size_t count = 9;
    uint64_t used = 0, all = 0, next = 0;
    share_members(members, waiter);
    used = tickets_of(&members[0].handle);
    for (uint64_t key = 0; key < KEYS; key++) WANT(citrus_insert(&members[0].handle, key, key), CITRUS_DONE);
    used -= tickets_of(&members[0].handle);
    run_members(members, close_and_reopen);
    for (uint32_t i = 0; i < THREADS; i++) {
        WANT(citrus_reopen(&members[0].handle, &left[i]), CITRUS_DONE);
        WANT(tickets_of(&left[i]), 1000);
        all += tickets_of(&members[i].handle) + tickets_of(&left[i]);
    }
    WANT(all + used, CITRUS_ALL_TICKETS);
    WANT(citrus_reopen(&members[0].handle, &none), CITRUS_UNCHANGED);
    WANT(citrus_list(&members[0].handle, 0, UINT64_MAX, pairs, KEYS + 1, &count, &next), CITRUS_DONE);
    WANT(count, KEYS);
    for (uint64_t i = 0; i < KEYS; i++) WANT(pairs[i].key == i && pairs[i].value == i, 1);
    for (uint32_t i = 0; i < THREADS; i++) {
        citrus_close(&members[i].handle);
        citrus_close(&left[i]);
    }
}

static void updates_by_places_of_others(uint32_t waiter) {
    struct member members[THREADS] = {{.handle = CITRUS_CLOSED_HANDLE}};
    static citrus_pair pairs[KEYS * THREADS];
    size_t count = 9;
    uint64_t next = 0;
    share_members(members, waiter);
    run_members(members, update_and_reopen);
    WANT(citrus_list(&members[0].handle, 0, UINT64_MAX, pairs, KEYS * THREADS, &count, &next), CITRUS_DONE);
    WANT(count, 0);
    for (uint32_t i = 0; i < THREADS; i++) citrus_close(&members[i].handle);
}

/* Threads that come and go, more of them than there are places: each opens a handle by the one that waits for it, and closes it. */
static void *come_and_go(void *member) {
    struct member *me = member;
    uint64_t told = UNTOUCHED;
    member_wants(me, "an insert of", me->number, citrus_insert(&me->handle, me->number, 7), CITRUS_DONE);
    member_wants(me, "a remove of", me->number, citrus_remove(&me->handle, me->number, &told), CITRUS_DONE);
    citrus_close(&me->handle);
    return NULL;
}

static void more_threads_than_places(uint32_t waiter) {
    citrus_handle index = CITRUS_CLOSED_HANDLE;
    struct member members[3] = {{.handle = CITRUS_CLOSED_HANDLE}};
    pthread_t ids[3];
    WANT(citrus_open(&index, 100, 4, waiter), CITRUS_DONE);
    for (uint32_t round = 0; round < 500; round++) {
        for (uint32_t i = 0; i < 3; i++) {
            const int32_t told = round ? citrus_reopen(&index, &members[i].handle) : citrus_share(&index, 1, 1000000, &members[i].handle);
            WANT(told, CITRUS_DONE);
            members[i].number = 3 * round + i;
            if (pthread_create(&ids[i], NULL, come_and_go, &members[i])) abort();
        }
        for (uint32_t i = 0; i < 3; i++) pthread_join(ids[i], NULL);
    }
    for (uint32_t i = 0; i < 3; i++) wrong_here += members[i].wrong != 0;
    citrus_close(&index);
}

enum { MODEL_KEYS = 50, MODEL_HANDLES = 200, OTHERS = 6, TURNS = 4000 };

/* An index with its pairs as a model has them, the value of each key or 0, the handle by which they are looked at, and how many places wait
 * for a reopen. */
struct modelled {
    citrus_handle first;
    uint64_t values[MODEL_KEYS];
    uint32_t left;
};

/* A handle that is closed, of one of the two indexes, or of one of its own. */
enum home { CLOSED = -1, OWN = 2 };

struct other {
    citrus_handle handle;
    int home;
};

static uint64_t state_here;

static uint64_t drawn_below(uint64_t bound) { return draw(&state_here) % bound; }

/* Each pair is there, and no other. */
static void has_its_pairs(struct modelled *index) {
    citrus_pair pairs[MODEL_KEYS + 1];
    size_t count = 9, at = 0;
    uint64_t next = 0;
    WANT(citrus_list(&index->first, 0, UINT64_MAX, pairs, COUNT_OF(pairs), &count, &next), CITRUS_DONE);
    for (uint64_t key = 0; key < MODEL_KEYS; key++) {
        if (!index->values[key]) continue;
        WANT(at < count && pairs[at].key == key && pairs[at].value == index->values[key], 1);
        at++;
    }
    WANT(count, at);
}

/* An insert or a remove, where the handle has tickets: lanes leave places that have none. */
static void update(citrus_handle *handle, struct modelled *index) {
    const uint64_t key = drawn_below(MODEL_KEYS), value = 1 + drawn_below(1000);
    uint64_t old = UNTOUCHED;
    if (tickets_of(handle) < 1000) return;
    if (drawn_below(2)) {
        WANT(citrus_upsert(handle, key, value, &old), index->values[key] ? CITRUS_DONE : CITRUS_NEW);
        index->values[key] = value;
    } else {
        WANT(citrus_remove(handle, key, &old), index->values[key] ? CITRUS_DONE : CITRUS_UNCHANGED);
        index->values[key] = 0;
    }
}

/* Leaves the handle in a section or outside of one. */
static void in_a_section_or_not(struct other *other) {
    if (drawn_below(2)) WANT(citrus_enter(&other->handle, drawn_below(MODEL_KEYS)), other->home == CLOSED ? CITRUS_CLOSED : CITRUS_DONE);
}

/* What was there of the handle is closed. */
static void is_left(struct modelled *indexes, struct other *other, int home) {
    if (other->home == 0 || other->home == 1) indexes[other->home].left++;
    other->home = home;
}

static void open_over(struct modelled *indexes, struct other *other, uint32_t waiter) {
    WANT(citrus_open(&other->handle, 10, 1, waiter + 3), CITRUS_BAD_ARGUMENT);
    WANT(citrus_open(&other->handle, 10, 1, waiter), CITRUS_DONE);
    is_left(indexes, other, OWN);
}

static void share_over(struct modelled *indexes, struct other *other, int home) {
    uint32_t unused = 0;
    uint64_t tickets = 0;
    WANT(citrus_left(&indexes[home].first, &unused, &tickets), CITRUS_DONE);
    WANT(citrus_share(&indexes[home].first, 1, 1000000, &other->handle), unused ? CITRUS_DONE : CITRUS_BAD_ARGUMENT);
    if (unused) is_left(indexes, other, home);
}

static void reopen(struct modelled *indexes, struct other *other, int home) {
    const int32_t told = citrus_reopen(&indexes[home].first, &other->handle);
    if (other->home != CLOSED) {
        WANT(told, CITRUS_BAD_ARGUMENT);
        return;
    }
    WANT(told, indexes[home].left ? CITRUS_DONE : CITRUS_UNCHANGED);
    if (!indexes[home].left) return;
    indexes[home].left--;
    other->home = home;
}

/* Lanes come and go; their places wait then. */
static void lanes_over(struct modelled *index) {
    const uint32_t wanted = 1 + (uint32_t)drawn_below(2);
    citrus_lanes lanes = CITRUS_CLOSED_LANES;
    uint32_t unused = 0;
    uint64_t tickets = 0;
    WANT(citrus_left(&index->first, &unused, &tickets), CITRUS_DONE);
    WANT(citrus_open_lanes(&index->first, &lanes, wanted), wanted <= unused ? CITRUS_DONE : CITRUS_BAD_ARGUMENT);
    if (wanted <= unused) index->left += wanted;
    citrus_close_lanes(&lanes);
}

/* Closes, reopens, shares and opens, over handles that are open too and may be in a section: only updates change pairs. */
static void no_pair_comes_or_goes(uint32_t waiter) {
    struct modelled indexes[2] = {{.first = CITRUS_CLOSED_HANDLE}, {.first = CITRUS_CLOSED_HANDLE}};
    struct other others[OTHERS];
    state_here = 88172645463325252u + waiter;
    for (size_t i = 0; i < OTHERS; i++) others[i] = (struct other){.handle = CITRUS_CLOSED_HANDLE, .home = CLOSED};
    for (size_t i = 0; i < 2; i++) WANT(citrus_open(&indexes[i].first, MODEL_KEYS, MODEL_HANDLES, waiter), CITRUS_DONE);
    for (uint32_t turn = 0; turn < TURNS && !wrong_here; turn++) {
        struct other *other = &others[drawn_below(OTHERS)];
        const int home = (int)drawn_below(2);
        if (other->home == 0 || other->home == 1) update(&other->handle, &indexes[other->home]);
        update(&indexes[home].first, &indexes[home]);
        in_a_section_or_not(other);
        switch (drawn_below(8)) {
        case 0: open_over(indexes, other, waiter); break;
        case 1: share_over(indexes, other, home); break;
        case 2: lanes_over(&indexes[home]); break;
        case 3:
        case 4:
            citrus_close(&other->handle);
            is_left(indexes, other, CLOSED);
            break;
        default: reopen(indexes, other, home);
        }
        for (size_t i = 0; i < 2; i++) has_its_pairs(&indexes[i]);
        if (citrus_release(&other->handle) == CITRUS_DONE) WANT(other->home != CLOSED, 1);
    }
    for (size_t i = 0; i < OTHERS; i++) citrus_close(&others[i].handle);
    for (size_t i = 0; i < 2; i++) {
        has_its_pairs(&indexes[i]);
        citrus_close(&indexes[i].first);
    }
}

static const struct waiter_case cases[] = {
    {"places and tickets stay", places_and_tickets_stay},
    {"updates by places of others", updates_by_places_of_others},
    {"more threads than places", more_threads_than_places},
    {"no pair comes or goes", no_pair_comes_or_goes},
};

int main(void) {
    run_waiter_cases(cases, COUNT_OF(cases));
    return failed_cases != 0;
}
