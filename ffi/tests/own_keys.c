/* Threads on one index, where each updates the keys of its own residue and so knows what it must be told of them. All read the keys of all:
 * a value says who wrote it. Usage: own_keys [OPERATIONS]. */
#include "crew.h"

enum { ROOM = 64 };

static uint64_t operations = 60000;

/* What a thread knows of its own keys: 0 where the key is absent, else its value. */
struct owner {
    struct member *member;
    uint64_t own_keys, values_written;
    uint64_t *values;
};

static uint64_t key_of(const struct owner *owner, uint64_t at) { return at * owner->member->of + owner->member->number; }

/* A value that this thread has never written before. */
static uint64_t fresh_value(struct owner *owner) { return ++owner->values_written * MOST_THREADS + owner->member->number; }

static void look(struct owner *owner, uint64_t key) {
    struct member *me = owner->member;
    uint64_t value = 0;
    const int32_t status = citrus_get(&me->handle, key, &value);
    if (key % me->of == me->number) {
        const uint64_t known = owner->values[key / me->of];
        member_wants(me, "a get of its own key", key, status, known ? CITRUS_DONE : CITRUS_UNCHANGED);
        if (known) member_wants(me, "the value of its own key", key, value, known);
    } else if (status == CITRUS_DONE) {
        member_wants(me, "who wrote the value of key", key, value % MOST_THREADS, key % me->of);
    } else {
        member_wants(me, "a get of key", key, status, CITRUS_UNCHANGED);
    }
}

/* Whether this thread owns the key and it is there. */
static int is_own_and_there(const struct owner *owner, uint64_t key) {
    const struct member *me = owner->member;
    return key % me->of == me->number && key / me->of < owner->own_keys && owner->values[key / me->of];
}

/* The last pair at or below a key: it is no lower than the last own key that is there, and an own one is that. */
static void look_below(struct owner *owner, uint64_t high) {
    struct member *me = owner->member;
    uint64_t low = high, key = UNTOUCHED, value = UNTOUCHED;
    while (low && high - low < ROOM && !is_own_and_there(owner, low)) low--;
    const int32_t status = citrus_last(&me->handle, low, high, &key, &value);
    if (status == CITRUS_UNCHANGED && !is_own_and_there(owner, low)) {
        member_wants(me, "the key where there is no last at or below", high, key, UNTOUCHED);
        return;
    }
    member_wants(me, "a last at or below", high, status, CITRUS_DONE);
    member_wants(me, "whether a last is in its range, at", high, key >= low && key <= high, 1);
    if (key % me->of == me->number) {
        member_wants(me, "the last own key at or below", high, key, low);
        member_wants(me, "the value of the last own key", key, value, owner->values[key / me->of]);
    } else {
        member_wants(me, "who wrote the value of the last key", key, value % MOST_THREADS, key % me->of);
    }
}

/* Lists the keys from this one on: they ascend, and its own ones among them are those that it knows. */
static void look_at_range(struct owner *owner, uint64_t low) {
    struct member *me = owner->member;
    citrus_pair pairs[ROOM];
    size_t count = 0, at = 0;
    uint64_t next = 0;
    const int32_t status = citrus_list(&me->handle, low, low + ROOM - 1, pairs, ROOM, &count, &next);
    member_wants(me, "a list from", low, status, CITRUS_DONE);
    for (uint64_t key = low; key < low + ROOM; key++) {
        const int is_listed = at < count && pairs[at].key == key;
        const uint64_t value = is_listed ? pairs[at].value : 0;
        if (key % me->of == me->number && key / me->of < owner->own_keys)
            member_wants(me, "a list's value of its own key", key, value, owner->values[key / me->of]);
        else if (is_listed)
            member_wants(me, "who wrote the listed value of key", key, value % MOST_THREADS, key % me->of);
        at += is_listed;
    }
    member_wants(me, "how many of a list's pairs ascend, from", low, at, count);
}

static void update(struct owner *owner, uint64_t at, uint64_t which) {
    struct member *me = owner->member;
    const uint64_t key = key_of(owner, at), known = owner->values[at], value = fresh_value(owner);
    const int32_t is_there = known ? CITRUS_DONE : CITRUS_UNCHANGED;
    const uint64_t expected = known && which == 4 ? known : known + MOST_THREADS;
    uint64_t old = known;
    switch (which) {
    case 0:
        member_wants(me, "an insert of", key, tidied(me, key, citrus_insert(&me->handle, key, value), CITRUS_DONE),
                     known ? CITRUS_UNCHANGED : CITRUS_DONE);
        if (!known) owner->values[at] = value;
        break;
    case 1:
        member_wants(me, "a replace of", key, citrus_replace(&me->handle, key, value, &old), is_there);
        if (known) owner->values[at] = value;
        break;
    case 2:
        member_wants(me, "an upsert of", key, tidied(me, key, citrus_upsert(&me->handle, key, value, &old), CITRUS_NEW),
                     known ? CITRUS_DONE : CITRUS_NEW);
        owner->values[at] = value;
        break;
    case 3:
    case 4:
        member_wants(me, "a compare of", key, citrus_compare(&me->handle, key, expected, value, &old),
                     which == 3 && known ? CITRUS_DIFFERENT : is_there);
        if (known && which == 4) owner->values[at] = value;
        break;
    default:
        member_wants(me, "a remove of", key, citrus_remove(&me->handle, key, &old), is_there);
        owner->values[at] = 0;
    }
    member_wants(me, "the value before of key", key, old, known);
}

static void *work(void *member) {
    struct member *me = member;
    const uint64_t keys = *(const uint64_t *)me->shared;
    struct owner owner = {me, keys / me->of, 0, calloc(keys / me->of, sizeof(uint64_t))};
    uint64_t state = 88172645463325252u + 7919 * me->number;
    if (!owner.values) abort();
    for (uint64_t i = 0; i < operations && !me->wrong; i++) {
        const uint64_t which = draw(&state) % 1000, drawn = draw(&state) % keys;
        if (which < 5) look_at_range(&owner, drawn);
        else if (which < 10) look_below(&owner, drawn);
        else if (which < 600) look(&owner, drawn);
        else update(&owner, drawn % owner.own_keys, which % 6);
    }
    for (uint64_t at = 0; at < owner.own_keys; at++) look(&owner, key_of(&owner, at));
    free(owner.values);
    return NULL;
}

static void run_on(uint32_t threads, uint64_t keys, uint32_t waiter) {
    char of[100];
    run_crew(threads, 1, keys, waiter, work, &keys);
    snprintf(of, sizeof of, "%" PRIu32 " threads, %" PRIu64 " keys, %s%s", threads, keys, waiter_names[waiter],
             tidies_behind_puts ? ", a tidy behind each put" : "");
    end_case("each thread is told what it knows of its own keys", of);
}

int main(int count, char **words) {
    static const uint32_t threads[] = {2, 4, 8, 16};
    if (count > 1) operations = strtoull(words[1], NULL, 10);
    for (uint32_t waiter = CITRUS_EER; waiter <= CITRUS_DEER; waiter++)
        for (size_t i = 0; i < COUNT_OF(threads); i++) {
            run_on(threads[i], 2000, waiter);
            run_on(threads[i], threads[i], waiter);
        }
    tidies_behind_puts = 1;
    for (uint32_t waiter = CITRUS_EER; waiter <= CITRUS_DEER; waiter++) {
        run_on(4, 2000, waiter);
        run_on(8, 16, waiter);
    }
    return failed_cases != 0;
}
