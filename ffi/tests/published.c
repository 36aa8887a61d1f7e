/* Threads that hand plain memory over by the index, to be run under ThreadSanitizer: what was written before a pair was put in is read by
   whoever is told the pair, in each way in which a call can put one in and tell it; and who took an object out and waited for its key writes
   to it. Its status is 0 where each answer is right; ThreadSanitizer makes another one of it where it sees a race. */
#include <citrus.h>
#include <pthread.h>
#include <stdio.h>
#include <stdlib.h>

enum { ROUNDS = 300, WAYS = 4 };

struct object { uint64_t number; };

static struct object objects[WAYS * ROUNDS + ROUNDS];

static _Noreturn void fail(const char *what, int32_t status) {
    fprintf(stderr, "%s: %s\n", what, citrus_status_name(status));
    exit(1);
}

static void expect(const char *what, int32_t status, int32_t expected) {
    if (status != expected) fail(what, status);
}

static uint64_t put(struct object *object, uint64_t number) {
    object->number = number;
    return (uint64_t)(uintptr_t)object;
}

static void read_at(const char *what, uint64_t value, uint64_t number) {
    if (((struct object *)(uintptr_t)value)->number != number) fail(what, CITRUS_DONE);
}

/* Each key has four objects, one for each call that puts one in. */
static void write_key(citrus_handle *mine, uint64_t key) {
    struct object *const its = &objects[WAYS * key];
    uint64_t old;
    expect("insert", citrus_insert(mine, key, put(&its[0], key)), CITRUS_DONE);
    expect("replace", citrus_replace(mine, key, put(&its[1], key), &old), CITRUS_DONE);
    expect("upsert", citrus_upsert(mine, key, put(&its[2], key), &old), CITRUS_DONE);
    read_at("the old value of an upsert", old, key);
    expect("compare", citrus_compare(mine, key, (uint64_t)(uintptr_t)&its[2], put(&its[3], key), &old), CITRUS_DONE);
}

/* A call that is made once, and once more while the other thread's lists keep it busy. */
#define EXPECT_DONE_ONCE(what, call)                     \
    do {                                                 \
        int32_t status_;                                 \
        do status_ = (call);                             \
        while (status_ == CITRUS_BUSY);                  \
        expect((what), status_, CITRUS_DONE);            \
    } while (0)

/* The same by the calls that the header's inline ones are made of. */
static void write_key_once(citrus_handle *mine, uint64_t key) {
    struct object *const its = &objects[WAYS * key];
    uint64_t old;
    EXPECT_DONE_ONCE("insert once", citrus_insert_once(mine, key, put(&its[0], key)));
    EXPECT_DONE_ONCE("replace once", citrus_replace_once(mine, key, put(&its[1], key), &old));
    EXPECT_DONE_ONCE("upsert once", citrus_upsert_once(mine, key, put(&its[2], key), &old));
    read_at("the old value of an upsert", old, key);
    EXPECT_DONE_ONCE("compare once", citrus_compare_once(mine, key, (uint64_t)(uintptr_t)&its[2], put(&its[3], key), &old));
}

static void *write_all(void *handle) {
    for (uint64_t key = 0; key < ROUNDS; key++) {
        if (key % 2) write_key(handle, key);
        else write_key_once(handle, key);
    }
    return NULL;
}

/* Whatever a call tells of a key leads to an object with the key's number. */
static void read_key(citrus_handle *mine, uint64_t key) {
    uint64_t value, found;
    size_t count;
    citrus_pair pairs[4];
    int32_t status;
    if (citrus_get(mine, key, &value) == CITRUS_DONE) read_at("get", value, key);
    status = citrus_first(mine, key, &found, &value);
    if (status == CITRUS_DONE) read_at("first", value, found);
    status = citrus_last(mine, 0, key, &found, &value);
    if (status == CITRUS_DONE) read_at("last", value, found);
    status = citrus_list(mine, key, key + 3, pairs, 4, &count, &found);
    if (status != CITRUS_DONE) fail("list", status);
    for (size_t i = 0; i < count; i++) read_at("list", pairs[i].value, pairs[i].key);
}

static void *read_all(void *handle) {
    for (uint64_t key = 0; key < ROUNDS; key++) {
        uint64_t value;
        int32_t status;
        do {
            read_key(handle, key);
            status = citrus_get(handle, key, &value);
        } while (status == CITRUS_UNCHANGED);
        expect("get", status, CITRUS_DONE);
    }
    return NULL;
}

/* One reads while it holds. */
static void *hold_all(void *handle) {
    citrus_handle *const mine = handle;
    for (uint64_t round = 0; round < 20 * ROUNDS; round++) {
        uint64_t value;
        if (citrus_hold(mine, round % ROUNDS, &value) != CITRUS_DONE) continue;
        read_at("hold", value, round % ROUNDS);
        expect("release", citrus_release(mine), CITRUS_DONE);
    }
    return NULL;
}

/* Another puts new objects in and writes to the old ones once nobody holds them, by a wait and by a poll in turn. */
static void *change_all(void *handle) {
    citrus_handle *const mine = handle;
    for (uint64_t key = 0; key < ROUNDS; key++) {
        uint64_t old, cookie;
        int32_t status;
        expect("replace", citrus_replace(mine, key, put(&objects[WAYS * ROUNDS + key], key), &old), CITRUS_DONE);
        if (key % 2) {
            expect("wait", citrus_wait(mine, key, key), CITRUS_DONE);
        } else {
            expect("begin", citrus_begin(mine, key, key, &cookie), CITRUS_DONE);
            do status = citrus_poll(mine, cookie);
            while (status == CITRUS_UNCHANGED);
            expect("poll", status, CITRUS_DONE);
        }
        ((struct object *)(uintptr_t)old)->number = UINT64_MAX;
    }
    return NULL;
}

static void beside(citrus_handle *mine, citrus_handle *other, void *(*one)(void *), void *(*another)(void *)) {
    pthread_t first, second;
    if (pthread_create(&first, NULL, one, mine) || pthread_create(&second, NULL, another, other)) fail("a thread", CITRUS_NO_MEMORY);
    pthread_join(first, NULL);
    pthread_join(second, NULL);
}

int main(void) {
    citrus_handle mine = CITRUS_CLOSED_HANDLE, other = CITRUS_CLOSED_HANDLE;
    expect("open", citrus_open(&mine, ROUNDS, 2, CITRUS_EER), CITRUS_DONE);
    expect("share", citrus_share(&mine, 1, CITRUS_ALL_TICKETS / 2, &other), CITRUS_DONE);
    beside(&mine, &other, write_all, read_all);
    beside(&mine, &other, change_all, hold_all);
    citrus_close(&other);
    citrus_close(&mine);
    return 0;
}
