/* Each answer of updates that are made once: while a remove waits for a reader, the nodes that it has locked are in the way of others. Then an
 * update is BUSY, writes nothing, changes nothing and keeps no slot back; and it is made once the reader has left. */
#include "cases.h"
#include <pthread.h>
#include <sched.h>
#include <stdatomic.h>
#include <stdlib.h>
#include <time.h>

/* The pair that is removed has two children, and the one that takes its place is held. A pair for TAKEN would stand below that. */
enum { GONE = 40, HELD = 50, TAKEN = 55, FREE = 25, TURNS = 100, PAIRS = 5 };

static const uint64_t keys[PAIRS] = {GONE, 20, 60, HELD, 70};

static uint64_t value_of(uint64_t key) { return 10 * key; }

/* A thread's call, which waits, and what it was told. */
struct call {
    citrus_handle handle;
    pthread_t id;
    int32_t (*make)(citrus_handle *, uint64_t *);
    int32_t status;
    uint64_t old;
    _Atomic int is_over;
};

static int32_t remove_gone(citrus_handle *handle, uint64_t *old) { return citrus_remove(handle, GONE, old); }
static int32_t replace_held(citrus_handle *handle, uint64_t *old) { return citrus_replace(handle, HELD, value_of(HELD), old); }

static void *make_call(void *at) {
    struct call *call = at;
    call->status = call->make(&call->handle, &call->old);
    call->is_over = 1;
    return NULL;
}

static void begin_call(struct call *call, int32_t (*make)(citrus_handle *, uint64_t *)) {
    call->make = make;
    call->old = UNTOUCHED;
    call->is_over = 0;
    if (pthread_create(&call->id, NULL, make_call, call)) abort();
}

static void end_call(struct call *call, uint64_t old) {
    pthread_join(call->id, NULL);
    WANT(call->status, CITRUS_DONE);
    WANT(call->old, old);
}

/* A thread that holds a value until it is told to leave. */
struct reader {
    citrus_handle handle;
    pthread_t id;
    pthread_barrier_t holds, leaves;
    int32_t held, released;
};

static void *hold_value(void *at) {
    struct reader *reader = at;
    uint64_t told = UNTOUCHED;
    reader->held = citrus_hold(&reader->handle, HELD, &told);
    pthread_barrier_wait(&reader->holds);
    pthread_barrier_wait(&reader->leaves);
    reader->released = citrus_release(&reader->handle);
    return NULL;
}

/* A reader, a remove that waits for it with its update made, and a handle of one's own. */
struct scene {
    citrus_handle mine;
    struct reader reader;
    struct call removal;
};

static void begin_scene(struct scene *scene, uint32_t waiter) {
    uint64_t told = UNTOUCHED;
    *scene = (struct scene){.mine = CITRUS_CLOSED_HANDLE, .reader.handle = CITRUS_CLOSED_HANDLE, .removal.handle = CITRUS_CLOSED_HANDLE};
    WANT(citrus_open(&scene->mine, 100, 4, waiter), CITRUS_DONE);
    WANT(citrus_share(&scene->mine, 1, 1000, &scene->reader.handle), CITRUS_DONE);
    WANT(citrus_share(&scene->mine, 1, 1000, &scene->removal.handle), CITRUS_DONE);
    for (size_t i = 0; i < PAIRS; i++) WANT(citrus_insert(&scene->mine, keys[i], value_of(keys[i])), CITRUS_DONE);
    pthread_barrier_init(&scene->reader.holds, NULL, 2);
    pthread_barrier_init(&scene->reader.leaves, NULL, 2);
    if (pthread_create(&scene->reader.id, NULL, hold_value, &scene->reader)) abort();
    pthread_barrier_wait(&scene->reader.holds);
    begin_call(&scene->removal, remove_gone);
    while (citrus_get(&scene->mine, GONE, &told) == CITRUS_DONE) sched_yield();
    WANT(scene->removal.is_over, 0);
}

static void leave_reader(struct scene *scene) {
    pthread_barrier_wait(&scene->reader.leaves);
    pthread_join(scene->reader.id, NULL);
    WANT(scene->reader.held, CITRUS_DONE);
    WANT(scene->reader.released, CITRUS_DONE);
    end_call(&scene->removal, value_of(GONE));
}

static void end_scene(struct scene *scene) {
    citrus_close(&scene->mine);
    citrus_close(&scene->reader.handle);
    citrus_close(&scene->removal.handle);
    pthread_barrier_destroy(&scene->reader.holds);
    pthread_barrier_destroy(&scene->reader.leaves);
}

/* All pairs but the one that is gone are there. */
static void all_others_are_there(citrus_handle *mine) {
    citrus_pair pairs[PAIRS];
    uint64_t next = UNTOUCHED;
    size_t count = 0;
    WANT(citrus_list(mine, 0, UINT64_MAX, pairs, PAIRS, &count, &next), CITRUS_DONE);
    WANT(count, PAIRS - 1);
    for (size_t i = 0; i < count; i++) WANT(pairs[i].key != GONE && pairs[i].value == value_of(pairs[i].key), 1);
}

static citrus_numbers numbers_of(citrus_handle *handle) {
    citrus_numbers numbers = {.size = sizeof numbers};
    WANT(citrus_stats(handle, &numbers), CITRUS_DONE);
    return numbers;
}

/* Each of these is told the same, and nothing is written. */
static void each_is_told(citrus_handle *mine, int32_t status) {
    uint64_t old = UNTOUCHED;
    WANT(citrus_insert_once(mine, TAKEN, value_of(TAKEN)), status);
    WANT(citrus_replace_once(mine, HELD, 1, &old), status);
    WANT(citrus_compare_once(mine, HELD, value_of(HELD), 1, &old), status);
    WANT(citrus_upsert_once(mine, HELD, 1, &old), status);
    WANT(citrus_upsert_once(mine, TAKEN, 1, &old), status);
    WANT(citrus_remove_once(mine, HELD, &old), status);
    WANT(citrus_take_once(mine, HELD, value_of(HELD), &old), status);
    WANT(old, UNTOUCHED);
}

static void what_is_locked_is_busy(uint32_t waiter) {
    struct scene scene;
    uint64_t old = UNTOUCHED;
    begin_scene(&scene, waiter);
    /* Others go on, and then the handle knows how many slots are free. */
    WANT(citrus_insert_once(&scene.mine, FREE, value_of(FREE)), CITRUS_DONE);
    WANT(citrus_replace_once(&scene.mine, FREE, 1, &old), CITRUS_DONE);
    WANT(citrus_remove_once(&scene.mine, FREE, &old), CITRUS_DONE);
    const citrus_numbers before = numbers_of(&scene.mine);
    for (int turn = 0; turn < TURNS && !wrong_here; turn++) each_is_told(&scene.mine, CITRUS_BUSY);
    const citrus_numbers after = numbers_of(&scene.mine);
    WANT(after.free, before.free);
    WANT(after.kept, before.kept);
    /* An upsert may make two of them: a replace, and an insert. */
    WANT(before.tickets - after.tickets <= TURNS * 9 * 4, 1);
    all_others_are_there(&scene.mine);
    WANT(scene.removal.is_over, 0);
    leave_reader(&scene);
    all_others_are_there(&scene.mine);
    end_scene(&scene);
}

/* What finds its answer without a lock tells it. */
static void what_needs_no_lock_is_told(uint32_t waiter) {
    struct scene scene;
    uint64_t old = UNTOUCHED;
    begin_scene(&scene, waiter);
    WANT(citrus_insert_once(&scene.mine, HELD, 1), CITRUS_UNCHANGED);
    WANT(citrus_replace_once(&scene.mine, GONE, 1, &old), CITRUS_UNCHANGED);
    WANT(citrus_compare_once(&scene.mine, GONE, value_of(GONE), 1, &old), CITRUS_UNCHANGED);
    WANT(citrus_remove_once(&scene.mine, GONE, &old), CITRUS_UNCHANGED);
    WANT(citrus_take_once(&scene.mine, GONE, value_of(GONE), &old), CITRUS_UNCHANGED);
    WANT(old, UNTOUCHED);
    WANT(citrus_compare_once(&scene.mine, HELD, 1, 2, &old), CITRUS_DIFFERENT);
    WANT(old, value_of(HELD));
    old = UNTOUCHED;
    WANT(citrus_take_once(&scene.mine, HELD, 1, &old), CITRUS_DIFFERENT);
    WANT(old, value_of(HELD));
    leave_reader(&scene);
    all_others_are_there(&scene.mine);
    end_scene(&scene);
}

static void what_was_busy_is_done_once_the_reader_has_left(uint32_t waiter) {
    struct scene scene;
    uint64_t old = UNTOUCHED;
    begin_scene(&scene, waiter);
    each_is_told(&scene.mine, CITRUS_BUSY);
    leave_reader(&scene);
    WANT(citrus_insert_once(&scene.mine, TAKEN, value_of(TAKEN)), CITRUS_DONE);
    WANT(citrus_replace_once(&scene.mine, HELD, 1, &old), CITRUS_DONE);
    WANT(old, value_of(HELD));
    WANT(citrus_compare_once(&scene.mine, HELD, 1, 2, &old), CITRUS_DONE);
    WANT(citrus_upsert_once(&scene.mine, HELD, 3, &old), CITRUS_DONE);
    WANT(old, 2);
    WANT(citrus_upsert_once(&scene.mine, FREE, 1, &old), CITRUS_NEW);
    WANT(citrus_remove_once(&scene.mine, HELD, &old), CITRUS_DONE);
    WANT(old, 3);
    end_scene(&scene);
}

static void the_whole_call_goes_on_until_it_is_made(uint32_t waiter) {
    const struct timespec a_while = {0, 10000000};
    struct scene scene;
    begin_scene(&scene, waiter);
    struct call call = {.handle = CITRUS_CLOSED_HANDLE};
    WANT(citrus_share(&scene.mine, 1, 100000, &call.handle), CITRUS_DONE);
    begin_call(&call, replace_held);
    nanosleep(&a_while, NULL);
    WANT(call.is_over, 0);
    leave_reader(&scene);
    end_call(&call, value_of(HELD));
    all_others_are_there(&scene.mine);
    citrus_close(&call.handle);
    end_scene(&scene);
}

static const struct waiter_case cases[] = {
    {"what is locked is busy", what_is_locked_is_busy},
    {"what needs no lock is told", what_needs_no_lock_is_told},
    {"what was busy is done once the reader has left", what_was_busy_is_done_once_the_reader_has_left},
    {"the whole call goes on until it is made", the_whole_call_goes_on_until_it_is_made},
};

int main(void) {
    run_waiter_cases(cases, COUNT_OF(cases));
    return failed_cases != 0;
}
