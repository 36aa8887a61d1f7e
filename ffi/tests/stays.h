/* A reader that stays: a thread that holds a value until it may leave, and a handle beside it. */
#ifndef STAYS_H
#define STAYS_H

#include "crew.h"
#include <sched.h>
#include <time.h>

/* Whoever waits for what doesn't come goes on after so many seconds. */
enum { PATIENCE = 10 };

static inline double now(void) {
    struct timespec time;
    clock_gettime(CLOCK_MONOTONIC, &time);
    return (double)time.tv_sec + (double)time.tv_nsec / 1e9;
}

static inline void rest_a_while(void) {
    const struct timespec a_while = {0, 1000000};
    nanosleep(&a_while, NULL);
}

/* Whether the flag was set. Where whoever is to set it waits for this thread, this ends after so many seconds. */
static inline int comes_true(_Atomic int *flag) {
    for (const double begun = now(); !*flag && now() - begun < PATIENCE;) rest_a_while();
    return *flag;
}

static inline citrus_numbers numbers_of(citrus_handle *handle) {
    citrus_numbers numbers = {.size = sizeof numbers};
    WANT(citrus_stats(handle, &numbers), CITRUS_DONE);
    return numbers;
}

static inline uint64_t *object_at(uint64_t value) { return (uint64_t *)(uintptr_t)value; }

static inline uint64_t new_object(uint64_t key) {
    uint64_t *object = malloc(sizeof *object);
    if (!object) abort();
    *object = ~key;
    return (uint64_t)(uintptr_t)object;
}

/* A thread that holds the object of a key, and looks at it until it may leave. */
struct reader {
    citrus_handle handle;
    uint64_t key;
    pthread_t id;
    _Atomic int is_inside, may_leave;
    int32_t held, released;
    int was_let, has_read;
};

static inline void *stay(void *at) {
    struct reader *reader = at;
    uint64_t value = UNTOUCHED;
    reader->held = citrus_hold(&reader->handle, reader->key, &value);
    reader->is_inside = 1;
    reader->was_let = comes_true(&reader->may_leave);
    reader->has_read = reader->held == CITRUS_DONE && *(volatile uint64_t *)object_at(value) == ~reader->key;
    reader->released = citrus_release(&reader->handle);
    return NULL;
}

/* A handle of one's own, and a reader, in an index that has the pair of the reader's key. The salt is fixed, so that each run has the same tree. */
struct scene {
    citrus_handle mine;
    struct reader reader;
    uint64_t object;
};

static inline void open_scene(struct scene *scene, uint64_t key, uint32_t pairs, uint32_t handles, uint32_t waiter, uint32_t keep) {
    citrus_options options = citrus_options_for(pairs, handles, waiter);
    options.salt = 5;
    *scene = (struct scene){.mine = CITRUS_CLOSED_HANDLE, .reader.handle = CITRUS_CLOSED_HANDLE, .reader.key = key, .object = new_object(key)};
    WANT(citrus_open_keeping(&scene->mine, &options, keep), CITRUS_DONE);
    WANT(citrus_share(&scene->mine, 1, 1000000, &scene->reader.handle), CITRUS_DONE);
    WANT(citrus_insert(&scene->mine, key, scene->object), CITRUS_DONE);
}

static inline void begin_reading(struct scene *scene) {
    if (pthread_create(&scene->reader.id, NULL, stay, &scene->reader)) abort();
    WANT(comes_true(&scene->reader.is_inside), 1);
}

/* It stayed until now. */
static inline void leave(struct scene *scene) {
    scene->reader.may_leave = 1;
    pthread_join(scene->reader.id, NULL);
    WANT(scene->reader.held, CITRUS_DONE);
    WANT(scene->reader.was_let, 1);
    WANT(scene->reader.has_read, 1);
    WANT(scene->reader.released, CITRUS_DONE);
}

static inline void end_scene(struct scene *scene) {
    citrus_close(&scene->mine);
    citrus_close(&scene->reader.handle);
    free(object_at(scene->object));
}

/* A thread that takes out a pair, and says when it has. */
struct removal {
    citrus_handle *by;
    uint64_t key, old;
    int32_t status;
    _Atomic int is_over;
};

static inline void *take_out(void *at) {
    struct removal *removal = at;
    removal->status = citrus_remove(removal->by, removal->key, &removal->old);
    removal->is_over = 1;
    return NULL;
}

/* Asks until the wait is over; a poll may have several things to look at in turn. */
static inline int32_t ask(citrus_handle *by, uint64_t cookie) {
    int32_t status = CITRUS_UNCHANGED;
    for (int turn = 0; turn < 1000 && status == CITRUS_UNCHANGED; turn++) status = citrus_poll(by, cookie);
    return status;
}

/* Begins a wait for the key, and asks about it. */
static inline int32_t begin_and_ask(citrus_handle *by, uint64_t key, uint64_t *cookie) {
    WANT(citrus_begin(by, key, key, cookie), CITRUS_DONE);
    return ask(by, *cookie);
}

#endif
