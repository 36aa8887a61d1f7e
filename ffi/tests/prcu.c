/* Predicate RCU by itself: each answer of prcu.h, and four threads that read, replace and free the objects of a row of pointers. */
#include "cases.h"
#include <prcu.h>
#include <pthread.h>
#include <stdatomic.h>
#include <stdlib.h>

enum { THREADS = 4, CELLS = 8, ROUNDS = 5000 };

static void each_answer(uint32_t waiter) {
    prcu_place mine = PRCU_CLOSED_PLACE, other = PRCU_CLOSED_PLACE;
    uint64_t cookie = 0;
    WANT(prcu_enter(&mine, 7), CITRUS_CLOSED);
    WANT(prcu_open(&mine, 0, waiter), CITRUS_BAD_ARGUMENT);
    WANT(prcu_open(&mine, PRCU_MAX_PLACES, waiter), CITRUS_DONE);
    WANT(prcu_share(&mine, 1, 1, &other), CITRUS_DONE);
    WANT(prcu_leave(&mine), CITRUS_UNCHANGED);
    WANT(prcu_enter(&mine, 7), CITRUS_DONE);
    WANT(prcu_enter(&mine, 7), CITRUS_HOLDS);
    WANT(prcu_wait(&mine, 1, 2), CITRUS_HOLDS);
    WANT(prcu_wait(&other, 8, 7), CITRUS_BAD_ARGUMENT);
    WANT(prcu_begin(&other, 0, UINT64_MAX, &cookie), CITRUS_DONE);
    WANT(prcu_poll(&other, cookie), CITRUS_UNCHANGED);
    WANT(prcu_leave(&mine), CITRUS_DONE);
    while (prcu_poll(&other, cookie) == CITRUS_UNCHANGED) {}
    WANT(prcu_poll(&other, cookie), CITRUS_MOVED);
    WANT(prcu_wait(&other, 7, 7), CITRUS_SPENT);
    WANT(prcu_wait(&mine, 7, 7), CITRUS_DONE);
    prcu_close(&other);
    WANT(prcu_reopen(&mine, &other), CITRUS_DONE);
    WANT(prcu_enter(&other, 7), CITRUS_DONE);
    prcu_close(&other);
    WANT(prcu_wait(&mine, 7, 7), CITRUS_DONE);
    prcu_close(&mine);
}

struct object {
    uint64_t cell, number;
};

struct reader {
    prcu_place place;
    uint32_t number;
    uint64_t wrong, made, freed;
};

static _Atomic(struct object *) cells[CELLS];

static struct object *make(struct reader *me, uint64_t cell) {
    struct object *object = malloc(sizeof *object);
    if (!object) abort();
    *object = (struct object){cell, ~cell};
    me->made++;
    return object;
}

static void give_up(struct reader *me, struct object *object) {
    if (!object) return;
    *(volatile uint64_t *)&object->number = 0;
    free(object);
    me->freed++;
}

static void read_cell(struct reader *me, uint64_t cell, uint64_t turns) {
    me->wrong += prcu_enter(&me->place, cell) != CITRUS_DONE;
    const volatile struct object *object = atomic_load(&cells[cell]);
    while (object && turns--) me->wrong += object->cell != cell || object->number != ~cell;
    me->wrong += prcu_leave(&me->place) != CITRUS_DONE;
}

/* Replaces the object, and frees the old one after a wait for its cell. */
static void replace_cell(struct reader *me, uint64_t cell) {
    struct object *old = atomic_exchange(&cells[cell], make(me, cell));
    me->wrong += prcu_wait(&me->place, cell, cell) != CITRUS_DONE;
    give_up(me, old);
}

/* Replaces the objects of some cells, and frees the old ones after one wait that is asked about. */
static void replace_cells(struct reader *me, uint64_t low, uint64_t high) {
    struct object *old[CELLS] = {NULL};
    uint64_t cookie = 0;
    int32_t status;
    for (uint64_t cell = low; cell <= high; cell++) old[cell] = atomic_exchange(&cells[cell], make(me, cell));
    me->wrong += prcu_begin(&me->place, low, high, &cookie) != CITRUS_DONE;
    while ((status = prcu_poll(&me->place, cookie)) == CITRUS_UNCHANGED) {}
    me->wrong += status != CITRUS_DONE;
    for (uint64_t cell = low; cell <= high; cell++) give_up(me, old[cell]);
}

static void *work(void *at) {
    struct reader *me = at;
    uint64_t state = 88172645463325252u + 7919 * me->number;
    for (int round = 0; round < ROUNDS && !me->wrong; round++) {
        const uint64_t which = draw(&state) % 8, cell = draw(&state) % CELLS;
        if (which == 0) replace_cell(me, cell);
        else if (which == 1) replace_cells(me, cell / 2, cell);
        else read_cell(me, cell, draw(&state) % 64);
    }
    return NULL;
}

static void objects_are_read_replaced_and_freed(uint32_t waiter) {
    static struct reader readers[THREADS];
    pthread_t ids[THREADS];
    uint64_t made = 0, freed = 0;
    for (uint32_t i = 0; i < THREADS; i++) readers[i] = (struct reader){.place = PRCU_CLOSED_PLACE, .number = i};
    WANT(prcu_open(&readers[0].place, THREADS, waiter), CITRUS_DONE);
    for (uint32_t i = 1; i < THREADS; i++) WANT(prcu_share(&readers[0].place, 1, PRCU_ALL_TICKETS / THREADS, &readers[i].place), CITRUS_DONE);
    for (uint32_t i = 0; i < THREADS; i++)
        if (pthread_create(&ids[i], NULL, work, &readers[i])) abort();
    for (uint32_t i = 0; i < THREADS; i++) pthread_join(ids[i], NULL);
    for (uint64_t cell = 0; cell < CELLS; cell++) give_up(&readers[0], atomic_exchange(&cells[cell], NULL));
    for (uint32_t i = 0; i < THREADS; i++) {
        WANT(readers[i].wrong, 0);
        made += readers[i].made;
        freed += readers[i].freed;
        prcu_close(&readers[i].place);
    }
    WANT(freed, made);
}

static const struct waiter_case cases[] = {
    {"predicate RCU alone: each answer", each_answer},
    {"predicate RCU alone: objects are read, replaced and freed", objects_are_read_replaced_and_freed},
};

int main(void) {
    run_waiter_cases(cases, COUNT_OF(cases));
    return failed_cases != 0;
}
