/* For the programs that measure sections and waits: threads that do the same, all at once. */
#ifndef SECTIONS_H
#define SECTIONS_H

#include <pthread.h>
#include <stdatomic.h>
#include <stdint.h>
#include <stdio.h>
#include <stdlib.h>
#include <time.h>

enum { OPERATIONS = 64, BATCHES = 470, ROUNDS = 15, MOST_THREADS = 64, OWN_KEYS = 500 };

struct worker {
    _Alignas(128) uint64_t state;
    uint64_t number, turn;
    void *place;
    double nanoseconds;
    pthread_t id;
};

/* Does so many operations as OPERATIONS says. */
typedef void batch(struct worker *me);

static uint64_t pairs;
static struct worker workers[MOST_THREADS];
static uint32_t threads;
static batch *work;
static _Atomic uint32_t ready;

/* What a thread does before and after, for whoever needs it. */
static void begin_thread(void);
static void end_thread(void);

static inline uint64_t mixed(uint64_t i) { return i * UINT64_C(0x9e3779b97f4a7c15) >> 20; }

/* A key that is there. */
static inline uint64_t drawn_key(struct worker *me) {
    me->state ^= me->state << 13;
    me->state ^= me->state >> 7;
    me->state ^= me->state << 17;
    return mixed((me->state >> 32) * pairs >> 32);
}

/* Any key, drawn as cheaply as can be. */
static inline uint64_t some_key(struct worker *me) { return mixed(me->turn++); }

/* A key that this thread alone puts in and takes out. */
static inline uint64_t own_key(struct worker *me) { return mixed(pairs + 1000 * (me->number + 1) + me->turn++ % OWN_KEYS); }

static inline double own_nanoseconds(void) {
    struct timespec now;
    clock_gettime(CLOCK_THREAD_CPUTIME_ID, &now);
    return (double)now.tv_sec * 1e9 + (double)now.tv_nsec;
}

static void *run_thread(void *at) {
    struct worker *me = at;
    begin_thread();
    ready++;
    while (ready < threads) {}
    const double began = own_nanoseconds();
    for (int i = 0; i < BATCHES; i++) work(me);
    me->nanoseconds = own_nanoseconds() - began;
    end_thread();
    return NULL;
}

/* Writes a line `SERIES,WHAT,THREADS,NS` with the least of all rounds: the processor time of one operation of a thread. */
static void measure(const char *series, const char *what, batch *of) {
    double least = 1e18;
    work = of;
    for (int round = 0; round < ROUNDS; round++) {
        double sum = 0;
        ready = 0;
        for (uint32_t i = 0; i < threads; i++)
            if (pthread_create(&workers[i].id, NULL, run_thread, &workers[i])) abort();
        for (uint32_t i = 0; i < threads; i++) {
            pthread_join(workers[i].id, NULL);
            sum += workers[i].nanoseconds;
        }
        const double each = sum / threads / BATCHES / OPERATIONS;
        if (each < least) least = each;
    }
    printf("%s,%s,%u,%.1f\n", series, what, (unsigned)threads, least);
    fflush(stdout);
}

#endif
