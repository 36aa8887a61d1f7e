/* Threads with a handle each of one index. */
#ifndef CREW_H
#define CREW_H

#include "cases.h"
#include <pthread.h>
#include <stdatomic.h>
#include <stdlib.h>

enum { MOST_THREADS = 64 };

struct member {
    citrus_handle handle;
    uint32_t number, of;
    void *shared;
    uint64_t wrong;
};

/* Says what a thread was told in place of what it must be told; only the first few of it. */
static inline void member_wants(struct member *member, const char *what, uint64_t key, uint64_t told, uint64_t wanted) {
    if (told == wanted) return;
    if (member->wrong++ < 3)
        printf("thread %" PRIu32 ": %s %" PRIu64 ": %" PRId64 ", and %" PRId64 " was wanted\n", member->number, what, key, (int64_t)told,
               (int64_t)wanted);
}

/* Whether nodes are turned behind each put, however deep it went. */
static int tidies_behind_puts;

/* Turns nodes on the way to a key that was just put in, in four attempts at most. Other turns may come before its own, and the index may be
 * full. */
static inline void tidy_behind(struct member *member, uint64_t key) {
    uint32_t made = 0;
    uint64_t next = key;
    const int32_t status = citrus_tidy(&member->handle, key, key, 4, &made, &next);
    const int is_fine = status == CITRUS_MORE || status == CITRUS_FULL;
    member_wants(member, "a tidy of", key, is_fine ? CITRUS_DONE : status, CITRUS_DONE);
    member_wants(member, "the next key of a tidy of", key, next, key);
    member_wants(member, "whether a tidy made more turns than it may, of", key, made > 4, 0);
}

/* The status of an insert or an upsert, behind which the way to the key is tidied where it says that the pair was added. */
static inline int32_t tidied(struct member *member, uint64_t key, int32_t status, int32_t added) {
    if (tidies_behind_puts && status == added) tidy_behind(member, key);
    return status;
}

/* Runs the work in so many threads on a new index, each with a handle from which one handle less than `each` can be shared. They are to
 * share all of these. */
static inline void run_crew(uint32_t threads, uint32_t each, uint32_t pairs, uint32_t waiter, void *(*work)(void *), void *shared) {
    struct member members[MOST_THREADS] = {{.handle = CITRUS_CLOSED_HANDLE}};
    pthread_t ids[MOST_THREADS];
    uint32_t handles = 0;
    uint64_t tickets = 0;
    WANT(citrus_open(&members[0].handle, pairs, threads * each, waiter), CITRUS_DONE);
    for (uint32_t i = 1; i < threads; i++)
        WANT(citrus_share(&members[0].handle, each, CITRUS_ALL_TICKETS / 64, &members[i].handle), CITRUS_DONE);
    for (uint32_t i = 0; i < threads; i++) {
        members[i].number = i;
        members[i].of = threads;
        members[i].shared = shared;
        if (pthread_create(&ids[i], NULL, work, &members[i])) abort();
    }
    for (uint32_t i = 0; i < threads; i++) {
        pthread_join(ids[i], NULL);
        wrong_here += members[i].wrong != 0;
    }
    WANT(citrus_left(&members[0].handle, &handles, &tickets), CITRUS_DONE);
    WANT(handles, 0);
    for (uint32_t i = 0; i < threads; i++) citrus_close(&members[i].handle);
}

#endif
