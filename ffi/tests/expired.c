/* Entries that two threads renew and two let expire by takes: no renewed entry is lost. Usage: expired [ROUNDS]. */
#include "crew.h"
#include <sched.h>

enum { RENEWERS = 2, THREADS = 4, ENTRIES = 4, MOST_ROUNDS = 1 << 20 };

static uint64_t rounds = 20000;

/* Each value is put in once, by its renewer, and ends once: it is replaced, taken, or there at the end. */
struct stage {
    _Atomic unsigned char *ended;
    _Atomic uint64_t taken, kept, renewing;
    pthread_barrier_t end;
};

static uint64_t value_of(const struct member *me, uint64_t round) { return 1 + RENEWERS * round + me->number; }

static void ends(struct member *me, struct stage *stage, uint64_t value) {
    const int is_one = value >= 1 && value <= RENEWERS * rounds;
    member_wants(me, "whether this was put in", value, is_one, 1);
    if (is_one) member_wants(me, "how often this had ended before,", value, atomic_fetch_add(&stage->ended[value], 1), 0);
}

static void renew(struct member *me, struct stage *stage, uint64_t round) {
    uint64_t old = UNTOUCHED;
    const int32_t status = citrus_upsert(&me->handle, round % ENTRIES, value_of(me, round), &old);
    if (status == CITRUS_DONE) ends(me, stage, old);
    else member_wants(me, "an upsert of", round % ENTRIES, status, CITRUS_NEW);
}

/* The first of them takes once at a time, and yields by itself where it is busy: then nothing is written. */
static int32_t take(struct member *me, uint64_t key, uint64_t expected, uint64_t *found) {
    int32_t status;
    if (me->number > RENEWERS) return citrus_take(&me->handle, key, expected, found);
    while ((status = citrus_take_once(&me->handle, key, expected, found)) == CITRUS_BUSY) {
        member_wants(me, "what a busy take writes, of", key, *found, UNTOUCHED);
        sched_yield();
    }
    return status;
}

/* An entry that it saw expires, unless it was renewed since. */
static void expire(struct member *me, struct stage *stage, uint64_t round) {
    const uint64_t key = round % ENTRIES;
    uint64_t seen = 0, found = UNTOUCHED;
    if (citrus_get(&me->handle, key, &seen) != CITRUS_DONE) return;
    if (round % 8 == 0) sched_yield();
    const int32_t status = take(me, key, seen, &found);
    if (status == CITRUS_DONE) {
        ends(me, stage, seen);
        stage->taken++;
    } else if (status == CITRUS_DIFFERENT) {
        member_wants(me, "whether a take tells the expected value of", key, found == seen, 0);
        stage->kept++;
        return;
    } else {
        member_wants(me, "a take of", key, status, CITRUS_UNCHANGED);
    }
    member_wants(me, "what a take writes that tells no other value, of", key, found, UNTOUCHED);
}

static void renew_all(struct member *me, struct stage *stage) {
    for (uint64_t round = 0; round < rounds && !me->wrong; round++) renew(me, stage, round);
    stage->renewing--;
}

/* As long as entries are renewed, and then each once more: so some expire, however late the renewers run. */
static void expire_all(struct member *me, struct stage *stage) {
    for (uint64_t round = 0; (stage->renewing || round < rounds) && !me->wrong; round++) expire(me, stage, round);
    for (uint64_t key = 0; key < ENTRIES && !me->wrong; key++) expire(me, stage, key);
}

static void *work(void *member) {
    struct member *me = member;
    struct stage *stage = me->shared;
    if (me->number < RENEWERS) renew_all(me, stage);
    else expire_all(me, stage);
    pthread_barrier_wait(&stage->end);
    if (me->number) return NULL;
    for (uint64_t key = 0; key < ENTRIES; key++) {
        uint64_t left = 0;
        if (citrus_get(&me->handle, key, &left) == CITRUS_DONE) ends(me, stage, left);
    }
    for (uint64_t value = 1; value <= RENEWERS * rounds; value++) member_wants(me, "how often this ended,", value, stage->ended[value], 1);
    return NULL;
}

static void each_entry_ends_once(uint32_t waiter) {
    struct stage stage = {.ended = calloc(RENEWERS * rounds + 1, 1), .renewing = RENEWERS};
    if (!stage.ended) abort();
    pthread_barrier_init(&stage.end, NULL, THREADS);
    run_crew(THREADS, 1, ENTRIES, waiter, work, &stage);
    pthread_barrier_destroy(&stage.end);
    free((void *)stage.ended);
    WANT(stage.taken >= 1, 1);
}

static const struct waiter_case cases[] = {
    {"each entry is renewed or expires once, and no renewed one is lost", each_entry_ends_once},
};

int main(int count, char **words) {
    if (count > 1) rounds = strtoull(words[1], NULL, 10);
    if (rounds > MOST_ROUNDS) rounds = MOST_ROUNDS;
    run_waiter_cases(cases, COUNT_OF(cases));
    return failed_cases != 0;
}
