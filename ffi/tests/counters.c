/* Counters that four threads raise by compares: no raise is lost. Usage: counters [RAISES]. */
#include "crew.h"
#include <sched.h>

enum { THREADS = 4, MOST_COUNTERS = 8 };

static uint64_t raises = 20000;

struct stage {
    uint64_t counters;
    pthread_barrier_t begin, loaded, end;
    _Atomic uint64_t refused;
};

/* What a thread does between its get and its compare. */
enum between { NOTHING, YIELD, WAIT_FOR_ALL };

/* The first thread makes each compare once at a time, and yields by itself where it is busy: then nothing is written. */
static int32_t compare(struct member *me, uint64_t key, uint64_t expected, uint64_t value, uint64_t *found) {
    int32_t status;
    if (me->number) return citrus_compare(&me->handle, key, expected, value, found);
    while ((status = citrus_compare_once(&me->handle, key, expected, value, found)) == CITRUS_BUSY) {
        member_wants(me, "what a busy compare writes, of counter", key, *found, UNTOUCHED);
        sched_yield();
    }
    return status;
}

/* Counters only rise: so a compare that is refused tells a greater value than the expected one. */
static void raise_it(struct member *me, struct stage *stage, uint64_t key, enum between between) {
    uint64_t value = 0, found = UNTOUCHED;
    int32_t status = citrus_get(&me->handle, key, &value);
    member_wants(me, "a get of counter", key, status, CITRUS_DONE);
    if (between == YIELD) sched_yield();
    if (between == WAIT_FOR_ALL) pthread_barrier_wait(&stage->loaded);
    while ((status = compare(me, key, value, value + 1, &found)) == CITRUS_DIFFERENT && !me->wrong) {
        member_wants(me, "whether a compare is refused for a greater value, of counter", key, found > value, 1);
        value = found;
        found = UNTOUCHED;
        stage->refused++;
    }
    member_wants(me, "a compare of counter", key, status, CITRUS_DONE);
    member_wants(me, "what a compare that is done writes, of counter", key, found, UNTOUCHED);
}

static void *raise_all(void *member) {
    struct member *me = member;
    struct stage *stage = me->shared;
    uint64_t sum = 0, value = 0;
    for (uint64_t key = 0; me->number == 0 && key < stage->counters; key++)
        member_wants(me, "an insert of counter", key, citrus_insert(&me->handle, key, 0), CITRUS_DONE);
    pthread_barrier_wait(&stage->begin);
    /* All have loaded the one counter before the first compare: so one is done, and the others are refused. */
    const uint64_t together = stage->counters == 1;
    if (together) raise_it(me, stage, 0, WAIT_FOR_ALL);
    for (uint64_t i = together; i < raises && !me->wrong; i++)
        raise_it(me, stage, (i + me->number) % stage->counters, i % 50 == 0 ? YIELD : NOTHING);
    pthread_barrier_wait(&stage->end);
    for (uint64_t key = 0; key < stage->counters; key++) {
        member_wants(me, "a get of counter", key, citrus_get(&me->handle, key, &value), CITRUS_DONE);
        sum += value;
    }
    member_wants(me, "the sum of counters", stage->counters, sum, THREADS * raises);
    return NULL;
}

static void run_on(uint64_t counters, uint32_t waiter) {
    struct stage stage = {.counters = counters};
    pthread_barrier_init(&stage.begin, NULL, THREADS);
    pthread_barrier_init(&stage.loaded, NULL, THREADS);
    pthread_barrier_init(&stage.end, NULL, THREADS);
    run_crew(THREADS, 1, MOST_COUNTERS, waiter, raise_all, &stage);
    pthread_barrier_destroy(&stage.end);
    pthread_barrier_destroy(&stage.loaded);
    pthread_barrier_destroy(&stage.begin);
    if (counters == 1) WANT(stage.refused >= THREADS - 1, 1);
}

static void one_counter(uint32_t waiter) { run_on(1, waiter); }
static void eight_counters(uint32_t waiter) { run_on(MOST_COUNTERS, waiter); }

static const struct waiter_case cases[] = {
    {"a counter is raised by four threads, and each raise counts", one_counter},
    {"eight counters are raised by four threads, and each raise counts", eight_counters},
};

int main(int count, char **words) {
    if (count > 1) raises = strtoull(words[1], NULL, 10);
    run_waiter_cases(cases, COUNT_OF(cases));
    return failed_cases != 0;
}
