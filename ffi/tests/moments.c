/* Lists, firsts and lasts beside updates: what they tell was so at one moment. Usage: moments [STEPS]. */
#include "crew.h"

enum { KEYS = 40 };

static uint64_t steps = 20000;

enum { THREADS = 4, PAIRS = 4000 };

/* All begin once the first pairs are there, and the readers go on until the writer is done, and look once more. */
struct stage {
    pthread_barrier_t begin;
    _Atomic int is_over;
    _Atomic uint64_t answers;
};

/* Raises the values of two far keys in turn, the upper one first: at each moment it is as large as the lower one, or larger by 1. */
static void raise_in_turn(struct member *me) {
    uint64_t old = 0;
    for (uint64_t step = 1; step <= steps; step++) {
        member_wants(me, "a replace of", KEYS, citrus_replace(&me->handle, KEYS, step, &old), CITRUS_DONE);
        member_wants(me, "a replace of", 0, citrus_replace(&me->handle, 0, step, &old), CITRUS_DONE);
    }
}

static void list_both(struct member *me, struct stage *stage) {
    citrus_pair pairs[KEYS + 1];
    size_t count = 0;
    uint64_t next = 0;
    const int32_t status = citrus_list(&me->handle, 0, KEYS, pairs, KEYS + 1, &count, &next);
    member_wants(me, "a list", 0, status, CITRUS_DONE);
    member_wants(me, "the pairs of a list", 0, count, KEYS + 1);
    const uint64_t ahead = pairs[count - 1].value - pairs[0].value;
    member_wants(me, "how far apart are the values at a list of", pairs[0].value, ahead <= 1, 1);
    stage->answers++;
}

/* The first thread fills the index and updates it, the others look at it meanwhile. */
static void write_or_look(struct member *me, uint64_t first_keys, void (*write)(struct member *),
                          void (*look)(struct member *, struct stage *)) {
    struct stage *stage = me->shared;
    if (me->number == 0) {
        for (uint64_t key = 0; key < first_keys; key++)
            member_wants(me, "an insert of", key, tidied(me, key, citrus_insert(&me->handle, key, 0), CITRUS_DONE), CITRUS_DONE);
        pthread_barrier_wait(&stage->begin);
        write(me);
        stage->is_over = 1;
    } else {
        pthread_barrier_wait(&stage->begin);
        while (!stage->is_over && !me->wrong) look(me, stage);
        look(me, stage);
    }
}

static void run_stage(uint32_t waiter, void *(*work)(void *)) {
    struct stage stage = {.is_over = 0};
    pthread_barrier_init(&stage.begin, NULL, THREADS);
    run_crew(THREADS, 1, PAIRS, waiter, work, &stage);
    pthread_barrier_destroy(&stage.begin);
    WANT(stage.answers >= 1, 1);
}

static void *raise_or_list(void *member) {
    write_or_look(member, KEYS + 1, raise_in_turn, list_both);
    return NULL;
}

static void a_list_is_of_one_moment(uint32_t waiter) { run_stage(waiter, raise_or_list); }

/* Puts a second key in before it takes the first one out, so that at each moment there is a key, and at most two. */
static void walk(struct member *me) {
    uint64_t old = 0;
    for (uint64_t step = 1; step <= steps; step++) {
        const int32_t put = citrus_insert(&me->handle, step % KEYS, step);
        member_wants(me, "an insert of", step, tidied(me, step % KEYS, put, CITRUS_DONE), CITRUS_DONE);
        member_wants(me, "a remove of", step - 1, citrus_remove(&me->handle, (step - 1) % KEYS, &old), CITRUS_DONE);
        member_wants(me, "the value at the remove of", step - 1, old, step - 1);
    }
}

static void find_the_first(struct member *me, struct stage *stage) {
    uint64_t key = 0, value = 0;
    const int32_t status = citrus_first(&me->handle, 0, &key, &value);
    member_wants(me, "a first", 0, status, CITRUS_DONE);
    member_wants(me, "the key of the first with value", value, key, value % KEYS);
    stage->answers++;
}

static void find_the_last(struct member *me, struct stage *stage) {
    uint64_t key = 0, value = 0;
    const int32_t status = citrus_last(&me->handle, 0, KEYS, &key, &value);
    member_wants(me, "a last", 0, status, CITRUS_DONE);
    member_wants(me, "the key of the last with value", value, key, value % KEYS);
    stage->answers++;
}

static void *walk_or_find_the_first(void *member) {
    write_or_look(member, 1, walk, find_the_first);
    return NULL;
}

static void *walk_or_find_the_last(void *member) {
    write_or_look(member, 1, walk, find_the_last);
    return NULL;
}

static void there_is_a_first_at_each_moment(uint32_t waiter) { run_stage(waiter, walk_or_find_the_first); }
static void there_is_a_last_at_each_moment(uint32_t waiter) { run_stage(waiter, walk_or_find_the_last); }

/* With a tidy behind each put, firsts and lasts stand beside turns of the nodes that they read. */
static void there_are_both_beside_turns(uint32_t waiter) {
    tidies_behind_puts = 1;
    there_is_a_first_at_each_moment(waiter);
    there_is_a_last_at_each_moment(waiter);
    tidies_behind_puts = 0;
}

static const struct waiter_case cases[] = {
    {"a list is of one moment", a_list_is_of_one_moment},
    {"there is a first at each moment", there_is_a_first_at_each_moment},
    {"there is a last at each moment", there_is_a_last_at_each_moment},
    {"there are a first and a last at each moment, with a tidy behind each put", there_are_both_beside_turns},
};

int main(int count, char **words) {
    if (count > 1) steps = strtoull(words[1], NULL, 10);
    run_waiter_cases(cases, COUNT_OF(cases));
    return failed_cases != 0;
}
