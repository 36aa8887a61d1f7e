/* Lists, firsts and lasts beside three writers that never rest: each that is asked for comes, and is right. Usage: always [LISTS].
 *
 * Each of four threads makes steps, as steps.h says, and the first one looks at what they leave. It makes some steps of its own between its
 * looks, and knows what its places have. */
enum { THREADS = 4, EACH = 1024 };
#include "steps.h"
#include <sched.h>

static uint64_t lists = 1000;

struct stage {
    pthread_barrier_t begin;
    struct progress writers[THREADS];
    _Atomic int is_over;
    void (*look)(struct member *, struct stage *);
};

/* Every second list is made once at a time, and yields by itself where it is busy: then nothing is written, but that there are no pairs. */
static int32_t list(struct member *me, uint64_t turn, citrus_pair *pairs, size_t *count, uint64_t *next) {
    int32_t status;
    if (turn % 2) return citrus_list(&me->handle, 0, 2 * PLACES - 1, pairs, ROOM, count, next);
    pairs[0] = (citrus_pair){UNTOUCHED, UNTOUCHED};
    while ((status = citrus_list_once(&me->handle, 0, 2 * PLACES - 1, pairs, ROOM, count, next)) == CITRUS_BUSY) {
        member_wants(me, "the first key that a busy list writes, of list", turn, pairs[0].key, UNTOUCHED);
        member_wants(me, "how many pairs a busy list tells, of list", turn, *count, 0);
        sched_yield();
    }
    return status;
}

static void list_all(struct member *me, struct stage *stage) {
    static citrus_pair pairs[ROOM];
    uint64_t before[THREADS], latest[THREADS], next = UNTOUCHED, came = 0;
    for (uint64_t turn = 0; turn < lists && !me->wrong; turn++) {
        size_t count = UNTOUCHED;
        for (uint64_t i = 0; i < 10; i++) make_step(me, &stage->writers[0]);
        for (uint64_t thread = 0; thread < THREADS; thread++) before[thread] = stage->writers[thread].steps;
        const int32_t status = list(me, turn, pairs, &count, &next);
        came += status == CITRUS_DONE;
        judge(me, pairs, count, latest);
        member_wants(me, "the own steps that are listed, of", before[0], latest[0], before[0]);
        for (uint64_t thread = 1; thread < THREADS; thread++) is_of_this_time(me, &stage->writers[thread], latest[thread], before[thread]);
    }
    member_wants(me, "what a list without more pairs writes", 0, next, UNTOUCHED);
    member_wants(me, "how many lists came, of", lists, came, lists);
}

/* A pair that is nearest to a place: at each moment one of its two keys is there, or both. */
static void judge_nearest(struct member *me, struct stage *stage, uint64_t place, uint64_t before, uint64_t key, uint64_t step) {
    const uint64_t thread = place % THREADS;
    member_wants(me, "the place of the nearest pair, key", key, key / 2, place);
    member_wants(me, "the key of the nearest pair of step", step, key, key_of(thread, step));
    if (thread == me->number) member_wants(me, "the nearest own step", step, step, last_step(place / THREADS, before));
    else is_of_this_time(me, &stage->writers[thread], step, last_step(place / THREADS, before));
}

/* Each of as many firsts and lasts as lists. The upper key of a place, or the lower one, may be the one that isn't there. */
static void find_nearest(struct member *me, struct stage *stage) {
    uint64_t state = 88172645463325252u, came = 0;
    for (uint64_t turn = 0; turn < lists && !me->wrong; turn++) {
        const uint64_t place = draw(&state) % PLACES;
        uint64_t key = UNTOUCHED, step = UNTOUCHED;
        make_step(me, &stage->writers[0]);
        uint64_t before = stage->writers[place % THREADS].steps;
        came += citrus_last(&me->handle, turn % 2 ? 0 : 2 * place, 2 * place + 1, &key, &step) == CITRUS_DONE;
        judge_nearest(me, stage, place, before, key, step);
        before = stage->writers[place % THREADS].steps;
        came += citrus_first(&me->handle, 2 * place, &key, &step) == CITRUS_DONE;
        judge_nearest(me, stage, place, before, key, step);
    }
    member_wants(me, "how many firsts and lasts came, of", 2 * lists, came, 2 * lists);
}

static uint64_t steps_of_writers(struct stage *stage) {
    uint64_t sum = 0;
    for (uint64_t thread = 1; thread < THREADS; thread++) sum += stage->writers[thread].steps;
    return sum;
}

static void *write_or_look(void *member) {
    struct member *me = member;
    struct stage *stage = me->shared;
    struct progress *own = &stage->writers[me->number];
    while (own->steps < EACH) make_step(me, own);
    pthread_barrier_wait(&stage->begin);
    if (me->number == 0) {
        for (uint64_t thread = 1; thread < THREADS; thread++)
            while (stage->writers[thread].steps == EACH) sched_yield();
        const uint64_t before = steps_of_writers(stage);
        do stage->look(me, stage);
        while (steps_of_writers(stage) == before && !me->wrong);
        stage->is_over = 1;
    }
    while (!stage->is_over && !me->wrong) make_step(me, own);
    return NULL;
}

static void run_stage(uint32_t waiter, void (*look)(struct member *, struct stage *)) {
    static struct stage stage;
    stage = (struct stage){.look = look};
    pthread_barrier_init(&stage.begin, NULL, THREADS);
    run_crew(THREADS, 1, ROOM, waiter, write_or_look, &stage);
    pthread_barrier_destroy(&stage.begin);
}

static void each_list_comes(uint32_t waiter) { run_stage(waiter, list_all); }
static void each_first_and_each_last_comes(uint32_t waiter) { run_stage(waiter, find_nearest); }

static const struct waiter_case cases[] = {
    {"beside three writers each list of 4,096 pairs comes, and is right", each_list_comes},
    {"beside three writers each first and each last comes, and is right", each_first_and_each_last_comes},
};

int main(int count, char **words) {
    if (count > 1) lists = strtoull(words[1], NULL, 10);
    run_waiter_cases(cases, COUNT_OF(cases));
    return failed_cases != 0;
}
