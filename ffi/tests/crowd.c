/* Many more threads than processors on one index, each with keys of its own, of which it knows what it must be told. Every second one makes
 * each update once at a time, and looks whether one that is BUSY has changed nothing. At the end just their pairs are there, no slot was lost,
 * and so many pairs fit as always do. Usage: crowd [OPERATIONS]. */
#include "crew.h"
#include <sched.h>
#include <string.h>

/* Of the keys of all threads each has every so-many-th: so others change the nodes beside its own. */
enum { OWN_KEYS = 12, MOST_KEYS = OWN_KEYS * MOST_THREADS, SPARE_PAIRS = 50, PATIENCE = 200 };

static uint64_t operations = 1000;

enum kind { INSERT, REPLACE, COMPARE, COMPARE_ANOTHER, UPSERT, TAKE, TAKE_ANOTHER, REMOVE, KINDS };

/* What each is told of a key that is there, and of one that isn't; and whether it tells the value that is there. */
static const struct answer {
    int32_t there, absent;
    int tells;
} answers[KINDS] = {
    [INSERT] = {CITRUS_UNCHANGED, CITRUS_DONE, 0},
    [REPLACE] = {CITRUS_DONE, CITRUS_UNCHANGED, 1},
    [COMPARE] = {CITRUS_DONE, CITRUS_UNCHANGED, 0},
    [COMPARE_ANOTHER] = {CITRUS_DIFFERENT, CITRUS_UNCHANGED, 1},
    [UPSERT] = {CITRUS_DONE, CITRUS_NEW, 1},
    [TAKE] = {CITRUS_DONE, CITRUS_UNCHANGED, 0},
    [TAKE_ANOTHER] = {CITRUS_DIFFERENT, CITRUS_UNCHANGED, 1},
    [REMOVE] = {CITRUS_DONE, CITRUS_UNCHANGED, 1},
};

/* What all threads share: how many calls were BUSY, and what each thread knows of its keys, 0 where one is absent, and else its value. */
struct stage {
    pthread_barrier_t begin, end;
    _Atomic uint64_t busy;
    struct member *members[MOST_THREADS];
    uint64_t values[MOST_THREADS][OWN_KEYS];
};

struct update {
    enum kind kind;
    uint64_t key, known, value;
};

static int32_t make(citrus_handle *handle, const struct update *update, uint64_t *old) {
    switch (update->kind) {
    case INSERT: return citrus_insert(handle, update->key, update->value);
    case REPLACE: return citrus_replace(handle, update->key, update->value, old);
    case COMPARE: return citrus_compare(handle, update->key, update->known, update->value, old);
    case COMPARE_ANOTHER: return citrus_compare(handle, update->key, update->known + 1, update->value, old);
    case UPSERT: return citrus_upsert(handle, update->key, update->value, old);
    case TAKE: return citrus_take(handle, update->key, update->known, old);
    case TAKE_ANOTHER: return citrus_take(handle, update->key, update->known + 1, old);
    default: return citrus_remove(handle, update->key, old);
    }
}

static int32_t make_once(citrus_handle *handle, const struct update *update, uint64_t *old) {
    switch (update->kind) {
    case INSERT: return citrus_insert_once(handle, update->key, update->value);
    case REPLACE: return citrus_replace_once(handle, update->key, update->value, old);
    case COMPARE: return citrus_compare_once(handle, update->key, update->known, update->value, old);
    case COMPARE_ANOTHER: return citrus_compare_once(handle, update->key, update->known + 1, update->value, old);
    case UPSERT: return citrus_upsert_once(handle, update->key, update->value, old);
    case TAKE: return citrus_take_once(handle, update->key, update->known, old);
    case TAKE_ANOTHER: return citrus_take_once(handle, update->key, update->known + 1, old);
    default: return citrus_remove_once(handle, update->key, old);
    }
}

static void key_is_as_known(struct member *me, uint64_t key, uint64_t known) {
    uint64_t value = 0;
    member_wants(me, "a get of", key, citrus_get(&me->handle, key, &value), known ? CITRUS_DONE : CITRUS_UNCHANGED);
    member_wants(me, "the value of", key, value, known);
}

/* Makes the update once at a time, with a look at its key behind each that is BUSY. */
static int32_t make_by_tries(struct member *me, const struct update *update, uint64_t *old) {
    struct stage *stage = me->shared;
    int32_t status;
    while ((status = make_once(&me->handle, update, old)) == CITRUS_BUSY) {
        stage->busy++;
        member_wants(me, "what a busy call writes, of key", update->key, *old, UNTOUCHED);
        key_is_as_known(me, update->key, update->known);
        sched_yield();
    }
    return status;
}

static uint64_t known_after(const struct update *update) {
    switch (update->kind) {
    case INSERT: return update->known ? update->known : update->value;
    case REPLACE:
    case COMPARE: return update->known ? update->value : 0;
    case COMPARE_ANOTHER:
    case TAKE_ANOTHER: return update->known;
    case UPSERT: return update->value;
    default: return 0;
    }
}

static void update_own(struct member *me, enum kind kind, uint64_t at, uint64_t value) {
    struct stage *stage = me->shared;
    uint64_t *known = &stage->values[me->number][at], old = UNTOUCHED;
    const struct update update = {kind, at * me->of + me->number, *known, value};
    const struct answer *answer = &answers[kind];
    const int32_t status = me->number % 2 ? make(&me->handle, &update, &old) : make_by_tries(me, &update, &old);
    member_wants(me, "an update of", update.key, status, *known ? answer->there : answer->absent);
    member_wants(me, "the value before, of key", update.key, old, *known && answer->tells ? *known : UNTOUCHED);
    *known = known_after(&update);
}

/* Just the pairs are there that the threads know of; how many. */
static uint64_t look_at_all(struct member *me) {
    static citrus_pair pairs[MOST_KEYS];
    const struct stage *stage = me->shared;
    uint64_t next = 0;
    size_t count = 0, at = 0;
    member_wants(me, "a list from", 0, citrus_list(&me->handle, 0, UINT64_MAX, pairs, MOST_KEYS, &count, &next), CITRUS_DONE);
    for (uint64_t key = 0; key < OWN_KEYS * (uint64_t)me->of; key++) {
        const uint64_t known = stage->values[key % me->of][key / me->of];
        const int is_listed = at < count && pairs[at].key == key;
        member_wants(me, "the value at the end, of key", key, is_listed ? pairs[at].value : 0, known);
        at += is_listed;
    }
    member_wants(me, "the pairs of a list from", 0, count, at);
    return count;
}

static citrus_numbers numbers_of(struct member *me, struct member *of) {
    citrus_numbers numbers = {.size = sizeof numbers};
    member_wants(me, "the numbers of thread", of->number, citrus_stats(&of->handle, &numbers), CITRUS_DONE);
    return numbers;
}

/* Each slot that isn't free has a pair, or is kept back by a handle. An insert that takes a free one tells how many are. */
static void no_slot_is_lost(struct member *me, uint64_t pairs) {
    const struct stage *stage = me->shared;
    uint64_t kept = 0;
    for (uint32_t i = 0; i < me->of; i++) kept += numbers_of(me, stage->members[i]).kept;
    const citrus_numbers numbers = numbers_of(me, me);
    member_wants(me, "whether more slots are taken than the pairs and kept ones, which are", pairs + kept, numbers.slots - numbers.free > pairs + kept, 0);
}

/* Alone, since all others have come to their end. */
static void look_at_the_end(struct member *me, uint64_t room) {
    uint64_t pairs = look_at_all(me), key = MOST_KEYS, kept = 0;
    /* At first it may use slots again that its handle keeps for its inserts. */
    do {
        kept = numbers_of(me, me).kept;
        member_wants(me, "an insert of a spare key", key, citrus_insert(&me->handle, key, 1), CITRUS_DONE);
        key++, pairs++;
    } while (numbers_of(me, me).kept < kept && pairs < room);
    no_slot_is_lost(me, pairs);
    for (; pairs < room; key++, pairs++)
        member_wants(me, "an insert while there is room for", room, citrus_insert(&me->handle, key, 1), CITRUS_DONE);
}

static void *work(void *member) {
    struct member *me = member;
    struct stage *stage = me->shared;
    uint64_t state = 88172645463325252u + 7919 * me->number;
    stage->members[me->number] = me;
    pthread_barrier_wait(&stage->begin);
    /* Where no call was busy by then it goes on for a while. Whether one ever is lies with the machine: busy.c makes each be. */
    for (uint64_t i = 0; (i < operations || (!stage->busy && i < PATIENCE * operations)) && !me->wrong; i++) {
        const uint64_t drawn = draw(&state) >> 8;
        update_own(me, (enum kind)(drawn % KINDS), drawn / KINDS % OWN_KEYS, 2 * (i + 1));
    }
    pthread_barrier_wait(&stage->end);
    if (me->number == 0) look_at_the_end(me, OWN_KEYS * (uint64_t)me->of + SPARE_PAIRS);
    return NULL;
}

static void run_on(uint32_t threads, uint32_t waiter) {
    static struct stage stage;
    char of[100];
    memset(&stage, 0, sizeof stage);
    pthread_barrier_init(&stage.begin, NULL, threads);
    pthread_barrier_init(&stage.end, NULL, threads);
    run_crew(threads, 1, OWN_KEYS * threads + SPARE_PAIRS, waiter, work, &stage);
    pthread_barrier_destroy(&stage.end);
    pthread_barrier_destroy(&stage.begin);
    snprintf(of, sizeof of, "%" PRIu32 " threads, %s", threads, waiter_names[waiter]);
    end_case("a crowd is told what it knows, and loses no slot", of);
}

int main(int count, char **words) {
    if (count > 1) operations = strtoull(words[1], NULL, 10);
    for (uint32_t waiter = CITRUS_EER; waiter <= CITRUS_DEER; waiter++) {
        run_on(16, waiter);
        run_on(MOST_THREADS, waiter);
    }
    return failed_cases != 0;
}
