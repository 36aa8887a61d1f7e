/* The two answers to which no run of the library comes: LOST, and MOVED of an upsert. rare.sh links this with a library whose calls give up
 * after seven rounds of waiting at most, and whose upserts make one round. */
#include "crew.h"
#include <time.h>
#include <unistd.h>

/* The keys that are there from the beginning. Only the disputed one is updated by more than one thread. */
enum { KEYS = 15, DISPUTED = 8, FAR = 1, NEVER_THERE = 1000, PAIRS = 4000, PATIENCE_SECONDS = 10 };

static int is_late(time_t began) { return time(NULL) > began + PATIENCE_SECONDS; }

/* The first values are of a key, and the later ones of a thread. */
static uint64_t first_value(uint64_t key) { return key * MOST_THREADS; }
static uint64_t value_at(const struct member *member, uint64_t step) { return step * MOST_THREADS + member->number; }

/* A handle that can't go on answers the same to each call that takes it, and nothing is written. */
static void each_call_answers(citrus_handle *handle, int32_t status) {
    citrus_pair pair = {UNTOUCHED, UNTOUCHED};
    uint64_t told = UNTOUCHED, key = UNTOUCHED;
    uint32_t made = 9;
    size_t count = 9;
    WANT(citrus_get(handle, FAR, &told), status);
    WANT(citrus_insert(handle, NEVER_THERE, 7), status);
    WANT(citrus_replace(handle, FAR, 7, &told), status);
    WANT(citrus_compare(handle, FAR, first_value(FAR), 7, &told), status);
    WANT(citrus_compare(handle, FAR, 7, 7, &told), status);
    WANT(citrus_upsert(handle, FAR, 7, &told), status);
    WANT(citrus_upsert(handle, NEVER_THERE, 7, &told), status);
    WANT(citrus_remove(handle, FAR, &told), status);
    WANT(citrus_take(handle, FAR, 7, &told), status);
    WANT(citrus_first(handle, 0, &key, &told), status);
    WANT(citrus_last(handle, 0, KEYS, &key, &told), status);
    WANT(citrus_hold(handle, FAR, &told), status);
    WANT(citrus_enter(handle, FAR), status);
    WANT(citrus_release(handle), status);
    WANT(citrus_wait(handle, 0, UINT64_MAX), status);
    WANT(citrus_wait(handle, 1, 0), status);
    WANT(citrus_begin(handle, 0, UINT64_MAX, &told), status);
    WANT(citrus_poll(handle, 0), status);
    WANT(citrus_list(handle, 0, KEYS, &pair, 1, &count, &key), status);
    WANT(count, 0);
    count = 9;
    WANT(citrus_list(handle, 1, 0, &pair, 0, &count, &key), status);
    WANT(count, 0);
    WANT(citrus_tidy(handle, 1, 0, 0, &made, &key), status);
    WANT(made, 0);
    WANT(told, UNTOUCHED);
    WANT(key, UNTOUCHED);
    WANT(pair.key, UNTOUCHED);
    WANT(pair.value, UNTOUCHED);
}

/* Threads that update one key, until a call of one of them is told LOST. */
struct dispute {
    int32_t (*update)(struct member *, uint64_t step);
    pthread_barrier_t begin, end;
    _Atomic int is_over;
    /* The first member that was told so. Its handle goes to the first thread once the others have ended. */
    _Atomic(struct member *) lost;
};

/* What an update writes that was told this status: a value that was there before just where it is done. */
static int32_t judged(struct member *me, int32_t status, int32_t other, uint64_t old) {
    if (status != CITRUS_DONE) member_wants(me, "what is written where no value goes of", DISPUTED, old, UNTOUCHED);
    if (status != CITRUS_DONE && status != CITRUS_LOST) member_wants(me, "an update of", DISPUTED, (uint64_t)status, (uint64_t)other);
    return status;
}

static int32_t remove_it(struct member *me) {
    uint64_t old = UNTOUCHED;
    const int32_t status = citrus_remove(&me->handle, DISPUTED, &old);
    return judged(me, status, CITRUS_UNCHANGED, old);
}

static int32_t insert_or_remove_it(struct member *me, uint64_t step) {
    if (step % 2 == 0) return remove_it(me);
    return judged(me, citrus_insert(&me->handle, DISPUTED, value_at(me, step)), CITRUS_UNCHANGED, UNTOUCHED);
}

static int32_t upsert_or_remove_it(struct member *me, uint64_t step) {
    uint64_t old = UNTOUCHED;
    if (step % 2 == 0) return remove_it(me);
    const int32_t status = citrus_upsert(&me->handle, DISPUTED, value_at(me, step), &old);
    return status == CITRUS_MOVED ? judged(me, status, CITRUS_MOVED, old) : judged(me, status, CITRUS_NEW, old);
}

static void update_until_lost(struct member *me, struct dispute *dispute) {
    int32_t status = CITRUS_DONE;
    for (uint64_t step = 1; !dispute->is_over && !me->wrong && status != CITRUS_LOST; step++) status = dispute->update(me, step);
    struct member *none = NULL;
    if (status == CITRUS_LOST) atomic_compare_exchange_strong(&dispute->lost, &none, me);
}

/* A key has its first value, but for the disputed one: that has any value, or is absent. */
static void look_up(citrus_handle *handle, uint64_t key) {
    uint64_t value = UNTOUCHED;
    const int32_t status = citrus_get(handle, key, &value);
    if (status == CITRUS_UNCHANGED && key == DISPUTED) {
        WANT(value, UNTOUCHED);
        return;
    }
    WANT(status, CITRUS_DONE);
    if (key == DISPUTED) WANT(value != UNTOUCHED, 1);
    else WANT(value, first_value(key));
}

static void look_up_all(citrus_handle *handle) {
    for (uint64_t key = 1; key <= KEYS; key++) look_up(handle, key);
}

/* All pairs, of which only the disputed one may be missing. */
static void list_all(citrus_handle *handle) {
    citrus_pair pairs[KEYS + 1];
    size_t count = 0;
    uint64_t next = UNTOUCHED, value = UNTOUCHED;
    WANT(citrus_list(handle, 0, UINT64_MAX, pairs, KEYS + 1, &count, &next), CITRUS_DONE);
    const int is_there = citrus_get(handle, DISPUTED, &value) == CITRUS_DONE;
    WANT(count, is_there ? KEYS : KEYS - 1);
    for (size_t i = 0; i < count; i++) {
        const uint64_t key = i + 1 + (!is_there && i + 1 >= DISPUTED);
        WANT(pairs[i].key, key);
        WANT(pairs[i].value, key == DISPUTED ? value : first_value(key));
    }
}

/* What is left of a lost handle: nothing can be shared from it, and a share leaves both handles as they were. */
static void nothing_is_shared(citrus_handle *lost, citrus_handle *open) {
    citrus_handle closed = CITRUS_CLOSED_HANDLE;
    uint32_t handles = 0, handles_after = 0;
    uint64_t tickets = 0, tickets_after = 0, value = UNTOUCHED;
    WANT(citrus_left(lost, &handles, &tickets), CITRUS_DONE);
    WANT(handles, 1);
    WANT(tickets >= 4, 1);
    WANT(citrus_share(lost, 1, 4, &closed), CITRUS_LOST);
    WANT(citrus_share(lost, 0, 4, &closed), CITRUS_LOST);
    WANT(closed.at == NULL, 1);
    WANT(citrus_get(&closed, FAR, &value), CITRUS_CLOSED);
    WANT(citrus_share(lost, 1, 4, open), CITRUS_LOST);
    WANT(citrus_get(open, FAR, &value), CITRUS_DONE);
    WANT(value, first_value(FAR));
    WANT(citrus_left(lost, &handles_after, &tickets_after), CITRUS_DONE);
    WANT(handles_after, handles);
    WANT(tickets_after, tickets);
}

/* The lost call may have left locks behind near the disputed key. So others may be lost there too, and nowhere else. */
static void others_go_on(citrus_handle *open) {
    uint64_t old = UNTOUCHED, value = UNTOUCHED;
    look_up_all(open);
    list_all(open);
    WANT(citrus_get(open, NEVER_THERE, &value), CITRUS_UNCHANGED);
    WANT(citrus_replace(open, FAR, 77, &old), CITRUS_DONE);
    WANT(old, first_value(FAR));
    WANT(citrus_insert(open, 0, 88), CITRUS_DONE);
    WANT(citrus_remove(open, 0, &old), CITRUS_DONE);
    WANT(old, 88);
    const int32_t status = citrus_upsert(open, DISPUTED, 99, &old);
    if (status == CITRUS_LOST) {
        each_call_answers(open, CITRUS_LOST);
        return;
    }
    WANT(status == CITRUS_DONE || status == CITRUS_NEW, 1);
    WANT(citrus_get(open, DISPUTED, &value), CITRUS_DONE);
    WANT(value, 99);
}

/* The first thread makes the tree, looks while the others update, and then tries what the lost handle and the others answer. */
static void watch_the_loss(struct member *me, struct dispute *dispute) {
    citrus_handle other = CITRUS_CLOSED_HANDLE;
    const time_t began = time(NULL);
    uint64_t value = UNTOUCHED;
    WANT(citrus_share(&me->handle, 1, CITRUS_ALL_TICKETS / 128, &other), CITRUS_DONE);
    for (uint64_t apart = 8; apart >= 1; apart /= 2)
        for (uint64_t key = apart; key <= KEYS; key += 2 * apart) WANT(citrus_insert(&me->handle, key, first_value(key)), CITRUS_DONE);
    pthread_barrier_wait(&dispute->begin);
    while (!dispute->lost && !wrong_here && !is_late(began)) look_up_all(&me->handle);
    dispute->is_over = 1;
    pthread_barrier_wait(&dispute->end);
    if (!dispute->lost) {
        printf("no call was told LOST in %d s\n", PATIENCE_SECONDS);
        wrong_here++;
    } else {
        citrus_handle *lost = &dispute->lost->handle;
        each_call_answers(lost, CITRUS_LOST);
        nothing_is_shared(lost, &other);
        each_call_answers(lost, CITRUS_LOST);
        look_up_all(&me->handle);
        others_go_on(&other);
        citrus_close(lost);
        each_call_answers(lost, CITRUS_CLOSED);
        WANT(citrus_get(&me->handle, FAR, &value), CITRUS_DONE);
        WANT(value, 77);
    }
    citrus_close(&other);
}

static void *update_or_watch(void *member) {
    struct member *me = member;
    struct dispute *dispute = me->shared;
    if (me->number == 0) {
        watch_the_loss(me, dispute);
        return NULL;
    }
    pthread_barrier_wait(&dispute->begin);
    update_until_lost(me, dispute);
    pthread_barrier_wait(&dispute->end);
    return NULL;
}

/* More threads than processors: so the holder of a lock loses its turn now and then, and who waits for it gives up. */
static uint32_t many_threads(void) {
    const long processors = sysconf(_SC_NPROCESSORS_ONLN);
    return processors < 4 ? 8 : processors > 15 ? 31 : (uint32_t)(2 * processors);
}

static void run_dispute(uint32_t waiter, int32_t (*update)(struct member *, uint64_t)) {
    struct dispute dispute = {.update = update};
    const uint32_t threads = 1 + many_threads();
    pthread_barrier_init(&dispute.begin, NULL, threads);
    pthread_barrier_init(&dispute.end, NULL, threads);
    run_crew(threads, 2, PAIRS, waiter, update_or_watch, &dispute);
    pthread_barrier_destroy(&dispute.end);
    pthread_barrier_destroy(&dispute.begin);
}

/* A replace and a compare are busy wherever others are in their way. So of no library with low numbers they are LOST before their handle is. */
static void an_insert_or_a_remove_is_lost(uint32_t waiter) { run_dispute(waiter, insert_or_remove_it); }
static void an_upsert_or_a_remove_is_lost(uint32_t waiter) { run_dispute(waiter, upsert_or_remove_it); }

/* The section stays, so a remove of a node with two children gives up that waits for it, and keeps its locks. Its handle is lost; the one in the
 * section goes on, as do others elsewhere. */
static void a_remove_is_lost_behind_a_section(uint32_t waiter) {
    static const uint64_t keys[] = {40, 20, 60, 50, 70};
    citrus_handle inside = CITRUS_CLOSED_HANDLE, removes = CITRUS_CLOSED_HANDLE, other = CITRUS_CLOSED_HANDLE;
    uint64_t value = UNTOUCHED, old = UNTOUCHED;
    WANT(citrus_open(&inside, PAIRS, 3, waiter), CITRUS_DONE);
    WANT(citrus_share(&inside, 1, 1000, &removes), CITRUS_DONE);
    WANT(citrus_share(&inside, 1, 1000, &other), CITRUS_DONE);
    for (size_t i = 0; i < COUNT_OF(keys); i++) WANT(citrus_insert(&inside, keys[i], first_value(keys[i])), CITRUS_DONE);
    WANT(citrus_hold(&inside, 50, &value), CITRUS_DONE);
    WANT(citrus_remove(&removes, 40, &old), CITRUS_LOST);
    WANT(old, UNTOUCHED);
    each_call_answers(&removes, CITRUS_LOST);
    WANT(citrus_replace(&other, 20, 21, &old), CITRUS_DONE);
    WANT(citrus_wait(&other, 20, 20), CITRUS_DONE);
    WANT(citrus_release(&inside), CITRUS_DONE);
    WANT(citrus_wait(&other, 0, UINT64_MAX), CITRUS_DONE);
    WANT(citrus_get(&inside, 50, &value), CITRUS_DONE);
    WANT(value, first_value(50));
    citrus_close(&removes);
    citrus_close(&other);
    citrus_close(&inside);
}

/* One thread upserts a key that another one puts in and takes out, until an upsert is told MOVED or either is told LOST. */
struct chase {
    pthread_barrier_t begin, end;
    time_t began;
    _Atomic int is_over;
    int is_moved;
    _Atomic int is_lost;
    uint64_t moved_value, last_taken;
};

/* The upserts' values are odd, and those of the other thread even: so each knows whose value it is told. */
static void upsert_until_moved(struct member *me, struct chase *chase) {
    for (uint64_t value = 1; !chase->is_over && !me->wrong && !is_late(chase->began); value += 2) {
        uint64_t old = UNTOUCHED;
        const int32_t status = citrus_upsert(&me->handle, DISPUTED, value, &old);
        if (status == CITRUS_DONE) {
            member_wants(me, "is the old value even or before", value, old % 2 == 0 || old < value, 1);
            continue;
        }
        member_wants(me, "what an upsert writes with status", (uint64_t)status, old, UNTOUCHED);
        if (status == CITRUS_NEW) continue;
        if (status == CITRUS_LOST) {
            chase->is_lost = 1;
        } else {
            member_wants(me, "an upsert of", DISPUTED, status, CITRUS_MOVED);
            chase->is_moved = 1;
            chase->moved_value = value;
        }
        break;
    }
    chase->is_over = 1;
}

static void put_in_and_take_out(struct member *me, struct chase *chase) {
    for (uint64_t value = 2; !me->wrong; value += 2) {
        uint64_t old = UNTOUCHED;
        const int is_last = chase->is_over;
        const int32_t inserted = citrus_insert(&me->handle, DISPUTED, value);
        const int32_t removed = inserted == CITRUS_LOST ? CITRUS_LOST : citrus_remove(&me->handle, DISPUTED, &old);
        if (removed == CITRUS_LOST) {
            chase->is_lost = 1;
            break;
        }
        if (inserted != CITRUS_UNCHANGED) member_wants(me, "an insert of", DISPUTED, inserted, CITRUS_DONE);
        member_wants(me, "a remove of", DISPUTED, removed, CITRUS_DONE);
        const int is_own = inserted == CITRUS_DONE && old == value;
        if (!is_own) {
            member_wants(me, "is the value odd that was taken out", old, old % 2, 1);
            chase->last_taken = old;
        }
        if (is_last) break;
    }
    chase->is_over = 1;
}

/* An upsert that was told MOVED changed nothing, and its handle goes on. */
static void go_on_after_moved(struct member *me, const struct chase *chase) {
    citrus_pair pair = {UNTOUCHED, UNTOUCHED};
    uint64_t old = UNTOUCHED, value = UNTOUCHED, key = UNTOUCHED;
    size_t count = 9;
    WANT(chase->last_taken != chase->moved_value, 1);
    WANT(citrus_get(&me->handle, DISPUTED, &value), CITRUS_UNCHANGED);
    WANT(citrus_upsert(&me->handle, DISPUTED, 50, &old), CITRUS_NEW);
    WANT(old, UNTOUCHED);
    WANT(citrus_upsert(&me->handle, DISPUTED, 51, &old), CITRUS_DONE);
    WANT(old, 50);
    WANT(citrus_list(&me->handle, 0, UINT64_MAX, &pair, 1, &count, &key), CITRUS_DONE);
    WANT(count, 1);
    WANT(pair.key, DISPUTED);
    WANT(pair.value, 51);
    WANT(citrus_first(&me->handle, 0, &key, &value), CITRUS_DONE);
    WANT(key, DISPUTED);
    WANT(value, 51);
    WANT(citrus_replace(&me->handle, DISPUTED, 52, &old), CITRUS_DONE);
    WANT(old, 51);
    WANT(citrus_remove(&me->handle, DISPUTED, &old), CITRUS_DONE);
    WANT(old, 52);
    WANT(citrus_insert(&me->handle, DISPUTED, 53), CITRUS_DONE);
}

static void *upsert_or_toggle(void *member) {
    struct member *me = member;
    struct chase *chase = me->shared;
    pthread_barrier_wait(&chase->begin);
    if (me->number == 0) upsert_until_moved(me, chase);
    else put_in_and_take_out(me, chase);
    pthread_barrier_wait(&chase->end);
    if (me->number == 0 && chase->is_moved && !chase->is_lost && !me->wrong) go_on_after_moved(me, chase);
    return NULL;
}

/* Where the bound of rounds is low too, a call may be lost before an upsert is told MOVED: then it begins again, on a new index. */
static void an_upsert_is_moved(uint32_t waiter) {
    const time_t began = time(NULL);
    int is_seen = 0;
    while (!is_seen && !wrong_here && !is_late(began)) {
        struct chase chase = {.began = began};
        pthread_barrier_init(&chase.begin, NULL, 2);
        pthread_barrier_init(&chase.end, NULL, 2);
        run_crew(2, 1, PAIRS, waiter, upsert_or_toggle, &chase);
        pthread_barrier_destroy(&chase.end);
        pthread_barrier_destroy(&chase.begin);
        is_seen = chase.is_moved && !chase.is_lost;
    }
    if (!is_seen && !wrong_here) {
        printf("no upsert was told MOVED in %d s\n", PATIENCE_SECONDS);
        wrong_here++;
    }
}

static const struct waiter_case cases[] = {
    {"an insert or a remove is lost, and its handle", an_insert_or_a_remove_is_lost},
    {"an upsert or a remove is lost, and its handle", an_upsert_or_a_remove_is_lost},
    {"a remove behind a section is lost, and its handle", a_remove_is_lost_behind_a_section},
    {"an upsert is moved, and its handle goes on", an_upsert_is_moved},
};

int main(void) {
    run_waiter_cases(cases, COUNT_OF(cases));
    return failed_cases != 0;
}
