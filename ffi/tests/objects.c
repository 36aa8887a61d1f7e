/* Values that are pointers: four threads put in objects of malloc, read those that they hold, and free what they took out. An object tells
 * whether it is there still; under AddressSanitizer each use of a freed one is told as well. Usage: objects [OPERATIONS]. */
#include "crew.h"
#include <string.h>

enum { THREADS = 4, HANDLES_EACH = 2, MOST_KEPT = 64 };

static uint64_t operations = 10000;

struct object {
    uint64_t key, number, sum;
};

/* How whoever took an object out sees that its readers are gone: a wait for its key, or for all keys; or it keeps the object, begins a wait
 * for all that it keeps, and asks at its next calls. */
enum how { WAIT_FOR_KEY, WAIT_FOR_ALL, ASK_LATER };

static const char *const how_names[] = {"a wait for the key", "a wait for all keys", "a wait that is asked about"};

/* What a thread keeps: objects that it took out, of which the wait of the cookie is for the first so many. */
struct owner {
    struct member *member;
    citrus_handle asks;
    struct object *kept[MOST_KEPT];
    uint64_t count, waited_for, cookie, made, freed, state;
};

struct trial {
    enum how how;
    uint64_t keys;
    pthread_barrier_t end;
    _Atomic uint64_t made, freed, read;
};

static struct object *object_at(uint64_t value) { return (struct object *)(uintptr_t)value; }

static struct object *make(struct owner *owner, uint64_t key) {
    struct object *object = malloc(sizeof *object);
    if (!object) abort();
    *object = (struct object){key, owner->made, key ^ owner->made ^ UNTOUCHED};
    owner->made++;
    return object;
}

static void give_up(struct owner *owner, struct object *object) {
    member_wants(owner->member, "the sum of what is freed, with key", object->key, object->sum, object->key ^ object->number ^ UNTOUCHED);
    *(volatile uint64_t *)&object->sum = 0;
    free(object);
    owner->freed++;
}

static void begin(struct owner *owner) {
    uint64_t low = UINT64_MAX, high = 0;
    for (uint64_t i = 0; i < owner->count; i++) {
        if (owner->kept[i]->key < low) low = owner->kept[i]->key;
        if (owner->kept[i]->key > high) high = owner->kept[i]->key;
    }
    member_wants(owner->member, "a begin from", low, citrus_begin(&owner->asks, low, high, &owner->cookie), CITRUS_DONE);
    owner->waited_for = owner->count;
}

static void ask(struct owner *owner) {
    if (owner->waited_for) {
        const int32_t status = citrus_poll(&owner->asks, owner->cookie);
        if (status == CITRUS_UNCHANGED) return;
        member_wants(owner->member, "a poll of", owner->cookie, status, CITRUS_DONE);
        for (uint64_t i = 0; i < owner->waited_for; i++) give_up(owner, owner->kept[i]);
        owner->count -= owner->waited_for;
        memmove(owner->kept, owner->kept + owner->waited_for, owner->count * sizeof owner->kept[0]);
        owner->waited_for = 0;
    }
    if (owner->count) begin(owner);
}

static void take_over(struct owner *owner, enum how how, uint64_t key, struct object *object) {
    if (how == ASK_LATER) {
        while (owner->count == MOST_KEPT) ask(owner);
        owner->kept[owner->count++] = object;
        ask(owner);
        return;
    }
    const uint64_t low = how == WAIT_FOR_KEY ? key : 0, high = how == WAIT_FOR_KEY ? key : UINT64_MAX;
    member_wants(owner->member, "a wait for", key, citrus_wait(&owner->member->handle, low, high), CITRUS_DONE);
    give_up(owner, object);
}

/* Reads the object of a key for a while. */
static void read_object(struct owner *owner, uint64_t key) {
    struct member *me = owner->member;
    struct trial *trial = me->shared;
    uint64_t value = 0;
    const int32_t status = citrus_hold(&me->handle, key, &value);
    if (status == CITRUS_UNCHANGED) return;
    member_wants(me, "a hold of", key, status, CITRUS_DONE);
    const volatile struct object *object = object_at(value);
    for (uint64_t turn = draw(&owner->state) % 64 + 1; turn; turn--) {
        const uint64_t has_key = object->key, number = object->number;
        member_wants(me, "the key of the object of", key, has_key, key);
        member_wants(me, "the sum of the object of", key, object->sum, key ^ number ^ UNTOUCHED);
    }
    trial->read++;
    member_wants(me, "a release of", key, citrus_release(&me->handle), CITRUS_DONE);
}

static void update(struct owner *owner, uint64_t key, uint64_t which) {
    struct member *me = owner->member;
    const enum how how = ((struct trial *)me->shared)->how;
    struct object *object = which < 3 ? make(owner, key) : NULL;
    const uint64_t value = (uint64_t)(uintptr_t)object;
    uint64_t old = 0;
    int32_t status;
    switch (which) {
    case 0: status = citrus_insert(&me->handle, key, value); break;
    case 1: status = citrus_replace(&me->handle, key, value, &old); break;
    case 2: status = citrus_upsert(&me->handle, key, value, &old); break;
    default: status = citrus_remove(&me->handle, key, &old);
    }
    if (status == CITRUS_DONE && which) take_over(owner, how, key, object_at(old));
    else if (object && (status == CITRUS_UNCHANGED || status == CITRUS_MOVED)) give_up(owner, object);
    else if (status != CITRUS_NEW && status != CITRUS_UNCHANGED) member_wants(me, "an update of", key, status, CITRUS_DONE);
}

/* What is left when all have made their calls, so that nobody reads. */
static void free_the_rest(struct owner *owner, uint64_t keys) {
    uint64_t old = 0;
    for (uint64_t key = 0; key < keys; key++)
        if (citrus_remove(&owner->member->handle, key, &old) == CITRUS_DONE) give_up(owner, object_at(old));
}

static void *work(void *member) {
    struct member *me = member;
    struct trial *trial = me->shared;
    struct owner owner = {.member = me, .asks = CITRUS_CLOSED_HANDLE, .state = 88172645463325252u + 7919 * me->number};
    member_wants(me, "a share", 0, citrus_share(&me->handle, 1, CITRUS_ALL_TICKETS / 128, &owner.asks), CITRUS_DONE);
    for (uint64_t i = 0; i < operations && !me->wrong; i++) {
        const uint64_t which = draw(&owner.state) % 8, key = draw(&owner.state) % trial->keys;
        if (which < 4) update(&owner, key, which);
        else read_object(&owner, key);
    }
    while (owner.count && !me->wrong) ask(&owner);
    pthread_barrier_wait(&trial->end);
    if (me->number == 0) free_the_rest(&owner, trial->keys);
    trial->made += owner.made;
    trial->freed += owner.freed;
    citrus_close(&owner.asks);
    return NULL;
}

static void run_on(enum how how, uint64_t keys, uint32_t waiter) {
    struct trial trial = {.how = how, .keys = keys};
    char of[100];
    pthread_barrier_init(&trial.end, NULL, THREADS);
    run_crew(THREADS, HANDLES_EACH, (uint32_t)keys, waiter, work, &trial);
    pthread_barrier_destroy(&trial.end);
    WANT(trial.read > 0, 1);
    WANT(trial.freed, trial.made);
    snprintf(of, sizeof of, "%" PRIu64 " keys, %s, %s", keys, how_names[how], waiter_names[waiter]);
    end_case("objects are read while they are held, and each is freed", of);
}

int main(int count, char **words) {
    if (count > 1) operations = strtoull(words[1], NULL, 10);
    for (uint32_t waiter = CITRUS_EER; waiter <= CITRUS_DEER; waiter++)
        for (enum how how = WAIT_FOR_KEY; how <= ASK_LATER; how++) {
            run_on(how, 4, waiter);
            run_on(how, 300, waiter);
        }
    return failed_cases != 0;
}
