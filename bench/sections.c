/* What sections and waits of the C library cost, beside its gets: `sections THREADS PAIRS PLACES` writes lines as sections.h says. A thread has
 * a handle, and there are so many places for handles. */
#include "fixed_salt.h"
#include "sections.h"
#include <prcu.h>

static void begin_thread(void) {}
static void end_thread(void) {}

static void get(struct worker *me) {
    uint64_t value;
    for (int i = 0; i < OPERATIONS; i++) citrus_get(me->place, drawn_key(me), &value);
}

static void hold(struct worker *me) {
    uint64_t value;
    for (int i = 0; i < OPERATIONS; i++)
        if (citrus_hold(me->place, drawn_key(me), &value) == CITRUS_DONE) citrus_release(me->place);
}

static void enter(struct worker *me) {
    for (int i = 0; i < OPERATIONS; i++) {
        prcu_enter(me->place, some_key(me));
        prcu_leave(me->place);
    }
}

static uint64_t change_one(struct worker *me) {
    const uint64_t key = own_key(me);
    uint64_t old;
    citrus_insert(me->place, key, 1);
    citrus_remove(me->place, key, &old);
    return key;
}

static void change(struct worker *me) {
    for (int i = 0; i < OPERATIONS; i++) change_one(me);
}

static void change_and_wait(struct worker *me) {
    for (int i = 0; i < OPERATIONS; i++) {
        const uint64_t key = change_one(me);
        citrus_wait(me->place, key, key);
    }
}

static void change_and_wait_once(struct worker *me) {
    change(me);
    citrus_wait(me->place, 0, UINT64_MAX);
}

static void wait_for_key(struct worker *me) {
    for (int i = 0; i < OPERATIONS; i++) {
        const uint64_t key = some_key(me);
        citrus_wait(me->place, key, key);
    }
}

static void wait_for_all(struct worker *me) {
    for (int i = 0; i < OPERATIONS; i++) citrus_wait(me->place, 0, UINT64_MAX);
}

static void ask(struct worker *me) {
    uint64_t cookie;
    for (int i = 0; i < OPERATIONS; i++) {
        const uint64_t key = some_key(me);
        if (citrus_begin(me->place, key, key, &cookie) != CITRUS_DONE) abort();
        while (citrus_poll(me->place, cookie) == CITRUS_UNCHANGED) {}
    }
}

static const struct {
    const char *what;
    batch *of;
} kinds[] = {
    {"look up", get},
    {"look up and hold", hold},
    {"enter and leave", enter},
    {"add and take out", change},
    {"add; take out; wait", change_and_wait},
    {"add; take out; one wait for 64", change_and_wait_once},
    {"wait for a key", wait_for_key},
    {"wait for all", wait_for_all},
    {"begin and poll", ask},
};

int main(int count, char **words) {
    static const char *const names[] = {"first", "second", "third"};
    static struct { _Alignas(128) prcu_place place; } places[MOST_THREADS];
    if (count != 4) return 2;
    threads = (uint32_t)atoi(words[1]);
    pairs = strtoull(words[2], NULL, 10);
    const uint32_t handles = (uint32_t)atoi(words[3]);
    for (uint32_t waiter = CITRUS_EER; waiter <= CITRUS_DEER; waiter++) {
        char series[40];
        if (open_fixed(&places[0].place, (uint32_t)pairs + 10000, handles, waiter) != CITRUS_DONE) return 1;
        for (uint64_t i = 0; i < pairs; i++) citrus_insert(&places[0].place, mixed(i), i);
        for (uint32_t i = 1; i < threads; i++)
            if (citrus_share(&places[0].place, 1, CITRUS_ALL_TICKETS / 128, &places[i].place) != CITRUS_DONE) return 1;
        for (uint32_t i = 0; i < threads; i++) workers[i] = (struct worker){.state = i * 77 + 1, .number = i, .place = &places[i].place};
        snprintf(series, sizeof series, "%s waiter of %u", names[waiter], (unsigned)handles);
        for (size_t i = 0; i < sizeof kinds / sizeof kinds[0]; i++) measure(series, kinds[i].what, kinds[i].of);
        for (uint32_t i = 0; i < threads; i++) citrus_close(&places[i].place);
    }
}
