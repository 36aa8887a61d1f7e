/* What AddressSanitizer shows where one of the rules for values that are pointers is broken: a thread reads an object while another takes it
 * out and frees it. Usage: freed hold|get wait|none. Only with `hold wait` nothing freed is read; the others end by the sanitizer's report. */
#include "crew.h"
#include <sched.h>
#include <string.h>

static int is_held, is_waited_for;

/* Each thread goes on when the other has come so far. */
static _Atomic int step;

static void come_to(int number) { step = number; }

static void await(int number) {
    while (step < number) sched_yield();
}

/* Puts the object in, takes it out while the other one reads it, and frees it. Who waits lets the other one go on before, since the wait ends
 * only when that has let go. */
static void take_out_and_free(struct member *me) {
    uint64_t *object = malloc(sizeof *object), old = 0;
    if (!object) abort();
    *object = 50;
    member_wants(me, "an insert of", 5, citrus_insert(&me->handle, 5, (uint64_t)(uintptr_t)object), CITRUS_DONE);
    come_to(1);
    await(2);
    member_wants(me, "a remove of", 5, citrus_remove(&me->handle, 5, &old), CITRUS_DONE);
    if (is_waited_for && is_held) come_to(3);
    if (is_waited_for) member_wants(me, "a wait for", 5, citrus_wait(&me->handle, 5, 5), CITRUS_DONE);
    free((void *)(uintptr_t)old);
    come_to(3);
}

static void look_up_and_read(struct member *me) {
    uint64_t value = 0;
    await(1);
    const int32_t status = is_held ? citrus_hold(&me->handle, 5, &value) : citrus_get(&me->handle, 5, &value);
    member_wants(me, "a look at", 5, status, CITRUS_DONE);
    come_to(2);
    await(3);
    member_wants(me, "the object of", 5, *(volatile uint64_t *)(uintptr_t)value, 50);
    if (is_held) member_wants(me, "a release of", 5, citrus_release(&me->handle), CITRUS_DONE);
}

static void *work(void *member) {
    struct member *me = member;
    if (me->number == 0) take_out_and_free(me);
    else look_up_and_read(me);
    return NULL;
}

int main(int count, char **words) {
    if (count != 3) return 2;
    is_held = strcmp(words[1], "hold") == 0;
    is_waited_for = strcmp(words[2], "wait") == 0;
    run_crew(2, 1, 10, CITRUS_EER, work, NULL);
    return wrong_here != 0;
}
