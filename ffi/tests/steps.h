/* Threads that make steps, by which a list is judged: whoever reads this in has said THREADS, and how many places EACH thread has.
 *
 * The index has a pair for each place, with one of the two keys of the place, or for a moment with both. The places of a thread are each
 * THREADS from the next. It goes over them in turn: it puts in the place's other key, with the number of this step as the value, and then
 * takes the key before out. So the greatest step that a list tells of a thread says what each of its places has at that moment. */
#ifndef STEPS_H
#define STEPS_H

#include "crew.h"

enum { PLACES = THREADS * EACH, ROOM = PLACES + THREADS };

/* How many steps a thread has made, in lines of its own. */
struct progress {
    _Alignas(128) _Atomic uint64_t steps;
};

/* The step of a thread that had last to do with its place of this number, when it had made so many; the first ones are 1 to EACH. */
static inline uint64_t last_step(uint64_t place, uint64_t steps) { return steps - (steps - 1 - place) % EACH; }

/* The key that this step of a thread puts in. */
static inline uint64_t key_of(uint64_t thread, uint64_t step) {
    const uint64_t place = (step - 1) % EACH * THREADS + thread;
    return 2 * place + (step - 1) / EACH % 2;
}

/* Makes the thread's next step. */
static inline void make_step(struct member *me, struct progress *own) {
    const uint64_t step = own->steps + 1;
    uint64_t old = 0;
    member_wants(me, "an insert of step", step, citrus_insert(&me->handle, key_of(me->number, step), step), CITRUS_DONE);
    if (step > EACH) {
        member_wants(me, "a remove in step", step, citrus_remove(&me->handle, key_of(me->number, step - EACH), &old), CITRUS_DONE);
        member_wants(me, "the value of the pair taken out in step", step, old, step - EACH);
    }
    own->steps = step;
}

/* Whether the step that a list or a pair tells lies between those of the thread before the call and after it. One more may be under way. */
static inline void is_of_this_time(struct member *me, struct progress *writer, uint64_t step, uint64_t before) {
    member_wants(me, "whether a step was made before a call that doesn't tell it, after", step, step >= before, 1);
    member_wants(me, "whether a call tells a step to come,", step, step <= writer->steps + 1, 1);
}

/* What a list tells of all threads: the pairs of each one's steps, each place once, but that of the last step perhaps twice. The greatest step
 * of each is written. */
static inline void judge(struct member *me, const citrus_pair *pairs, size_t count, uint64_t latest[THREADS]) {
    uint64_t seen[THREADS] = {0};
    int is_double[THREADS] = {0};
    for (uint64_t thread = 0; thread < THREADS; thread++) latest[thread] = 0;
    for (size_t i = 0; i < count; i++) {
        uint64_t *steps = &latest[pairs[i].key / 2 % THREADS];
        if (pairs[i].value > *steps) *steps = pairs[i].value;
    }
    for (size_t i = 0; i < count; i++) {
        const uint64_t place = pairs[i].key / 2 / THREADS, thread = pairs[i].key / 2 % THREADS, steps = latest[thread];
        const int is_before = steps > EACH && pairs[i].value == steps - EACH && !is_double[thread];
        member_wants(me, "the step of a listed pair with key", pairs[i].key, pairs[i].value,
                     is_before && place == (steps - 1) % EACH ? steps - EACH : last_step(place, steps));
        member_wants(me, "the key of a listed pair of step", pairs[i].value, pairs[i].key, key_of(thread, pairs[i].value));
        if (i) member_wants(me, "whether keys ascend at", pairs[i].key, pairs[i - 1].key < pairs[i].key, 1);
        is_double[thread] |= is_before;
        seen[thread]++;
    }
    for (uint64_t thread = 0; thread < THREADS; thread++)
        member_wants(me, "how many pairs a list tells of thread", thread, seen[thread], (uint64_t)(EACH + is_double[thread]));
}

#endif
