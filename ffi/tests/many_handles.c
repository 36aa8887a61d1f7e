/* As many handles as an index can have, all of them open: each makes steps in a thread of its own, as many threads at once as the machine
 * bears, while the first one lists all pairs and judges each list; each keeps a wait up; and each leaves its place to a reopen. Usage:
 * many_handles [STEPS]. */
#include <citrus.h>
enum { THREADS = CITRUS_MAX_HANDLES, EACH = 4 };
#include "steps.h"
#include <unistd.h>

enum { MOST_AT_ONCE = 64, AT_ONCE_ON_EACH = 4 };

static uint64_t steps_each = 100;

struct stage {
    struct progress writers[THREADS];
    _Atomic int is_over;
};

static struct member members[THREADS];

/* Opens an index, and all of its handles. */
static void open_all(uint32_t waiter, struct stage *stage) {
    members[0] = (struct member){.handle = CITRUS_CLOSED_HANDLE, .of = THREADS, .shared = stage};
    WANT(citrus_open(&members[0].handle, ROOM, THREADS, waiter), CITRUS_DONE);
    for (uint32_t i = 1; i < THREADS; i++) {
        members[i] = (struct member){.handle = CITRUS_CLOSED_HANDLE, .number = i, .of = THREADS, .shared = stage};
        WANT(citrus_share(&members[0].handle, 1, CITRUS_ALL_TICKETS / THREADS, &members[i].handle), CITRUS_DONE);
    }
}

static void close_all(void) {
    for (uint32_t i = 0; i < THREADS; i++) citrus_close(&members[i].handle);
}

/* The first steps: from then on each place has a pair. */
static void fill(struct stage *stage) {
    for (uint32_t i = 0; i < THREADS; i++)
        while (stage->writers[i].steps < EACH) make_step(&members[i], &stage->writers[i]);
}

static void *make_steps(void *member) {
    struct member *me = member;
    struct stage *stage = me->shared;
    for (uint64_t step = 0; step < steps_each && !me->wrong; step++) make_step(me, &stage->writers[me->number]);
    return NULL;
}

static void *list_until_over(void *member) {
    static citrus_pair pairs[ROOM];
    static uint64_t before[THREADS], latest[THREADS];
    struct member *me = member;
    struct stage *stage = me->shared;
    uint64_t next = UNTOUCHED, lists = 0;
    int is_last = 0;
    while (!is_last && !me->wrong) {
        size_t count = 0;
        is_last = stage->is_over;
        for (uint32_t i = 0; i < THREADS; i++) before[i] = stage->writers[i].steps;
        member_wants(me, "a list behind so many", lists++, citrus_list(&me->handle, 0, UINT64_MAX, pairs, ROOM, &count, &next), CITRUS_DONE);
        judge(me, pairs, count, latest);
        for (uint32_t i = 0; i < THREADS; i++) is_of_this_time(me, &stage->writers[i], latest[i], before[i]);
    }
    for (uint32_t i = 0; i < THREADS; i++) member_wants(me, "the last step at the end, of thread", i, latest[i], stage->writers[i].steps);
    return NULL;
}

static uint32_t threads_at_once(void) {
    const long processors = sysconf(_SC_NPROCESSORS_ONLN);
    return processors > 0 && processors < MOST_AT_ONCE / AT_ONCE_ON_EACH ? AT_ONCE_ON_EACH * (uint32_t)processors : MOST_AT_ONCE;
}

/* A thread for each handle but the first, so many at once. */
static void run_waves(void) {
    pthread_t ids[MOST_AT_ONCE];
    const uint32_t crowd = threads_at_once();
    for (uint32_t first = 1; first < THREADS; first += crowd) {
        const uint32_t end = first + crowd < THREADS ? first + crowd : THREADS;
        for (uint32_t i = first; i < end; i++)
            if (pthread_create(&ids[i - first], NULL, make_steps, &members[i])) abort();
        for (uint32_t i = first; i < end; i++) pthread_join(ids[i - first], NULL);
    }
}

static void each_steps_beside_lists(uint32_t waiter) {
    static struct stage stage;
    pthread_t lister;
    stage = (struct stage){.is_over = 0};
    open_all(waiter, &stage);
    fill(&stage);
    if (pthread_create(&lister, NULL, list_until_over, &members[0])) abort();
    run_waves();
    stage.is_over = 1;
    pthread_join(lister, NULL);
    for (uint32_t i = 0; i < THREADS; i++) wrong_here += members[i].wrong != 0;
    close_all();
}

/* A wait for all keys that begins while each handle is in a section is over when the last section has been left, which is of this one. */
static void is_over_behind(uint32_t last) {
    uint64_t cookie = 0;
    for (uint32_t i = 1; i < THREADS; i++) WANT(citrus_enter(&members[i].handle, 7 * i), CITRUS_DONE);
    WANT(citrus_begin(&members[0].handle, 0, UINT64_MAX, &cookie), CITRUS_DONE);
    for (uint32_t i = 1; i < THREADS; i++)
        if (i != last) WANT(citrus_release(&members[i].handle), CITRUS_DONE);
    WANT(citrus_poll(&members[0].handle, cookie), CITRUS_UNCHANGED);
    WANT(citrus_release(&members[last].handle), CITRUS_DONE);
    WANT(citrus_poll(&members[0].handle, cookie), CITRUS_DONE);
}

static void each_keeps_a_wait_up(uint32_t waiter) {
    open_all(waiter, NULL);
    for (uint32_t i = 1; i <= 64; i++) {
        is_over_behind(i);
        is_over_behind(THREADS - i);
    }
    close_all();
}

static void each_leaves_its_place(uint32_t waiter) {
    citrus_handle none = CITRUS_CLOSED_HANDLE;
    uint64_t told = UNTOUCHED, tickets = 0;
    uint32_t handles = 0;
    open_all(waiter, NULL);
    WANT(citrus_share(&members[0].handle, 1, 0, &none), CITRUS_BAD_ARGUMENT);
    WANT(citrus_reopen(&members[0].handle, &none), CITRUS_UNCHANGED);
    WANT(citrus_insert(&members[THREADS - 1].handle, 5, 50), CITRUS_DONE);
    for (uint32_t i = 1; i < THREADS; i++) citrus_close(&members[i].handle);
    for (uint32_t i = 1; i < THREADS; i++) {
        WANT(citrus_reopen(&members[0].handle, &members[i].handle), CITRUS_DONE);
        WANT(citrus_left(&members[i].handle, &handles, &tickets), CITRUS_DONE);
        WANT(tickets <= CITRUS_ALL_TICKETS / THREADS && tickets > CITRUS_ALL_TICKETS / THREADS - 20, 1);
        WANT(citrus_get(&members[i].handle, 5, &told), CITRUS_DONE);
        WANT(told, 50);
    }
    WANT(citrus_reopen(&members[0].handle, &none), CITRUS_UNCHANGED);
    close_all();
}

static const struct waiter_case cases[] = {
    {"each of 1,024 handles makes steps beside lists, which are right", each_steps_beside_lists},
    {"each of 1,024 handles keeps a wait up", each_keeps_a_wait_up},
    {"each of 1,024 handles leaves its place", each_leaves_its_place},
};

int main(int count, char **words) {
    if (count > 1) steps_each = strtoull(words[1], NULL, 10);
    run_waiter_cases(cases, COUNT_OF(cases));
    return failed_cases != 0;
}
