/* What citrus.h does where CITRUS_DEBUG is defined: an update or a wait of a thread that is in a section by another handle aborts the program,
 * and so does a call with a handle, or with lanes, with which another thread is in a call, or of which a copy made a call since. With OTHER_FILE
 * this is a second file of it, which holds. */
#define CITRUS_DEBUG
#include "cases.h"

int32_t hold_in_other_file(citrus_handle *handle, uint64_t key);

#ifdef OTHER_FILE

int32_t hold_in_other_file(citrus_handle *handle, uint64_t key) {
    uint64_t value = 0;
    return citrus_hold(handle, key, &value);
}

#else

#include <pthread.h>
#include <signal.h>
#include <stdlib.h>
#include <string.h>
#include <sys/wait.h>
#include <unistd.h>

static citrus_handle first = CITRUS_CLOSED_HANDLE, second = CITRUS_CLOSED_HANDLE;
static uint64_t told;

static void open_both(uint32_t waiter) {
    WANT(citrus_open(&first, 100, 3, waiter), CITRUS_DONE);
    WANT(citrus_share(&first, 1, 1000, &second), CITRUS_DONE);
    for (uint64_t key = 1; key <= 9; key++) WANT(citrus_insert(&first, key, 10 * key), CITRUS_DONE);
}

static void close_both(void) {
    citrus_close(&first);
    citrus_close(&second);
}

/* Whether this work aborts a program of one thread. What it says of that isn't shown. */
static int aborts(void (*work)(void)) {
    int status = 0;
    fflush(stdout);
    const pid_t child = fork();
    if (child < 0) abort();
    if (child == 0) {
        if (!freopen("/dev/null", "w", stderr)) _exit(2);
        work();
        _exit(0);
    }
    return waitpid(child, &status, 0) == child && WIFSIGNALED(status) && WTERMSIG(status) == SIGABRT;
}

static void insert_by_other(void) { citrus_insert(&second, 100, 1); }
static void replace_by_other(void) { citrus_replace(&second, 9, 1, &told); }
static void compare_by_other(void) { citrus_compare(&second, 9, 90, 90, &told); }
static void upsert_by_other(void) { citrus_upsert(&second, 9, 1, &told); }
static void remove_by_other(void) { citrus_remove(&second, 9, &told); }
static void take_by_other(void) { citrus_take(&second, 9, 90, &told); }
static void insert_once_by_other(void) { citrus_insert_once(&second, 100, 1); }
static void replace_once_by_other(void) { citrus_replace_once(&second, 9, 1, &told); }
static void compare_once_by_other(void) { citrus_compare_once(&second, 9, 90, 90, &told); }
static void upsert_once_by_other(void) { citrus_upsert_once(&second, 9, 1, &told); }
static void remove_once_by_other(void) { citrus_remove_once(&second, 9, &told); }
static void take_once_by_other(void) { citrus_take_once(&second, 9, 90, &told); }
static void wait_by_other(void) { citrus_wait(&second, 9, 9); }

static void tidy_by_other(void) {
    uint32_t made = 0;
    citrus_tidy(&second, 0, 9, 1, &made, &told);
}

static void (*const waiting_calls[])(void) = {
    insert_by_other,       replace_by_other,      compare_by_other,     upsert_by_other,      remove_by_other, wait_by_other, tidy_by_other,
    insert_once_by_other,  replace_once_by_other, compare_once_by_other, upsert_once_by_other, remove_once_by_other,
    take_by_other,         take_once_by_other,
};

static void what_may_wait_for_its_own_thread_aborts(uint32_t waiter) {
    open_both(waiter);
    for (size_t i = 0; i < COUNT_OF(waiting_calls); i++) {
        WANT(aborts(waiting_calls[i]), 0);
        WANT(citrus_hold(&first, 5, &told), CITRUS_DONE);
        WANT(aborts(waiting_calls[i]), 1);
        WANT(citrus_release(&first), CITRUS_DONE);
        WANT(citrus_enter(&first, 5), CITRUS_DONE);
        WANT(aborts(waiting_calls[i]), 1);
        WANT(citrus_release(&first), CITRUS_DONE);
        WANT(aborts(waiting_calls[i]), 0);
    }
    close_both();
}

static void what_waits_for_nobody_goes_on(uint32_t waiter) {
    citrus_handle third = CITRUS_CLOSED_HANDLE;
    citrus_pair pairs[9];
    size_t count = 0;
    uint64_t next = 0;
    open_both(waiter);
    WANT(citrus_hold(&first, 5, &told), CITRUS_DONE);
    WANT(citrus_get(&second, 5, &told), CITRUS_DONE);
    WANT(citrus_list(&second, 0, 9, pairs, 9, &count, &next), CITRUS_DONE);
    WANT(citrus_first(&second, 0, &next, &told), CITRUS_DONE);
    WANT(citrus_last(&second, 0, 9, &next, &told), CITRUS_DONE);
    WANT(citrus_reopen(&second, &third), CITRUS_UNCHANGED);
    WANT(citrus_hold(&second, 6, &told), CITRUS_DONE);
    WANT(citrus_insert(&first, 100, 1), CITRUS_HOLDS);
    WANT(citrus_release(&second), CITRUS_DONE);
    WANT(citrus_insert(&first, 100, 1), CITRUS_HOLDS);
    WANT(citrus_insert(&third, 100, 1), CITRUS_CLOSED);
    WANT(aborts(insert_by_other), 1);
    WANT(citrus_release(&first), CITRUS_DONE);
    WANT(citrus_release(&first), CITRUS_UNCHANGED);
    WANT(citrus_insert(&second, 100, 1), CITRUS_DONE);
    close_both();
}

static void what_closes_a_handle_ends_its_section(uint32_t waiter) {
    open_both(waiter);
    WANT(citrus_hold(&first, 5, &told), CITRUS_DONE);
    citrus_close(&first);
    WANT(citrus_replace(&second, 9, 1, &told), CITRUS_DONE);
    WANT(citrus_reopen(&second, &first), CITRUS_DONE);
    WANT(citrus_hold(&second, 5, &told), CITRUS_DONE);
    WANT(citrus_share(&first, 1, 10, &second), CITRUS_DONE);
    WANT(citrus_replace(&first, 9, 1, &told), CITRUS_DONE);
    WANT(citrus_hold(&first, 5, &told), CITRUS_DONE);
    WANT(citrus_open(&first, 5, 1, waiter), CITRUS_DONE);
    WANT(citrus_replace(&second, 9, 1, &told), CITRUS_DONE);
    close_both();
}

static void sections_of_all_files_are_seen(uint32_t waiter) {
    open_both(waiter);
    WANT(hold_in_other_file(&first, 5), CITRUS_DONE);
    WANT(aborts(insert_by_other), 1);
    WANT(citrus_release(&first), CITRUS_DONE);
    WANT(hold_in_other_file(&first, 100), CITRUS_UNCHANGED);
    WANT(aborts(insert_by_other), 0);
    close_both();
}

static void *insert_in_other_thread(void *status) {
    *(int32_t *)status = citrus_insert(&second, 3, 1);
    return NULL;
}

static void *release_there(void *status) {
    *(int32_t *)status = citrus_release(&first);
    return NULL;
}

static void release_in_other_thread(void) {
    int32_t status = 0;
    pthread_t id;
    if (pthread_create(&id, NULL, release_there, &status) == 0) pthread_join(id, NULL);
}

static void other_threads_have_sections_of_their_own(uint32_t waiter) {
    int32_t status = CITRUS_LOST;
    pthread_t id;
    open_both(waiter);
    WANT(citrus_hold(&first, 5, &told), CITRUS_DONE);
    WANT(aborts(release_in_other_thread), 1);
    if (pthread_create(&id, NULL, insert_in_other_thread, &status)) abort();
    pthread_join(id, NULL);
    WANT(status, CITRUS_UNCHANGED);
    WANT(citrus_release(&first), CITRUS_DONE);
    close_both();
}

/* Waits by the second handle, for a section of the first. */
static void *wait_there(void *unused) {
    (void)unused;
    if (citrus_wait(&second, 5, 5) != CITRUS_DONE) abort();
    return NULL;
}

static uint32_t some_handles;

static void get_meanwhile(void) { citrus_get(&second, 9, &told); }
static void left_meanwhile(void) { citrus_left(&second, &some_handles, &told); }
static void begin_meanwhile(void) { citrus_begin(&second, 1, 1, &told); }
static void insert_meanwhile(void) { citrus_insert(&second, 100, 1); }
static void insert_once_meanwhile(void) { citrus_insert_once(&second, 100, 1); }
static void first_meanwhile(void) { citrus_first(&second, 0, &told, &told); }
static void close_meanwhile(void) { citrus_close(&second); }
static void hold_by_the_third_meanwhile(void) {
    citrus_handle third = CITRUS_CLOSED_HANDLE;
    if (citrus_hold(&third, 9, &told) != CITRUS_CLOSED) abort();
}

static void (*meanwhile)(void);

/* A call of this thread while another one waits with the same handle. */
static void call_meanwhile(void) {
    pthread_t id;
    if (citrus_hold(&first, 5, &told) != CITRUS_DONE || pthread_create(&id, NULL, wait_there, NULL)) _exit(3);
    usleep(200000);
    meanwhile();
    if (citrus_release(&first) != CITRUS_DONE) _exit(4);
    pthread_join(id, NULL);
}

static void one_handle_in_two_threads_aborts(uint32_t waiter) {
    static void (*const calls[])(void) = {get_meanwhile,         left_meanwhile,  begin_meanwhile, insert_meanwhile,
                                          insert_once_meanwhile, first_meanwhile, close_meanwhile};
    open_both(waiter);
    for (size_t i = 0; i < COUNT_OF(calls); i++) {
        meanwhile = calls[i];
        WANT(aborts(call_meanwhile), 1);
    }
    meanwhile = hold_by_the_third_meanwhile;
    WANT(aborts(call_meanwhile), 0);
    close_both();
}

static citrus_lanes lanes = CITRUS_CLOSED_LANES;

static void open_lanes_meanwhile(void) {
    if (citrus_open_lanes(&second, &lanes, 1) != CITRUS_BAD_ARGUMENT) abort();
}

enum { MANY_KEYS = 4096, MANY_CALLS = 100000 };

/* Calls by the same lanes, many times, also when another thread has closed them. */
static void *get_many_again(void *by) {
    static const uint64_t keys[MANY_KEYS];
    citrus_answer *answers = malloc(MANY_KEYS * sizeof *answers);
    if (!answers) _exit(3);
    for (int i = 0; i < MANY_CALLS; i++) {
        const int32_t status = citrus_get_many(by, keys, MANY_KEYS, answers, MANY_KEYS);
        if (status != CITRUS_DONE && status != CITRUS_CLOSED) _exit(4);
    }
    free(answers);
    return NULL;
}

static void get_many_in_two_threads(void) {
    pthread_t id;
    if (pthread_create(&id, NULL, get_many_again, &lanes)) _exit(3);
    get_many_again(&lanes);
    pthread_join(id, NULL);
}

static void close_lanes_meanwhile(void) {
    pthread_t id;
    if (pthread_create(&id, NULL, get_many_again, &lanes)) _exit(3);
    usleep(200000);
    for (int i = 0; i < MANY_CALLS; i++) citrus_close_lanes(&lanes);
    pthread_join(id, NULL);
}

static void lanes_of_a_thread_go_on(void) {
    uint64_t key = 5;
    citrus_answer answer = {0, 0};
    if (citrus_get_many(&lanes, &key, 1, &answer, 1) != CITRUS_DONE || answer.value != 50) abort();
    citrus_close_lanes(&lanes);
    if (citrus_open_lanes(&first, &lanes, 1) != CITRUS_BAD_ARGUMENT) abort();
}

static void the_same_lanes_in_two_threads_abort(uint32_t waiter) {
    open_both(waiter);
    WANT(citrus_open_lanes(&first, &lanes, 1), CITRUS_DONE);
    WANT(aborts(lanes_of_a_thread_go_on), 0);
    WANT(aborts(get_many_in_two_threads), 1);
    WANT(aborts(close_lanes_meanwhile), 1);
    citrus_close_lanes(&lanes);
    meanwhile = open_lanes_meanwhile;
    WANT(aborts(call_meanwhile), 1);
    close_both();
}

/* Copies of the second handle, and of lanes. */
static citrus_handle copied = CITRUS_CLOSED_HANDLE;
static citrus_lanes copied_lanes = CITRUS_CLOSED_LANES;

static void copy_second(void) { memcpy(&copied, &second, sizeof copied); }

static void use_the_copy_last(void) {
    copied = second;
    citrus_get(&second, 5, &told);
    citrus_get(&copied, 5, &told);
}

static void use_the_copy_first(void) {
    copy_second();
    citrus_insert(&copied, 100, 1);
    citrus_insert(&second, 101, 1);
}

static void close_both_copies(void) {
    copy_second();
    citrus_close(&second);
    citrus_close(&copied);
}

static void use_what_a_copy_closed(void) {
    copy_second();
    citrus_close(&second);
    if (citrus_reopen(&first, &second) != CITRUS_DONE) _exit(3);
    citrus_get(&copied, 5, &told);
}

static void share_over_a_copy(void) {
    copy_second();
    citrus_get(&second, 5, &told);
    citrus_share(&first, 1, 10, &copied);
}

static void leave_by_a_copy(void) {
    if (citrus_hold(&second, 5, &told) != CITRUS_DONE) _exit(3);
    copy_second();
    citrus_release(&second);
    citrus_release(&copied);
}

static void use_copied_lanes(void) {
    uint64_t key = 5;
    citrus_answer answer;
    if (citrus_open_lanes(&first, &lanes, 1) != CITRUS_DONE) _exit(3);
    copied_lanes = lanes;
    citrus_get_many(&lanes, &key, 1, &answer, 1);
    citrus_get_many(&copied_lanes, &key, 1, &answer, 1);
}

static void *get_by_the_copy(void *unused) {
    for (int i = 0; i < MANY_CALLS; i++) citrus_get(&copied, 5, &told);
    return unused;
}

static void use_copies_in_two_threads(void) {
    pthread_t id;
    copy_second();
    if (pthread_create(&id, NULL, get_by_the_copy, NULL)) _exit(3);
    for (int i = 0; i < MANY_CALLS; i++) citrus_get(&second, 5, &told);
    pthread_join(id, NULL);
}

static void copies_abort(uint32_t waiter) {
    static void (*const uses[])(void) = {use_the_copy_last, use_the_copy_first, close_both_copies,  use_what_a_copy_closed,
                                         share_over_a_copy, leave_by_a_copy,    use_copied_lanes, use_copies_in_two_threads};
    open_both(waiter);
    for (size_t i = 0; i < COUNT_OF(uses); i++) WANT(aborts(uses[i]), 1);
    close_both();
}

static citrus_handle opened_elsewhere(uint32_t waiter) {
    citrus_handle mine = CITRUS_CLOSED_HANDLE;
    WANT(citrus_open(&mine, 10, 2, waiter), CITRUS_DONE);
    return mine;
}

/* A handle may stand elsewhere after each call, also where the old one isn't set to a closed one, and nobody uses it. */
static void moves_go_on(uint32_t waiter) {
    const citrus_options options = citrus_options_for(5, 1, waiter);
    citrus_handle here = opened_elsewhere(waiter), there;
    uint32_t handles = 0;
    for (uint64_t key = 0; key < 9; key++) {
        there = here;
        here = citrus_closed_handle();
        WANT(citrus_insert(&there, key, key), CITRUS_DONE);
        WANT(citrus_insert(&here, key, key), CITRUS_CLOSED);
        here = there;
        WANT(citrus_hold(&here, key, &told), CITRUS_DONE);
        there = here;
        WANT(citrus_release(&there), CITRUS_DONE);
        here = there;
    }
    WANT(citrus_share(&here, 1, citrus_fair_share(&here, 1), &first), CITRUS_DONE);
    WANT(citrus_open(&first, 0, 1, waiter), CITRUS_BAD_ARGUMENT);
    WANT(citrus_open_keeping(&first, &options, 15), CITRUS_BAD_ARGUMENT);
    WANT(citrus_reopen(&here, &first), CITRUS_BAD_ARGUMENT);
    WANT(citrus_left(&first, &handles, &told), CITRUS_DONE);
    citrus_close(&first);
    citrus_close(&first);
    citrus_close(&here);
}

/* More handles than there is room for numbers of. */
static void very_many_handles_go_on(uint32_t waiter) {
    enum { INDEXES = 6 };
    static citrus_handle all[INDEXES][CITRUS_MAX_HANDLES];
    for (int i = 0; i < INDEXES; i++) {
        WANT(citrus_open(&all[i][0], 1, CITRUS_MAX_HANDLES, waiter), CITRUS_DONE);
        for (uint32_t k = 1; k < CITRUS_MAX_HANDLES; k++) WANT(citrus_share(&all[i][0], 1, 100, &all[i][k]), CITRUS_DONE);
    }
    for (int i = 0; i < INDEXES; i++)
        for (uint32_t k = 0; k < CITRUS_MAX_HANDLES; k++) WANT(citrus_get(&all[i][k], 5, &told), CITRUS_UNCHANGED);
    for (int i = 0; i < INDEXES; i++)
        for (uint32_t k = 0; k < CITRUS_MAX_HANDLES; k++) citrus_close(&all[i][k]);
}

static const struct waiter_case cases[] = {
    {"CITRUS_DEBUG: what may wait for its own thread aborts", what_may_wait_for_its_own_thread_aborts},
    {"CITRUS_DEBUG: what waits for nobody goes on", what_waits_for_nobody_goes_on},
    {"CITRUS_DEBUG: what closes a handle ends its section", what_closes_a_handle_ends_its_section},
    {"CITRUS_DEBUG: sections of all files are seen", sections_of_all_files_are_seen},
    {"CITRUS_DEBUG: other threads have sections of their own", other_threads_have_sections_of_their_own},
    {"CITRUS_DEBUG: one handle in two threads aborts", one_handle_in_two_threads_aborts},
    {"CITRUS_DEBUG: the same lanes in two threads abort", the_same_lanes_in_two_threads_abort},
    {"CITRUS_DEBUG: copies abort", copies_abort},
    {"CITRUS_DEBUG: moves go on", moves_go_on},
    {"CITRUS_DEBUG: very many handles go on", very_many_handles_go_on},
};

int main(void) {
    run_waiter_cases(cases, COUNT_OF(cases));
    return failed_cases != 0;
}

#endif
