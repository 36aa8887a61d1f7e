/* What open handles that do nothing cost the one that calls: `handles HANDLES WAITER`, an index for 20,000 pairs of which half are there. A line
 * `WAITER,HANDLES,mb,open_us,share_ns,reopen_ns,insert_ns,remove_ns,wait_ns,wait_all_ns`; the memory is what malloc gave, in MB of 1,000,000
 * bytes. */
#include "fixed_salt.h"
#include <malloc.h>
#include <stdio.h>
#include <stdlib.h>
#include <time.h>

enum { KEYS = 20000, UPDATES = 200000, WAITS = 20000 };

static citrus_handle handles[CITRUS_MAX_HANDLES];
static const char *const waiters[] = {"first", "second", "third"};

static double now(void) {
    struct timespec time;
    clock_gettime(CLOCK_MONOTONIC, &time);
    return 1e9 * (double)time.tv_sec + (double)time.tv_nsec;
}

static void want(int32_t status, int32_t wanted, const char *call) {
    if (status == wanted) return;
    fprintf(stderr, "%s told %s\n", call, citrus_status_name(status));
    exit(1);
}

static double memory(void) {
    const struct mallinfo2 info = mallinfo2();
    return (double)(info.uordblks + info.hblkhd) / 1e6;
}

static double open_all(uint32_t count, uint32_t waiter, double *share) {
    double begun = now();
    want(open_fixed(&handles[0], KEYS, count, waiter), CITRUS_DONE, "open");
    const double opened = now() - begun;
    begun = now();
    for (uint32_t i = 1; i < count; i++) want(citrus_share(&handles[0], 1, 1000, &handles[i]), CITRUS_DONE, "share");
    *share = count > 1 ? (now() - begun) / (count - 1) : 0;
    return opened;
}

/* The last handle is closed and opened again. */
static double time_of_reopens(uint32_t count) {
    const double begun = now();
    if (count == 1) return 0;
    for (int i = 0; i < WAITS; i++) {
        citrus_close(&handles[count - 1]);
        want(citrus_reopen(&handles[0], &handles[count - 1]), CITRUS_DONE, "reopen");
    }
    return (now() - begun) / WAITS;
}

static uint64_t drawn_key(uint64_t *state) {
    *state = *state * 6364136223846793005u + 1442695040888963407u;
    return (*state >> 33) % KEYS;
}

/* Half of the drawn keys are there at each update, so each kind of update finds its key half the time. */
static void time_updates(double *insert, double *remove, uint64_t *answers) {
    uint64_t state = 1, old = 0;
    *insert = *remove = 0;
    for (int i = 0; i < KEYS * 7 / 10; i++) *answers += citrus_insert(&handles[0], drawn_key(&state), state) == CITRUS_DONE;
    for (int round = 0; round < UPDATES / 1000; round++) {
        double begun = now();
        for (int i = 0; i < 1000; i++) *answers += citrus_insert(&handles[0], drawn_key(&state), state) == CITRUS_DONE;
        *insert += (now() - begun) / UPDATES;
        begun = now();
        for (int i = 0; i < 1000; i++) *answers += citrus_remove(&handles[0], drawn_key(&state), &old) == CITRUS_DONE;
        *remove += (now() - begun) / UPDATES;
    }
}

static double time_of_waits(int for_all) {
    const double begun = now();
    for (uint64_t i = 0; i < WAITS; i++) want(citrus_wait(&handles[0], for_all ? 0 : i, for_all ? UINT64_MAX : i), CITRUS_DONE, "wait");
    return (now() - begun) / WAITS;
}

int main(int count, char **words) {
    const uint32_t how_many = count > 1 ? (uint32_t)atoi(words[1]) : 1, waiter = count > 2 ? (uint32_t)atoi(words[2]) : 0;
    double share = 0, insert = 0, remove = 0;
    uint64_t answers = 0;
    if (how_many < 1 || how_many > CITRUS_MAX_HANDLES || waiter > CITRUS_DEER) return 2;
    const double before = memory(), opened = open_all(how_many, waiter, &share), taken = memory() - before;
    const double reopen = time_of_reopens(how_many);
    time_updates(&insert, &remove, &answers);
    printf("%s,%u,%.2f,%.0f,%.0f,%.0f,%.1f,%.1f,%.1f,%.1f\n", waiters[waiter], how_many, taken, opened / 1000, share, reopen, insert, remove,
           time_of_waits(0), time_of_waits(1));
    fprintf(stderr, "%llu updates were made\n", (unsigned long long)answers);
    for (uint32_t i = 0; i < how_many; i++) citrus_close(&handles[i]);
}
