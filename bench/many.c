/* Many gets at once: `many PAIRS RUNS` writes lines `what,lanes,pairs,ns`: what a lookup costs by citrus_get and by citrus_get_many with so many
 * lanes, and what a wait for all readers costs beside eight lanes, none open, idle, or in use by another thread. The least of all runs. */
#define _GNU_SOURCE
#include "fixed_salt.h"
#include <pthread.h>
#include <stdatomic.h>
#include <stdio.h>
#include <stdlib.h>
#include <time.h>

enum { LOOKUPS = 262144, AT_ONCE = 1024, WAITS = 20000, HANDLES = 24 };

static uint64_t pairs, state = 88172645463325252u;
static _Atomic int stops;

static void must(int32_t status) {
    if (status == CITRUS_DONE) return;
    fprintf(stderr, "many: %s\n", citrus_status_name(status));
    exit(1);
}

static uint64_t key_at(uint64_t i) { return i * UINT64_C(0x9e3779b97f4a7c15) >> 20; }

/* A key that is there. */
static uint64_t drawn_key(uint64_t *from) {
    *from ^= *from << 13;
    *from ^= *from >> 7;
    *from ^= *from << 17;
    return key_at((*from >> 32) * pairs >> 32);
}

static double nanoseconds(void) {
    struct timespec now;
    clock_gettime(CLOCK_MONOTONIC, &now);
    return (double)now.tv_sec * 1e9 + (double)now.tv_nsec;
}

static double gets(citrus_handle *handle) {
    uint64_t value;
    const double began = nanoseconds();
    for (int i = 0; i < LOOKUPS; i++) must(citrus_get(handle, drawn_key(&state), &value));
    return (nanoseconds() - began) / LOOKUPS;
}

static void many_gets_once(citrus_lanes *lanes, uint64_t *from) {
    static _Thread_local uint64_t keys[AT_ONCE];
    static _Thread_local citrus_answer answers[AT_ONCE];
    for (int i = 0; i < AT_ONCE; i++) keys[i] = drawn_key(from);
    must(citrus_get_many(lanes, keys, AT_ONCE, answers, AT_ONCE));
}

static double many_gets(citrus_lanes *lanes) {
    const double began = nanoseconds();
    for (int i = 0; i < LOOKUPS / AT_ONCE; i++) many_gets_once(lanes, &state);
    return (nanoseconds() - began) / LOOKUPS;
}

static double waits(citrus_handle *handle) {
    const double began = nanoseconds();
    for (int i = 0; i < WAITS; i++) must(citrus_wait(handle, 0, UINT64_MAX));
    return (nanoseconds() - began) / WAITS;
}

static void *look_up(void *lanes) {
    uint64_t own = 7919;
    while (!stops) many_gets_once(lanes, &own);
    return NULL;
}

static double waits_beside(citrus_handle *handle, citrus_lanes *lanes) {
    pthread_t id;
    stops = 0;
    if (pthread_create(&id, NULL, look_up, lanes)) abort();
    const double each = waits(handle);
    stops = 1;
    pthread_join(id, NULL);
    return each;
}

static double least(double one, double other) { return one < other ? one : other; }

static void measure_lanes(citrus_handle *handle, uint32_t count, int runs) {
    citrus_lanes lanes = CITRUS_CLOSED_LANES;
    double best = 1e18;
    must(citrus_open_lanes(handle, &lanes, count));
    for (int run = 0; run < runs; run++) best = least(best, many_gets(&lanes));
    printf("look up at once,%u,%llu,%.1f\n", count, (unsigned long long)pairs, best);
    citrus_close_lanes(&lanes);
}

static void measure_waits(citrus_handle *handle, int runs) {
    citrus_lanes lanes = CITRUS_CLOSED_LANES;
    double alone = 1e18, idle = 1e18, busy = 1e18;
    for (int run = 0; run < runs; run++) alone = least(alone, waits(handle));
    must(citrus_open_lanes(handle, &lanes, 8));
    for (int run = 0; run < runs; run++) {
        idle = least(idle, waits(handle));
        busy = least(busy, waits_beside(handle, &lanes));
    }
    printf("wait beside no lanes,0,%llu,%.1f\n", (unsigned long long)pairs, alone);
    printf("wait beside idle lanes,8,%llu,%.1f\n", (unsigned long long)pairs, idle);
    printf("wait beside busy lanes,8,%llu,%.1f\n", (unsigned long long)pairs, busy);
    citrus_close_lanes(&lanes);
}

int main(int count, char **words) {
    citrus_handle handle = CITRUS_CLOSED_HANDLE;
    double best = 1e18;
    if (count != 3) return 2;
    pairs = strtoull(words[1], NULL, 10);
    const int runs = atoi(words[2]);
    must(open_fixed(&handle, (uint32_t)pairs, HANDLES, CITRUS_EER));
    for (uint64_t i = 0; i < pairs; i++) must(citrus_insert(&handle, key_at(i), i));
    for (int run = 0; run < runs; run++) best = least(best, gets(&handle));
    printf("look up,0,%llu,%.1f\n", (unsigned long long)pairs, best);
    for (uint32_t lanes = 1; lanes <= 8; lanes *= 2) measure_lanes(&handle, lanes, runs);
    measure_waits(&handle, runs);
    citrus_close(&handle);
    return 0;
}
