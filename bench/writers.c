/* Lists of the C library beside writers that never rest: `writers LIST WRITERS SECONDS` lists so many pairs at a time, from a drawn key on,
 * beside so many threads, or none, that update drawn keys; with LIST 0 nobody lists. It writes a line
 * `LIST,WRITERS,LISTS,FAILED,UPDATES,P999,LONGEST`: how many lists came in a second and how many failed, the updates in a second of all
 * writers together, and how many microseconds 999 of 1,000 of them took at most, and the longest one. A library whose lists may answer
 * CITRUS_MOVED is measured too: these have failed. It ends with status 1 where a list, or the index at the end, isn't as it must be. */
#include "fixed_salt.h"
#include <pthread.h>
#include <stdatomic.h>
#include <stdio.h>
#include <stdlib.h>
#include <time.h>

enum { PAIRS = 131072, MOST_WRITERS = 16, OWN_KEYS = 1024, BUCKETS = 512 };

static uint64_t keys[PAIRS];
static citrus_pair listed[PAIRS];
static _Atomic int is_over;

struct writer {
    _Alignas(128) citrus_handle handle;
    uint64_t number, state, updates, longest;
    /* How many updates took so long, by buckets of an eighth of a power of two of nanoseconds. */
    uint64_t took[BUCKETS];
    pthread_t id;
};

static uint64_t mixed(uint64_t i) { return i * UINT64_C(0x9e3779b97f4a7c15) >> 8; }

static uint64_t draw(uint64_t *state) {
    *state ^= *state << 13;
    *state ^= *state >> 7;
    *state ^= *state << 17;
    return *state >> 20;
}

static uint64_t nanoseconds(void) {
    struct timespec now;
    clock_gettime(CLOCK_MONOTONIC, &now);
    return (uint64_t)now.tv_sec * 1000000000u + (uint64_t)now.tv_nsec;
}

/* The value that a writer puts under the key in its turn, and whether a value was put under the key at all: keys have 56 scattered bits. */
static uint64_t value_for(uint64_t key, uint64_t turn) { return key ^ turn; }

static int is_of(uint64_t key, uint64_t value) { return (key ^ value) >> 32 == 0; }

static void must(int holds, const char *what) {
    if (holds) return;
    fprintf(stderr, "writers: %s\n", what);
    exit(1);
}

static size_t bucket_of(uint64_t ns) {
    if (ns < 8) return (size_t)ns;
    const int octave = 63 - __builtin_clzll(ns);
    return (size_t)octave * 8 + (ns >> (octave - 3) & 7);
}

/* The greatest number of a bucket. */
static uint64_t end_of(size_t bucket) {
    if (bucket < 24) return bucket;
    return ((UINT64_C(8) + bucket % 8 + 1) << (bucket / 8 - 3)) - 1;
}

/* Half of the updates give a key of the index another value, the others put in and take out keys of the writer's own. */
static void update(struct writer *me, uint64_t turn) {
    const uint64_t own = mixed(PAIRS + OWN_KEYS * me->number + turn / 4 % OWN_KEYS);
    uint64_t old = 0;
    if (turn % 2) {
        const uint64_t key = keys[draw(&me->state) % PAIRS];
        must(citrus_replace(&me->handle, key, value_for(key, turn), &old) == CITRUS_DONE, "a value wasn't replaced");
        must(is_of(key, old), "a value was another key's");
    } else if (turn % 4) {
        must(citrus_remove(&me->handle, own, &old) == CITRUS_DONE, "a pair wasn't taken out");
        must(old == value_for(own, turn - 2), "a pair that was taken out had another value");
    } else must(citrus_insert(&me->handle, own, value_for(own, turn)) == CITRUS_DONE, "a pair wasn't put in");
}

static void *write_without_rest(void *writer) {
    struct writer *me = writer;
    uint64_t before = nanoseconds();
    for (uint64_t turn = 0; !is_over || turn % 4; turn++) {
        update(me, turn);
        const uint64_t now = nanoseconds(), took = now - before;
        me->took[bucket_of(took)]++;
        if (took > me->longest) me->longest = took;
        me->updates++;
        before = now;
    }
    return NULL;
}

/* Whether the keys of so many listed pairs ascend, and each has a value that was put under it. */
static int are_pairs(size_t count) {
    for (size_t i = 0; i < count; i++)
        if ((i && listed[i - 1].key >= listed[i].key) || !is_of(listed[i].key, listed[i].value)) return 0;
    return 1;
}

/* Lists until the time is over: how many lists came. Each has as many pairs as it is to have. */
static uint64_t list_for(citrus_handle *index, size_t list, uint64_t end, uint64_t *failed) {
    uint64_t came = 0, next = 0, state = 88172645463325252u;
    while (nanoseconds() < end) {
        const uint64_t low = keys[draw(&state) % (PAIRS - list)];
        size_t count = 0;
        const int32_t status = citrus_list(index, low, UINT64_MAX, listed, list, &count, &next);
        *failed += status == CITRUS_MOVED;
        if (status == CITRUS_MOVED) continue;
        must((status == CITRUS_DONE || status == CITRUS_MORE) && count == list, "a list is too short");
        must(listed[0].key == low && are_pairs(count), "pairs of a list aren't those that were put in");
        must(status == CITRUS_DONE || next > listed[count - 1].key, "the key after a list is in it");
        came++;
    }
    return came;
}

/* Once all writers have ended: just the pairs are there with which the index was filled, under whatever values. */
static void check_all(citrus_handle *index) {
    size_t count = 0;
    uint64_t next = 0;
    must(citrus_list(index, 0, UINT64_MAX, listed, PAIRS, &count, &next) == CITRUS_DONE && count == PAIRS && are_pairs(count),
         "the index has other pairs at the end");
    for (size_t i = 0; i < PAIRS; i++) must(listed[i].key == keys[i], "the index has another key at the end");
}

static int ascends(const void *one, const void *other) {
    const uint64_t a = *(const uint64_t *)one, b = *(const uint64_t *)other;
    return (a > b) - (a < b);
}

static void fill(citrus_handle *index, uint32_t handles) {
    must(open_fixed(index, PAIRS + MOST_WRITERS * OWN_KEYS, handles, CITRUS_EER) == CITRUS_DONE, "no index was opened");
    for (uint64_t i = 0; i < PAIRS; i++) {
        keys[i] = mixed(i);
        must(citrus_insert(index, keys[i], value_for(keys[i], 0)) == CITRUS_DONE, "a pair wasn't put in");
    }
    qsort(keys, PAIRS, sizeof keys[0], ascends);
}

/* How many microseconds so great a part of the updates took at most, of which the longest took so many nanoseconds. */
static double most_of(const struct writer *writers, uint32_t count, uint64_t longest, double part) {
    uint64_t all = 0, seen = 0;
    for (uint32_t i = 0; i < count; i++) all += writers[i].updates;
    for (size_t bucket = 0; bucket < BUCKETS; bucket++) {
        for (uint32_t i = 0; i < count; i++) seen += writers[i].took[bucket];
        if ((double)seen >= part * (double)all) return (double)(end_of(bucket) < longest ? end_of(bucket) : longest) / 1000;
    }
    return 0;
}

int main(int words_count, char **words) {
    static struct writer writers[MOST_WRITERS];
    must(words_count == 4, "usage: writers LIST WRITERS SECONDS");
    const size_t list = strtoul(words[1], NULL, 10);
    const uint32_t count = (uint32_t)atoi(words[2]);
    const double seconds = atof(words[3]);
    must(list < PAIRS && (list || count) && count <= MOST_WRITERS, "a number is out of its range");
    citrus_handle index = CITRUS_CLOSED_HANDLE;
    uint64_t failed = 0, came = 0, updates = 0, longest = 0;
    fill(&index, count + 1);
    for (uint32_t i = 0; i < count; i++) {
        writers[i] = (struct writer){.handle = CITRUS_CLOSED_HANDLE, .number = i, .state = i * 77 + 1};
        must(citrus_share(&index, 1, CITRUS_ALL_TICKETS / 64, &writers[i].handle) == CITRUS_DONE, "no handle was shared");
    }
    const uint64_t began = nanoseconds(), end = began + (uint64_t)(seconds * 1e9);
    for (uint32_t i = 0; i < count; i++)
        must(pthread_create(&writers[i].id, NULL, write_without_rest, &writers[i]) == 0, "no thread was made");
    if (list) came = list_for(&index, list, end, &failed);
    else nanosleep(&(struct timespec){(time_t)seconds, (long)((seconds - (double)(time_t)seconds) * 1e9)}, NULL);
    is_over = 1;
    for (uint32_t i = 0; i < count; i++) {
        pthread_join(writers[i].id, NULL);
        updates += writers[i].updates;
        if (writers[i].longest > longest) longest = writers[i].longest;
        citrus_close(&writers[i].handle);
    }
    const double passed = (double)(nanoseconds() - began) / 1e9;
    check_all(&index);
    citrus_close(&index);
    printf("%zu,%u,%.0f,%llu,%.0f,%.1f,%.1f\n", list, (unsigned)count, (double)came / passed, (unsigned long long)failed,
           (double)updates / passed, most_of(writers, count, longest, 0.999), (double)longest / 1000);
}
