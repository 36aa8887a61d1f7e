/* What a reader that stays costs those who write: `stays KIND WAITER KEYS WRITERS KEEP READERS SECONDS SEED` opens an index with this waiter (0 to
 * 2) for so many keys, of which every second one is there, and each handle may keep back KEEP slots (0 for the usual number). Threads update
 * it for so many seconds, by keys that are drawn from this seed on. KIND is
 *   mixed      half inserts and half removes of drawn keys, whose neighbours and itself are the reader's too at times
 *   replaces   of drawn keys
 *   ascending  inserts of keys above all others, one after the other
 * and beside the last two a thread looks up and lists 16 pairs by turns. READERS is
 *   none       nobody reads
 *   held       one thread holds the value of the key in the middle all the time, or gets one where it says
 *   0, 4 ..    so many threads of SCHED_IDLE, of 8 at most, look up drawn keys
 * It writes `KIND,WAITER,KEYS,WRITERS,KEEP,READERS,SECONDS,UPDATES,RATE,LONGEST_US,STAND,AT_MS,KEPT,ROOM,GETS,LISTS`: how many seconds passed;
 * how many updates came meanwhile; how many in a second while they came; how long one of these took at most; how many writers stood still in
 * one more until the value was released, and after how long the first of them began to; how many slots the writers kept back at the end, or
 * when they began to stand still, and how many they may; and the lookups and lists. An update that finds nothing to do counts. It ends with
 * status 1 where an answer, or the index at the end, isn't as it must be. */
#define _GNU_SOURCE
#include "fixed_salt.h"
#include <pthread.h>
#include <stdatomic.h>
#include <stdio.h>
#include <stdlib.h>
#include <string.h>

enum { MIXED, REPLACES, ASCENDING, KINDS };
enum { MOST_WRITERS = 4, MOST_IDLE = 8, MOST_KEYS = 1 << 24, ADDED = 3000000, PAGE = 16, STILL = 50000000 };

static const char *const kinds[KINDS] = {"mixed", "replaces", "ascending"};

/* What is measured. */
static struct {
    int kind, is_held;
    uint32_t waiter, keys, writers, keep, idle, places;
    uint64_t seed;
    double seconds;
} plan;

struct writer {
    _Alignas(128) citrus_handle handle;
    pthread_t id;
    uint64_t state, updates, longest, begun, last, kept;
    /* For each key how often this writer put it in, less how often it took it out; of the first writer with the pairs that were there before. */
    uint16_t *has;
    int stands;
};

struct reader {
    _Alignas(128) citrus_handle handle;
    pthread_t id;
    uint64_t state, gets, lists;
    int is_idle, also_lists;
};

static struct writer writers[MOST_WRITERS];
static struct reader readers[MOST_IDLE + 1];
static _Atomic int are_ready, is_begun, is_over;

static void must(int holds, const char *what) {
    if (holds) return;
    fprintf(stderr, "stays: %s\n", what);
    exit(1);
}

static uint64_t nanoseconds(void) {
    struct timespec now;
    clock_gettime(CLOCK_MONOTONIC, &now);
    return (uint64_t)now.tv_sec * 1000000000u + (uint64_t)now.tv_nsec;
}

static uint64_t draw(uint64_t *state) {
    *state ^= *state << 13;
    *state ^= *state >> 7;
    *state ^= *state << 17;
    return *state >> 20;
}

/* From where on a thread draws: never 0. */
static uint64_t state_of(uint64_t thread) { return (plan.seed * 1024 + thread + 1) * UINT64_C(0x9e3779b97f4a7c15); }

/* A value that is put under a key, and whether a value is one. */
static uint64_t value_for(uint64_t key, uint64_t turn) { return key << 32 | (turn & UINT32_MAX); }

static int is_of(uint64_t key, uint64_t value) { return value >> 32 == key; }

/* How many keys there can be at all: ascending keys come on top. */
static uint64_t most_keys(void) { return plan.keys + (plan.kind == ASCENDING ? (uint64_t)ADDED : 0); }

static citrus_numbers numbers_of(citrus_handle *handle) {
    citrus_numbers numbers = {.size = sizeof numbers};
    must(citrus_stats(handle, &numbers) == CITRUS_DONE, "the numbers weren't told");
    return numbers;
}

/* One writer alone knows what is there. */
static int may_be(const struct writer *me, uint64_t key, int is_there) { return plan.writers > 1 || me->has[key] == is_there; }

static void insert(struct writer *me, uint64_t key) {
    const int32_t status = citrus_insert(&me->handle, key, value_for(key, me->updates));
    must(status == CITRUS_DONE || status == CITRUS_UNCHANGED, "a pair wasn't put in");
    must(may_be(me, key, status == CITRUS_UNCHANGED), "an insert's answer isn't true");
    if (status == CITRUS_DONE) me->has[key]++;
}

/* Whether the pair was there. */
static int remove_at(struct writer *me, uint64_t key) {
    uint64_t old = 0;
    const int32_t status = citrus_remove(&me->handle, key, &old);
    must(status == CITRUS_DONE || status == CITRUS_UNCHANGED, "a pair wasn't taken out");
    must(may_be(me, key, status == CITRUS_DONE), "a remove's answer isn't true");
    if (status != CITRUS_DONE) return 0;
    must(is_of(key, old), "a pair that was taken out had another key's value");
    me->has[key]--;
    return 1;
}

static void replace(struct writer *me, uint64_t key) {
    uint64_t old = 0;
    const int32_t status = citrus_replace(&me->handle, key, value_for(key, me->updates), &old);
    must(status == CITRUS_DONE || status == CITRUS_UNCHANGED, "a value wasn't replaced");
    must(may_be(me, key, status == CITRUS_DONE), "a replace's answer isn't true");
    must(status == CITRUS_UNCHANGED || is_of(key, old), "a value that was replaced was another key's");
}

/* Whether it may have changed how many slots are kept back. */
static int update(struct writer *me) {
    const uint64_t drawn = draw(&me->state), key = (drawn >> 1) % plan.keys;
    switch (plan.kind) {
    case REPLACES: replace(me, key); return 0;
    case ASCENDING: insert(me, plan.keys + me->updates); return 1;
    default: break;
    }
    if (drawn & 1) return remove_at(me, key);
    insert(me, key);
    return 0;
}

static int is_full(const struct writer *me) { return plan.kind == ASCENDING && me->updates == ADDED; }

static void be_ready(void) {
    are_ready++;
    while (!is_begun) sched_yield();
}

/* The last update isn't counted where the writer stood still in it until the value was released. */
static void *write_on(void *at) {
    struct writer *me = at;
    be_ready();
    me->begun = me->last = nanoseconds();
    while (!is_over && !is_full(me)) {
        const int changed = update(me);
        const uint64_t now = nanoseconds(), took = now - me->last;
        me->stands = plan.is_held && took >= STILL && is_over;
        if (me->stands) return NULL;
        if (took > me->longest) me->longest = took;
        if (changed) me->kept = numbers_of(&me->handle).kept;
        me->updates++;
        me->last = now;
    }
    me->kept = numbers_of(&me->handle).kept;
    return NULL;
}

static void look_up(struct reader *me) {
    const uint64_t key = draw(&me->state) % plan.keys;
    uint64_t value = 0;
    const int32_t status = citrus_get(&me->handle, key, &value);
    must(status == CITRUS_DONE || status == CITRUS_UNCHANGED, "a lookup was refused");
    must(status == CITRUS_UNCHANGED || is_of(key, value), "a lookup told another key's value");
    me->gets++;
}

/* Whether the keys of so many pairs ascend, and each has a value that was put under it. */
static int are_pairs(const citrus_pair *pairs, size_t count) {
    for (size_t i = 0; i < count; i++)
        if ((i && pairs[i - 1].key >= pairs[i].key) || !is_of(pairs[i].key, pairs[i].value)) return 0;
    return 1;
}

static void list_some(struct reader *me) {
    citrus_pair pairs[PAGE];
    uint64_t next = 0;
    size_t count = 0;
    const int32_t status = citrus_list(&me->handle, draw(&me->state) % plan.keys, UINT64_MAX, pairs, PAGE, &count, &next);
    must(status == CITRUS_DONE || status == CITRUS_MORE, "a list was refused");
    must(are_pairs(pairs, count), "a list's pairs aren't those that were put in");
    me->lists++;
}

static void *read_on(void *at) {
    struct reader *me = at;
    const struct sched_param none = {0};
    if (me->is_idle) must(sched_setscheduler(0, SCHED_IDLE, &none) == 0, "a reader's thread isn't made idle");
    be_ready();
    while (!is_over) {
        look_up(me);
        if (me->also_lists) list_some(me);
    }
    return NULL;
}

static void share(citrus_handle *from, citrus_handle *with) {
    must(citrus_share(from, 1, CITRUS_ALL_TICKETS / 64, with) == CITRUS_DONE, "no handle was shared");
}

/* The first writer fills the index: so its handle is opened, and the others are shared from it. */
static void open_all(void) {
    citrus_options options = citrus_options_for((uint32_t)most_keys(), plan.places, plan.waiter);
    options.salt = FIXED_SALT;
    for (uint32_t i = 0; i < plan.writers; i++) {
        writers[i] = (struct writer){.handle = CITRUS_CLOSED_HANDLE, .state = state_of(i)};
        writers[i].has = calloc(most_keys(), sizeof *writers[i].has);
        must(writers[i].has != NULL, "memory is short");
        if (i) share(&writers[0].handle, &writers[i].handle);
        else must(citrus_open_keeping(&writers[0].handle, &options, plan.keep) == CITRUS_DONE, "no index was opened");
    }
    for (uint32_t i = 0; i < MOST_IDLE + 1; i++) readers[i] = (struct reader){.handle = CITRUS_CLOSED_HANDLE, .state = state_of(99 + i)};
}

/* Every second key, in a scattered order. */
static void fill(void) {
    const uint64_t half = plan.keys / 2;
    for (uint64_t i = 0; i < half; i++) insert(&writers[0], 2 * (i * 7919 % half));
}

static void start(pthread_t *id, void *(*run)(void *), void *with) { must(pthread_create(id, NULL, run, with) == 0, "no thread was made"); }

/* The readers that run come first: so many. */
static uint32_t start_readers(void) {
    const uint32_t count = plan.kind == MIXED ? plan.idle : 1;
    for (uint32_t i = 0; i < count; i++) {
        readers[i].is_idle = plan.kind == MIXED;
        readers[i].also_lists = plan.kind != MIXED;
        share(&writers[0].handle, &readers[i].handle);
        start(&readers[i].id, read_on, &readers[i]);
    }
    return count;
}

/* Lets all run for the time, beside the held value where one is: how many nanoseconds. */
static uint64_t run_all(citrus_handle *holder) {
    const uint64_t key = plan.keys / 4 * 2;
    const struct timespec time = {(time_t)plan.seconds, (long)((plan.seconds - (double)(time_t)plan.seconds) * 1e9)};
    uint64_t value = 0;
    if (plan.is_held) must(citrus_hold(holder, key, &value) == CITRUS_DONE && is_of(key, value), "the key isn't held");
    const uint64_t begun = nanoseconds();
    is_begun = 1;
    nanosleep(&time, NULL);
    const uint64_t passed = nanoseconds() - begun;
    is_over = 1;
    if (plan.is_held) must(citrus_release(holder) == CITRUS_DONE, "the value wasn't released");
    return passed;
}

/* Once all have ended: just those pairs are there that were put in and not taken out. */
static void check_all(void) {
    enum { MANY = 4096 };
    static citrus_pair pairs[MANY];
    uint64_t next = 0, key = 0;
    int32_t status = CITRUS_MORE;
    while (status == CITRUS_MORE) {
        size_t count = 0;
        status = citrus_list(&writers[0].handle, next, UINT64_MAX, pairs, MANY, &count, &next);
        must((status == CITRUS_DONE || status == CITRUS_MORE) && are_pairs(pairs, count), "the index has other pairs at the end");
        for (size_t i = 0; i <= count; i++) {
            const uint64_t end = i < count ? pairs[i].key : status == CITRUS_DONE ? most_keys() : key;
            must(end <= most_keys(), "the index has a key at the end that nobody put in");
            for (; key < end + (i < count); key++) {
                uint16_t has = 0;
                for (uint32_t w = 0; w < plan.writers; w++) has = (uint16_t)(has + writers[w].has[key]);
                must(has == (key == end), "the index has another key at the end, or lacks one");
            }
        }
    }
}

static void tell(uint64_t passed, const char *readers_word) {
    uint64_t updates = 0, longest = 0, at = UINT64_MAX, kept = 0, room = 0, gets = 0, lists = 0;
    double rate = 0;
    int stand = 0;
    for (uint32_t i = 0; i < plan.writers; i++) {
        const struct writer *one = &writers[i];
        updates += one->updates;
        rate += one->updates ? 1e9 * (double)one->updates / (double)(one->last - one->begun) : 0;
        if (one->longest > longest) longest = one->longest;
        if (one->stands && one->last - one->begun < at) at = one->last - one->begun;
        stand += one->stands;
        kept += one->kept;
        room += numbers_of(&writers[i].handle).room;
    }
    for (uint32_t i = 0; i < MOST_IDLE + 1; i++) gets += readers[i].gets, lists += readers[i].lists;
    printf("%s,%u,%u,%u,%u,%s,%.3f,%llu,%.0f,%.1f,%d,", kinds[plan.kind], plan.waiter, plan.keys, plan.writers, plan.keep, readers_word,
           (double)passed / 1e9, (unsigned long long)updates, rate, (double)longest / 1e3, stand);
    if (stand) printf("%.3f", (double)at / 1e6);
    printf(",%llu,%llu,%llu,%llu\n", (unsigned long long)kept, (unsigned long long)room, (unsigned long long)gets, (unsigned long long)lists);
}

static void read_plan(char **words) {
    for (plan.kind = 0; plan.kind < KINDS && strcmp(words[1], kinds[plan.kind]) != 0;) plan.kind++;
    plan.waiter = (uint32_t)atoi(words[2]);
    plan.keys = (uint32_t)atoi(words[3]);
    plan.writers = (uint32_t)atoi(words[4]);
    plan.keep = (uint32_t)atoi(words[5]);
    plan.is_held = strcmp(words[6], "held") == 0;
    plan.idle = (uint32_t)atoi(words[6]);
    plan.seconds = atof(words[7]);
    plan.seed = strtoull(words[8], NULL, 10);
    /* Without the reader that holds its place is there too, and without idle ones theirs: so that the index is the same. */
    plan.places = plan.writers + (words[6][0] >= '0' && words[6][0] <= '9' ? MOST_IDLE : 1) + (plan.kind != MIXED);
    must(plan.kind < KINDS && plan.keys >= 4 && plan.keys / 2 % 7919 && plan.keys <= MOST_KEYS && plan.writers >= 1 && plan.writers <= MOST_WRITERS &&
             plan.idle <= MOST_IDLE && (plan.kind == MIXED || (plan.writers == 1 && !plan.idle)),
         "a number is out of its range");
}

int main(int count, char **words) {
    citrus_handle holder = CITRUS_CLOSED_HANDLE;
    must(count == 9, "usage: stays KIND WAITER KEYS WRITERS KEEP READERS SECONDS SEED");
    read_plan(words);
    open_all();
    fill();
    if (plan.is_held) share(&writers[0].handle, &holder);
    const uint32_t reading = start_readers();
    for (uint32_t i = 0; i < plan.writers; i++) start(&writers[i].id, write_on, &writers[i]);
    while (are_ready < (int)(reading + plan.writers)) sched_yield();
    const uint64_t passed = run_all(&holder);
    for (uint32_t i = 0; i < plan.writers; i++) pthread_join(writers[i].id, NULL);
    for (uint32_t i = 0; i < reading; i++) pthread_join(readers[i].id, NULL);
    check_all();
    tell(passed, words[6]);
    citrus_close(&holder);
    for (uint32_t i = 0; i < MOST_IDLE + 1; i++) citrus_close(&readers[i].handle);
    for (uint32_t i = 0; i < plan.writers; i++) {
        citrus_close(&writers[i].handle);
        free(writers[i].has);
    }
}
