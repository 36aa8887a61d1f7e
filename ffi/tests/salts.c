/* What the salt of an index is for, and which options an open refuses.
 *
 * Keys that rise while their mixes with a salt fall make the tree of an index with that salt a path: no node of it is to stand above another
 * one. So each of its gets walks past as many nodes as there are pairs. They are chosen among small numbers, as ids are. */
#include "cases.h"
#include <sys/mman.h>
#include <time.h>
#include <unistd.h>

enum { KEYS = 6000, ROUNDS = 3, LOOKUPS = 600, HARMLESS = 8, HARMFUL = 24 };

/* What citrus_open of an older header opens an index with. */
static const uint64_t known_salt = 0x9e3779b97f4a7c15u;

static uint64_t crafted[KEYS], ascending[KEYS];

/* The finalizer of SplitMix64, by which the tree mixes. */
static uint64_t mixed(uint64_t number) {
    number = (number ^ number >> 30) * 0xbf58476d1ce4e5b9u;
    number = (number ^ number >> 27) * 0x94d049bb133111ebu;
    return number ^ number >> 31;
}

/* The mix of each key lies in a part of its own of all numbers, the first key's in the highest. */
static void craft(uint64_t salt) {
    const uint64_t part = UINT64_MAX / KEYS;
    uint64_t key = 0;
    for (uint64_t i = 0; i < KEYS; i++) {
        do key++;
        while (mixed(key ^ salt) / part != KEYS - 1 - i);
        crafted[i] = key;
        ascending[i] = i;
    }
    WANT(crafted[KEYS - 1] < UINT32_MAX, 1);
}

static int32_t open_by(citrus_handle *index, uint64_t salt) {
    citrus_options options = citrus_options_for(KEYS, 1, CITRUS_EER);
    options.salt = salt;
    return citrus_open_with(index, &options);
}

static double now(void) {
    struct timespec time;
    clock_gettime(CLOCK_THREAD_CPUTIME_ID, &time);
    return (double)time.tv_sec + (double)time.tv_nsec * 1e-9;
}

/* How long some gets take where the index has these keys, and was closed before. */
static double gets_of(citrus_handle *index, const uint64_t *keys) {
    double best = 1e18;
    uint64_t told = 0;
    for (size_t i = 0; i < KEYS; i++) WANT(citrus_insert(index, keys[i], i), CITRUS_DONE);
    for (int round = 0; round < ROUNDS; round++) {
        const double begun = now();
        for (size_t i = 0; i < LOOKUPS; i++) WANT(citrus_get(index, keys[i * (KEYS / LOOKUPS)], &told), CITRUS_DONE);
        if (now() - begun < best) best = now() - begun;
    }
    citrus_close(index);
    return best;
}

/* How many times as long the gets of the crafted keys take as those of as many ascending ones. */
static double harm_by(citrus_handle *one, citrus_handle *other) { return gets_of(one, crafted) / gets_of(other, ascending); }

static void keys_crafted_for_the_known_salt(void) {
    citrus_handle one = CITRUS_CLOSED_HANDLE, other = CITRUS_CLOSED_HANDLE;
    WANT(open_by(&one, known_salt), CITRUS_DONE);
    WANT(open_by(&other, known_salt), CITRUS_DONE);
    const double harm = harm_by(&one, &other);
    WANT(harm > HARMFUL, 1);
}

static void crafted_keys_by_a_drawn_salt(void) {
    citrus_handle one = CITRUS_CLOSED_HANDLE, other = CITRUS_CLOSED_HANDLE;
    WANT(citrus_open(&one, KEYS, 1, CITRUS_EER), CITRUS_DONE);
    WANT(citrus_open(&other, KEYS, 1, CITRUS_EER), CITRUS_DONE);
    const double harm = harm_by(&one, &other);
    WANT(harm < HARMLESS, 1);
}

/* A program that was compiled before citrus_open was inline calls the library's own. */
int32_t old_open(citrus_handle *handle, uint32_t pairs, uint32_t handles, uint32_t waiter) __asm__("citrus_open");

static void an_open_of_an_older_program(void) {
    citrus_handle one = CITRUS_CLOSED_HANDLE, other = CITRUS_CLOSED_HANDLE;
    WANT(old_open(&one, CITRUS_MAX_PAIRS + 1, 1, CITRUS_EER), CITRUS_BAD_ARGUMENT);
    WANT(one.at == NULL, 1);
    WANT(old_open(&one, KEYS, 1, CITRUS_EER), CITRUS_DONE);
    WANT(old_open(&other, KEYS, 1, CITRUS_EER), CITRUS_DONE);
    const double harm = harm_by(&one, &other);
    WANT(harm > HARMFUL, 1);
}

static void each_open_draws(void) {
    const citrus_options one = citrus_options_for(5, 2, CITRUS_DEER), other = citrus_options_for(5, 2, CITRUS_DEER);
    WANT(one.salt != other.salt, 1);
    WANT(one.size, 32);
    WANT(one.pairs == 5 && one.handles == 2 && one.waiter == CITRUS_DEER && one.flags == 0, 1);
}

/* The handle is as it was: closed, or open on what it was open on. */
static void is_refused(const citrus_options *options) {
    citrus_handle closed = CITRUS_CLOSED_HANDLE, open = CITRUS_CLOSED_HANDLE;
    uint64_t told = UNTOUCHED;
    WANT(citrus_open_with(&closed, options), CITRUS_BAD_ARGUMENT);
    WANT(closed.at == NULL, 1);
    WANT(citrus_open(&open, 5, 1, CITRUS_EER), CITRUS_DONE);
    WANT(citrus_insert(&open, 7, 70), CITRUS_DONE);
    WANT(citrus_open_with(&open, options), CITRUS_BAD_ARGUMENT);
    WANT(citrus_get(&open, 7, &told), CITRUS_DONE);
    WANT(told, 70);
    citrus_close(&open);
}

static void options_that_open_no_index(void) {
    static const size_t sizes[] = {0, 1, 8, 24, 31, 33, 40, 64, SIZE_MAX};
    static const uint32_t numbers[][4] = {
        {0, 1, 0, 0}, {CITRUS_MAX_PAIRS + 1, 1, 0, 0}, {5, 0, 0, 0}, {5, CITRUS_MAX_HANDLES + 1, 0, 0}, {5, 1, 3, 0}, {5, 1, 0, 1}, {5, 1, 0, UINT32_MAX},
    };
    citrus_options options = citrus_options_for(5, 1, CITRUS_EER);
    for (size_t i = 0; i < COUNT_OF(sizes); i++) {
        options.size = sizes[i];
        is_refused(&options);
    }
    options.size = sizeof options;
    for (size_t i = 0; i < COUNT_OF(numbers); i++) {
        options.pairs = numbers[i][0], options.handles = numbers[i][1], options.waiter = numbers[i][2], options.flags = numbers[i][3];
        is_refused(&options);
    }
}

/* Behind the size there is no memory that may be read. */
static void of_another_size_nothing_else_is_read(void) {
    static const size_t sizes[] = {0, 8, 31, 33, SIZE_MAX};
    const size_t page = (size_t)sysconf(_SC_PAGESIZE);
    char *const pages = (char *)mmap(NULL, 2 * page, PROT_READ | PROT_WRITE, MAP_PRIVATE | MAP_ANONYMOUS, -1, 0);
    WANT(pages != MAP_FAILED && mprotect(pages + page, page, PROT_NONE) == 0, 1);
    size_t *const size = (size_t *)(void *)(pages + page) - 1;
    for (size_t i = 0; i < COUNT_OF(sizes) && !wrong_here; i++) {
        *size = sizes[i];
        is_refused((const citrus_options *)(const void *)size);
    }
    munmap(pages, 2 * page);
}

static const struct plain_case cases[] = {
    {"each open draws a salt of its own", each_open_draws},
    {"options that open no index", options_that_open_no_index},
    {"of options of another size nothing else is read", of_another_size_nothing_else_is_read},
    {"keys that were crafted for a known salt slow its index down", keys_crafted_for_the_known_salt},
    {"so do they an index of a program that was compiled before salts were drawn", an_open_of_an_older_program},
    {"crafted keys do no harm where the salt is drawn", crafted_keys_by_a_drawn_salt},
};

int main(void) {
    craft(known_salt);
    run_plain_cases(cases, COUNT_OF(cases));
    return failed_cases != 0;
}
