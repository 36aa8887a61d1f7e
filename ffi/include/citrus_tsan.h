/* Part of citrus.h under ThreadSanitizer, which sees nothing of what the library does: it is compiled without its marks. So it would report
 * each plain hand-over of memory by the index as a race. Here each call tells it what the library orders:
 *   - what a thread did before an insert, replace, compare or upsert of a pair comes before what is done by whoever is told this pair;
 *   - what a thread did before a release comes before what is done behind a wait, or a poll that is DONE;
 *   - a close comes before each later close and reopen, which take or free the memory that it left.
 *
 * It tells somewhat more than the library promises: the words that stand for pairs are shared by those with one hash, also of two indexes,
 * and each release comes before each later wait, whatever its keys. So a wait for the wrong keys isn't reported. What it reports is a race
 * all the same. Each file of a program that calls the library is compiled so, or the hand-overs of the others are reported. */
#ifndef CITRUS_TSAN_H
#define CITRUS_TSAN_H

#include <sanitizer/tsan_interface.h>

#ifdef __cplusplus
extern "C" {
#endif

enum { CITRUS_TSAN_PAIRS = 4096 };

/* They are weak, so that all files of a program have one of them. */
__attribute__((weak)) uint64_t citrus_tsan_pairs[CITRUS_TSAN_PAIRS];
__attribute__((weak)) uint64_t citrus_tsan_sections;
__attribute__((weak)) uint64_t citrus_tsan_closed;

static inline void *citrus_tsan_pair(uint64_t key, uint64_t value) {
    const uint64_t mixed = ((key * UINT64_C(0x9e3779b97f4a7c15)) ^ value) * UINT64_C(0xbf58476d1ce4e5b9);
    return &citrus_tsan_pairs[mixed >> 52];
}

/* Before the pair is put in, and behind the call that told it. */
static inline void citrus_tsan_puts(uint64_t key, uint64_t value) { __tsan_release(citrus_tsan_pair(key, value)); }
static inline void citrus_tsan_is_told(uint64_t key, uint64_t value) { __tsan_acquire(citrus_tsan_pair(key, value)); }

static inline int32_t citrus_tsan_get(citrus_handle *handle, uint64_t key, uint64_t *value) {
    const int32_t status = citrus_get(handle, key, value);
    if (status == CITRUS_DONE) citrus_tsan_is_told(key, *value);
    return status;
}

static inline int32_t citrus_tsan_hold(citrus_handle *handle, uint64_t key, uint64_t *value) {
    const int32_t status = citrus_hold(handle, key, value);
    if (status == CITRUS_DONE) citrus_tsan_is_told(key, *value);
    return status;
}

/* Whoever is told the value before has loaded it. */
static inline int32_t citrus_tsan_gave(int32_t status, uint64_t key, const uint64_t *old) {
    if (status == CITRUS_DONE) citrus_tsan_is_told(key, *old);
    return status;
}

/* So has who replaced `expected` or took it out, or was told another value. */
static inline int32_t citrus_tsan_compared(int32_t status, uint64_t key, uint64_t expected, const uint64_t *found) {
    if (status == CITRUS_DONE) citrus_tsan_is_told(key, expected);
    if (status == CITRUS_DIFFERENT) citrus_tsan_is_told(key, *found);
    return status;
}

static inline int32_t citrus_tsan_insert(citrus_handle *handle, uint64_t key, uint64_t value) {
    citrus_tsan_puts(key, value);
    return citrus_insert(handle, key, value);
}

static inline int32_t citrus_tsan_replace(citrus_handle *handle, uint64_t key, uint64_t value, uint64_t *old) {
    citrus_tsan_puts(key, value);
    return citrus_tsan_gave(citrus_replace(handle, key, value, old), key, old);
}

static inline int32_t citrus_tsan_compare(citrus_handle *handle, uint64_t key, uint64_t expected, uint64_t value, uint64_t *found) {
    citrus_tsan_puts(key, value);
    return citrus_tsan_compared(citrus_compare(handle, key, expected, value, found), key, expected, found);
}

static inline int32_t citrus_tsan_upsert(citrus_handle *handle, uint64_t key, uint64_t value, uint64_t *old) {
    citrus_tsan_puts(key, value);
    return citrus_tsan_gave(citrus_upsert(handle, key, value, old), key, old);
}

static inline int32_t citrus_tsan_remove(citrus_handle *handle, uint64_t key, uint64_t *old) {
    return citrus_tsan_gave(citrus_remove(handle, key, old), key, old);
}

static inline int32_t citrus_tsan_take(citrus_handle *handle, uint64_t key, uint64_t expected, uint64_t *found) {
    return citrus_tsan_compared(citrus_take(handle, key, expected, found), key, expected, found);
}

/* One try of each: of one that is CITRUS_BUSY this tells of a pair that nobody is told. */
static inline int32_t citrus_tsan_take_once(citrus_handle *handle, uint64_t key, uint64_t expected, uint64_t *found) {
    return citrus_tsan_compared(citrus_take_once(handle, key, expected, found), key, expected, found);
}

static inline int32_t citrus_tsan_insert_once(citrus_handle *handle, uint64_t key, uint64_t value) {
    citrus_tsan_puts(key, value);
    return citrus_insert_once(handle, key, value);
}

static inline int32_t citrus_tsan_replace_once(citrus_handle *handle, uint64_t key, uint64_t value, uint64_t *old) {
    citrus_tsan_puts(key, value);
    return citrus_tsan_gave(citrus_replace_once(handle, key, value, old), key, old);
}

static inline int32_t citrus_tsan_compare_once(citrus_handle *handle, uint64_t key, uint64_t expected, uint64_t value, uint64_t *found) {
    citrus_tsan_puts(key, value);
    return citrus_tsan_compared(citrus_compare_once(handle, key, expected, value, found), key, expected, found);
}

static inline int32_t citrus_tsan_upsert_once(citrus_handle *handle, uint64_t key, uint64_t value, uint64_t *old) {
    citrus_tsan_puts(key, value);
    return citrus_tsan_gave(citrus_upsert_once(handle, key, value, old), key, old);
}

static inline int32_t citrus_tsan_remove_once(citrus_handle *handle, uint64_t key, uint64_t *old) {
    return citrus_tsan_gave(citrus_remove_once(handle, key, old), key, old);
}

static inline int32_t citrus_tsan_first(citrus_handle *handle, uint64_t low, uint64_t *key, uint64_t *value) {
    const int32_t status = citrus_first(handle, low, key, value);
    if (status == CITRUS_DONE) citrus_tsan_is_told(*key, *value);
    return status;
}

static inline int32_t citrus_tsan_last(citrus_handle *handle, uint64_t low, uint64_t high, uint64_t *key, uint64_t *value) {
    const int32_t status = citrus_last(handle, low, high, key, value);
    if (status == CITRUS_DONE) citrus_tsan_is_told(*key, *value);
    return status;
}

static inline int32_t citrus_tsan_list(citrus_handle *handle, uint64_t low, uint64_t high, citrus_pair *pairs, size_t room, size_t *count,
                                       uint64_t *next) {
    const int32_t status = citrus_list(handle, low, high, pairs, room, count, next);
    size_t i;
    for (i = 0; i < *count; i++) citrus_tsan_is_told(pairs[i].key, pairs[i].value);
    return status;
}

static inline int32_t citrus_tsan_list_down(citrus_handle *handle, uint64_t low, uint64_t high, citrus_pair *pairs, size_t room, size_t *count,
                                            uint64_t *next) {
    const int32_t status = citrus_list_down(handle, low, high, pairs, room, count, next);
    size_t i;
    for (i = 0; i < *count; i++) citrus_tsan_is_told(pairs[i].key, pairs[i].value);
    return status;
}

static inline int32_t citrus_tsan_get_many(citrus_lanes *lanes, const uint64_t *keys, size_t count, citrus_answer *answers, size_t room) {
    const int32_t status = citrus_get_many(lanes, keys, count, answers, room);
    size_t i;
    for (i = 0; status == CITRUS_DONE && i < count; i++)
        if (answers[i].found) citrus_tsan_is_told(keys[i], answers[i].value);
    return status;
}

static inline void citrus_tsan_close_lanes(citrus_lanes *lanes) {
    __tsan_acquire(&citrus_tsan_closed);
    citrus_close_lanes(lanes);
    __tsan_release(&citrus_tsan_closed);
}

static inline int32_t citrus_tsan_release(citrus_handle *handle) {
    __tsan_release(&citrus_tsan_sections);
    return citrus_release(handle);
}

/* It leaves the section too. */
static inline void citrus_tsan_close(citrus_handle *handle) {
    __tsan_release(&citrus_tsan_sections);
    __tsan_acquire(&citrus_tsan_closed);
    citrus_close(handle);
    __tsan_release(&citrus_tsan_closed);
}

static inline int32_t citrus_tsan_reopen(citrus_handle *handle, citrus_handle *other) {
    __tsan_acquire(&citrus_tsan_closed);
    return citrus_reopen(handle, other);
}

static inline int32_t citrus_tsan_wait(citrus_handle *handle, uint64_t low, uint64_t high) {
    const int32_t status = citrus_wait(handle, low, high);
    if (status == CITRUS_DONE) __tsan_acquire(&citrus_tsan_sections);
    return status;
}

static inline int32_t citrus_tsan_poll(citrus_handle *handle, uint64_t cookie) {
    const int32_t status = citrus_poll(handle, cookie);
    if (status == CITRUS_DONE) __tsan_acquire(&citrus_tsan_sections);
    return status;
}

#ifdef __cplusplus
}
#endif

#define citrus_get citrus_tsan_get
#define citrus_hold citrus_tsan_hold
#define citrus_insert citrus_tsan_insert
#define citrus_insert_once citrus_tsan_insert_once
#define citrus_replace citrus_tsan_replace
#define citrus_replace_once citrus_tsan_replace_once
#define citrus_upsert citrus_tsan_upsert
#define citrus_upsert_once citrus_tsan_upsert_once
#define citrus_remove citrus_tsan_remove
#define citrus_remove_once citrus_tsan_remove_once
#define citrus_take citrus_tsan_take
#define citrus_take_once citrus_tsan_take_once
#define citrus_first citrus_tsan_first
#define citrus_last citrus_tsan_last
#define citrus_compare citrus_tsan_compare
#define citrus_compare_once citrus_tsan_compare_once
#define citrus_list citrus_tsan_list
#define citrus_list_down citrus_tsan_list_down
#define citrus_get_many citrus_tsan_get_many
#define citrus_close_lanes citrus_tsan_close_lanes
#define citrus_release citrus_tsan_release
#define citrus_close citrus_tsan_close
#define citrus_reopen citrus_tsan_reopen
#define citrus_wait citrus_tsan_wait
#define citrus_poll citrus_tsan_poll

#endif
