/* Part of citrus.h where CITRUS_DEBUG is defined: three mistakes are told on stderr, in a line that names the call, and the program aborts.
 *
 * A thread that is in a section (citrus_hold, citrus_enter) by one handle makes an update or a wait by another. Without this the call may wait
 * for its own thread, and then nothing goes on.
 *
 * Two threads call with one handle, or with the same lanes, at a time, or a signal handler does so within a call. Without this calls are
 * answered CITRUS_CLOSED that the handle isn't, or the program ends by a signal, or another's answer is told. It is seen where both are in a
 * call at one moment, but for rare cases in which many handles are.
 *
 * A handle, or lanes, were copied, and both were used. Without this the one goes on with what the other freed, or two threads with one. Each call
 * leaves another number in the upper 16 bits of the member, which the library doesn't see; of two copies the one that made no call since has an
 * old number. It is seen but where very many handles are open. What is moved without a reset of the old one is no copy, if that isn't used.
 *
 * It knows the sections of a thread, and not of which index a handle is. So it aborts where the other handle is of another index too: that may
 * go well where a program orders its indexes as one orders locks, and such a program can't be tested so; citrus_string_map.hpp does, and says so by
 * citrus_debug_goes_around. A section is left in the thread that
 * entered it, or it aborts as well. Each file of a program that calls the library is compiled so, or none: to the others a member with a number
 * leads nowhere, and the first call with it is a SIGSEGV. */
#ifndef CITRUS_DEBUG_H
#define CITRUS_DEBUG_H

#include <stdio.h>
#include <stdlib.h>

#ifdef __cplusplus
extern "C" {
#endif

enum { CITRUS_DEBUG_SECTIONS = 64, CITRUS_DEBUG_CALLS = 1024, CITRUS_DEBUG_TRIES = 16, CITRUS_DEBUG_MEMBERS = 4096, CITRUS_DEBUG_SHIFT = 48 };

/* The sections that this thread is in, by the members of their handles. It is weak, so that all files of a program have one of it. */
struct citrus_debug_sections { unsigned count; void *in[CITRUS_DEBUG_SECTIONS]; };
__attribute__((weak)) __thread struct citrus_debug_sections citrus_debug_now;

/* Those of them beside which it may make updates of other indexes, since these wait for no such section. */
__attribute__((weak)) __thread struct citrus_debug_sections citrus_debug_around;

static inline void citrus_debug_abort(const char *call, const char *why) {
    fprintf(stderr, "citrus: %s: %s\n", call, why);
    abort();
}

/* The members that calls left, each with its number: that of its last call, and so on from one that no open before had of late. */
__attribute__((weak)) uint64_t citrus_debug_members[CITRUS_DEBUG_MEMBERS];
__attribute__((weak)) uint64_t citrus_debug_opened;

static inline void *citrus_debug_plain(const void *at) {
    return (void *)(uintptr_t)((uint64_t)(uintptr_t)at & ((UINT64_C(1) << CITRUS_DEBUG_SHIFT) - 1));
}

/* Puts a word in the place of another one, 0 for none, among those that may stand for this member; whether it was there. */
static inline int citrus_debug_exchange(const void *plain, uint64_t before, uint64_t after) {
    const uint64_t place = ((uint64_t)(uintptr_t)plain * UINT64_C(0x9e3779b97f4a7c15)) >> 52;
    unsigned i;
    for (i = 0; i < CITRUS_DEBUG_TRIES; i++) {
        uint64_t found = before;
        if (__atomic_compare_exchange_n(&citrus_debug_members[(place + i) % CITRUS_DEBUG_MEMBERS], &found, after, 0, __ATOMIC_RELAXED, __ATOMIC_RELAXED))
            return 1;
    }
    return 0;
}

/* Before a call: takes the number off the member, and tells it. It is 0 of a member that has none. */
static inline uint64_t citrus_debug_takes(const char *call, void **member) {
    const uint64_t numbered = (uint64_t)(uintptr_t)*member, number = numbered >> CITRUS_DEBUG_SHIFT;
    if (!number) return 0;
    *member = citrus_debug_plain(*member);
    if (!citrus_debug_exchange(*member, numbered, 0))
        citrus_debug_abort(call, "this is a copy, or was copied, and the other one made a call since: set the old one to citrus_closed_handle()");
    return number;
}

/* After a call: the member gets the next number, or a first one behind 0. Where there is no room for it, it has none. */
static inline void citrus_debug_gives(void **member, uint64_t number) {
    uint64_t numbered = (uint64_t)(uintptr_t)*member;
    if (!numbered || numbered >> CITRUS_DEBUG_SHIFT) return;
    if (!number) number = __atomic_add_fetch(&citrus_debug_opened, 1, __ATOMIC_RELAXED) * 40503;
    number = (number + 1) & 0xffff;
    numbered |= (number ? number : 1) << CITRUS_DEBUG_SHIFT;
    if (citrus_debug_exchange(*member, 0, numbered)) *member = (void *)(uintptr_t)numbered;
}

/* The handles and lanes of calls that are under way, by where they stand: a call takes the member out of its handle until it ends. */
__attribute__((weak)) void *citrus_debug_calls[CITRUS_DEBUG_CALLS];

/* Where it is among them now, or null where there is no room. These accesses order nothing else. */
static inline void **citrus_debug_begins_at(const char *call, const void *stands, const char *why) {
    void *const at = (void *)(uintptr_t)stands;
    const uint64_t place = ((uint64_t)(uintptr_t)at * UINT64_C(0x9e3779b97f4a7c15)) >> 54;
    unsigned i;
    for (i = 0; i < CITRUS_DEBUG_TRIES; i++) {
        void **const word = &citrus_debug_calls[(place + i) % CITRUS_DEBUG_CALLS];
        void *found = CITRUS_NULL;
        if (__atomic_compare_exchange_n(word, &found, at, 0, __ATOMIC_RELAXED, __ATOMIC_RELAXED)) return word;
        if (found == at) citrus_debug_abort(call, why);
    }
    return CITRUS_NULL;
}

/* A call that is under way: the word of its handle among these, the handle's member, and the number that was taken off that. */
struct citrus_debug_call { void **word; void **member; uint64_t number; };

static inline struct citrus_debug_call citrus_debug_begins(const char *call, citrus_handle *handle) {
    struct citrus_debug_call mine;
    mine.word = citrus_debug_begins_at(call, handle, "another thread is in a call with this handle: each thread takes one of its own");
    mine.member = &handle->at;
    mine.number = citrus_debug_takes(call, mine.member);
    return mine;
}

static inline struct citrus_debug_call citrus_debug_begins_by(const char *call, citrus_lanes *lanes) {
    struct citrus_debug_call mine;
    mine.word = citrus_debug_begins_at(call, lanes, "another thread is in a call with these lanes: each thread takes its own");
    mine.member = &lanes->at;
    mine.number = citrus_debug_takes(call, mine.member);
    return mine;
}

static inline int32_t citrus_debug_ended(struct citrus_debug_call mine, int32_t status) {
    citrus_debug_gives(mine.member, mine.number);
    if (mine.word) __atomic_store_n(mine.word, CITRUS_NULL, __ATOMIC_RELAXED);
    return status;
}

/* Of a call that may free what the member leads to: another handle may have the same one before it ends. It tells the number. */
static inline uint64_t citrus_debug_only_begins(struct citrus_debug_call mine) {
    if (mine.word) __atomic_store_n(mine.word, CITRUS_NULL, __ATOMIC_RELAXED);
    return mine.number;
}

static inline void citrus_debug_comes_to(struct citrus_debug_sections *all, const char *call, void *at) {
    if (all->count == CITRUS_DEBUG_SECTIONS) citrus_debug_abort(call, "this thread is in 64 sections");
    all->in[all->count++] = at;
}

static inline void citrus_debug_enters(const char *call, const citrus_handle *handle) {
    citrus_debug_comes_to(&citrus_debug_now, call, citrus_debug_plain(handle->at));
}

/* Where it stands among them, or their count. */
static inline unsigned citrus_debug_place_in(const struct citrus_debug_sections *all, const void *at) {
    unsigned i = 0;
    while (i < all->count && all->in[i] != at) i++;
    return i;
}
static inline unsigned citrus_debug_place(const void *at) { return citrus_debug_place_in(&citrus_debug_now, at); }

/* Whether it was among them. */
static inline int citrus_debug_goes_from(struct citrus_debug_sections *all, const void *at) {
    const unsigned place = citrus_debug_place_in(all, at);
    if (place == all->count) return 0;
    all->in[place] = all->in[--all->count];
    return 1;
}
static inline int citrus_debug_leaves(const void *at) {
    return citrus_debug_goes_from(&citrus_debug_now, at) || citrus_debug_goes_from(&citrus_debug_around, at);
}

/* Of a section that this thread has just entered. */
static inline void citrus_debug_goes_around(const citrus_handle *handle) {
    void *const at = citrus_debug_plain(handle->at);
    if (citrus_debug_goes_from(&citrus_debug_now, at)) citrus_debug_comes_to(&citrus_debug_around, "citrus_enter", at);
}

/* A handle that is in a section itself is answered CITRUS_HOLDS, and a closed one CITRUS_CLOSED. */
static inline void citrus_debug_may_wait(const char *call, const citrus_handle *handle) {
    if (handle->at && citrus_debug_now.count && citrus_debug_place(citrus_debug_plain(handle->at)) == citrus_debug_now.count)
        citrus_debug_abort(call, "this thread is in a section by another handle, for which it may wait: release it first");
}

static inline int32_t citrus_debug_hold(citrus_handle *handle, uint64_t key, uint64_t *value) {
    const struct citrus_debug_call mine = citrus_debug_begins("citrus_hold", handle);
    const int32_t status = citrus_debug_ended(mine, citrus_hold(handle, key, value));
    if (status == CITRUS_DONE) citrus_debug_enters("citrus_hold", handle);
    return status;
}

static inline int32_t citrus_debug_enter(citrus_handle *handle, uint64_t key) {
    const struct citrus_debug_call mine = citrus_debug_begins("citrus_enter", handle);
    const int32_t status = citrus_debug_ended(mine, citrus_enter(handle, key));
    if (status == CITRUS_DONE) citrus_debug_enters("citrus_enter", handle);
    return status;
}

static inline int32_t citrus_debug_release(citrus_handle *handle) {
    const void *const at = citrus_debug_plain(handle->at);
    const struct citrus_debug_call mine = citrus_debug_begins("citrus_release", handle);
    const int32_t status = citrus_debug_ended(mine, citrus_release(handle));
    if (status == CITRUS_DONE && !citrus_debug_leaves(at)) citrus_debug_abort("citrus_release", "another thread entered this section");
    return status;
}

static inline void citrus_debug_close(citrus_handle *handle) {
    citrus_debug_release(handle);
    citrus_debug_only_begins(citrus_debug_begins("citrus_close", handle));
    citrus_close(handle);
}

/* These close what a handle was open on, at DONE alone. */
static inline int32_t citrus_debug_opened_over(void **member, const void *before, uint64_t number, int32_t status) {
    if (status == CITRUS_DONE) citrus_debug_leaves(before);
    citrus_debug_gives(member, status == CITRUS_DONE ? 0 : number);
    return status;
}

static inline int32_t citrus_debug_open(citrus_handle *handle, uint32_t pairs, uint32_t handles, uint32_t waiter) {
    const uint64_t number = citrus_debug_only_begins(citrus_debug_begins("citrus_open", handle));
    const void *const before = handle->at;
    return citrus_debug_opened_over(&handle->at, before, number, citrus_open(handle, pairs, handles, waiter));
}

static inline int32_t citrus_debug_open_with(citrus_handle *handle, const citrus_options *options) {
    const uint64_t number = citrus_debug_only_begins(citrus_debug_begins("citrus_open_with", handle));
    const void *const before = handle->at;
    return citrus_debug_opened_over(&handle->at, before, number, citrus_open_with(handle, options));
}

static inline int32_t citrus_debug_open_keeping(citrus_handle *handle, const citrus_options *options, uint32_t keep) {
    const uint64_t number = citrus_debug_only_begins(citrus_debug_begins("citrus_open_keeping", handle));
    const void *const before = handle->at;
    return citrus_debug_opened_over(&handle->at, before, number, citrus_open_keeping(handle, options, keep));
}

static inline int32_t citrus_debug_share(citrus_handle *handle, uint32_t handles, uint64_t tickets, citrus_handle *other) {
    const struct citrus_debug_call mine = citrus_debug_begins("citrus_share", handle);
    const uint64_t number = citrus_debug_takes("citrus_share", &other->at);
    const void *const before = other->at;
    const int32_t status = citrus_share(handle, handles, tickets, other);
    return citrus_debug_ended(mine, citrus_debug_opened_over(&other->at, before, number, status));
}

static inline int32_t citrus_debug_insert(citrus_handle *handle, uint64_t key, uint64_t value) {
    const struct citrus_debug_call mine = citrus_debug_begins("citrus_insert", handle);
    citrus_debug_may_wait("citrus_insert", handle);
    return citrus_debug_ended(mine, citrus_insert(handle, key, value));
}

static inline int32_t citrus_debug_replace(citrus_handle *handle, uint64_t key, uint64_t value, uint64_t *old) {
    const struct citrus_debug_call mine = citrus_debug_begins("citrus_replace", handle);
    citrus_debug_may_wait("citrus_replace", handle);
    return citrus_debug_ended(mine, citrus_replace(handle, key, value, old));
}

static inline int32_t citrus_debug_compare(citrus_handle *handle, uint64_t key, uint64_t expected, uint64_t value, uint64_t *found) {
    const struct citrus_debug_call mine = citrus_debug_begins("citrus_compare", handle);
    citrus_debug_may_wait("citrus_compare", handle);
    return citrus_debug_ended(mine, citrus_compare(handle, key, expected, value, found));
}

static inline int32_t citrus_debug_upsert(citrus_handle *handle, uint64_t key, uint64_t value, uint64_t *old) {
    const struct citrus_debug_call mine = citrus_debug_begins("citrus_upsert", handle);
    citrus_debug_may_wait("citrus_upsert", handle);
    return citrus_debug_ended(mine, citrus_upsert(handle, key, value, old));
}

static inline int32_t citrus_debug_remove(citrus_handle *handle, uint64_t key, uint64_t *old) {
    const struct citrus_debug_call mine = citrus_debug_begins("citrus_remove", handle);
    citrus_debug_may_wait("citrus_remove", handle);
    return citrus_debug_ended(mine, citrus_remove(handle, key, old));
}

static inline int32_t citrus_debug_take(citrus_handle *handle, uint64_t key, uint64_t expected, uint64_t *found) {
    const struct citrus_debug_call mine = citrus_debug_begins("citrus_take", handle);
    citrus_debug_may_wait("citrus_take", handle);
    return citrus_debug_ended(mine, citrus_take(handle, key, expected, found));
}

/* One try of each of these updates. */
static inline int32_t citrus_debug_insert_once(citrus_handle *handle, uint64_t key, uint64_t value) {
    const struct citrus_debug_call mine = citrus_debug_begins("citrus_insert_once", handle);
    citrus_debug_may_wait("citrus_insert_once", handle);
    return citrus_debug_ended(mine, citrus_insert_once(handle, key, value));
}

static inline int32_t citrus_debug_replace_once(citrus_handle *handle, uint64_t key, uint64_t value, uint64_t *old) {
    const struct citrus_debug_call mine = citrus_debug_begins("citrus_replace_once", handle);
    citrus_debug_may_wait("citrus_replace_once", handle);
    return citrus_debug_ended(mine, citrus_replace_once(handle, key, value, old));
}

static inline int32_t citrus_debug_compare_once(citrus_handle *handle, uint64_t key, uint64_t expected, uint64_t value, uint64_t *found) {
    const struct citrus_debug_call mine = citrus_debug_begins("citrus_compare_once", handle);
    citrus_debug_may_wait("citrus_compare_once", handle);
    return citrus_debug_ended(mine, citrus_compare_once(handle, key, expected, value, found));
}

static inline int32_t citrus_debug_upsert_once(citrus_handle *handle, uint64_t key, uint64_t value, uint64_t *old) {
    const struct citrus_debug_call mine = citrus_debug_begins("citrus_upsert_once", handle);
    citrus_debug_may_wait("citrus_upsert_once", handle);
    return citrus_debug_ended(mine, citrus_upsert_once(handle, key, value, old));
}

static inline int32_t citrus_debug_remove_once(citrus_handle *handle, uint64_t key, uint64_t *old) {
    const struct citrus_debug_call mine = citrus_debug_begins("citrus_remove_once", handle);
    citrus_debug_may_wait("citrus_remove_once", handle);
    return citrus_debug_ended(mine, citrus_remove_once(handle, key, old));
}

static inline int32_t citrus_debug_take_once(citrus_handle *handle, uint64_t key, uint64_t expected, uint64_t *found) {
    const struct citrus_debug_call mine = citrus_debug_begins("citrus_take_once", handle);
    citrus_debug_may_wait("citrus_take_once", handle);
    return citrus_debug_ended(mine, citrus_take_once(handle, key, expected, found));
}

static inline int32_t citrus_debug_wait(citrus_handle *handle, uint64_t low, uint64_t high) {
    const struct citrus_debug_call mine = citrus_debug_begins("citrus_wait", handle);
    citrus_debug_may_wait("citrus_wait", handle);
    return citrus_debug_ended(mine, citrus_wait(handle, low, high));
}

static inline int32_t citrus_debug_tidy(citrus_handle *handle, uint64_t low, uint64_t high, uint32_t turns, uint32_t *made, uint64_t *next) {
    const struct citrus_debug_call mine = citrus_debug_begins("citrus_tidy", handle);
    citrus_debug_may_wait("citrus_tidy", handle);
    return citrus_debug_ended(mine, citrus_tidy(handle, low, high, turns, made, next));
}

/* What waits for nobody, and enters no section. */
static inline int32_t citrus_debug_left(citrus_handle *handle, uint32_t *handles, uint64_t *tickets) {
    const struct citrus_debug_call mine = citrus_debug_begins("citrus_left", handle);
    return citrus_debug_ended(mine, citrus_left(handle, handles, tickets));
}

static inline uint64_t citrus_debug_fair_share(citrus_handle *handle, uint32_t handles) {
    const struct citrus_debug_call mine = citrus_debug_begins("citrus_fair_share", handle);
    const uint64_t told = citrus_fair_share(handle, handles);
    citrus_debug_ended(mine, CITRUS_DONE);
    return told;
}

static inline int32_t citrus_debug_stats(citrus_handle *handle, citrus_numbers *stats) {
    const struct citrus_debug_call mine = citrus_debug_begins("citrus_stats", handle);
    return citrus_debug_ended(mine, citrus_stats(handle, stats));
}

static inline int32_t citrus_debug_reopen(citrus_handle *handle, citrus_handle *other) {
    const struct citrus_debug_call mine = citrus_debug_begins("citrus_reopen", handle);
    const uint64_t number = citrus_debug_takes("citrus_reopen", &other->at);
    const int32_t status = citrus_reopen(handle, other);
    citrus_debug_gives(&other->at, number);
    return citrus_debug_ended(mine, status);
}

static inline int32_t citrus_debug_get(citrus_handle *handle, uint64_t key, uint64_t *value) {
    const struct citrus_debug_call mine = citrus_debug_begins("citrus_get", handle);
    return citrus_debug_ended(mine, citrus_get(handle, key, value));
}

static inline int32_t citrus_debug_list(citrus_handle *handle, uint64_t low, uint64_t high, citrus_pair *pairs, size_t room, size_t *count,
                                        uint64_t *next) {
    const struct citrus_debug_call mine = citrus_debug_begins("citrus_list", handle);
    return citrus_debug_ended(mine, citrus_list(handle, low, high, pairs, room, count, next));
}

static inline int32_t citrus_debug_list_down(citrus_handle *handle, uint64_t low, uint64_t high, citrus_pair *pairs, size_t room, size_t *count,
                                             uint64_t *next) {
    const struct citrus_debug_call mine = citrus_debug_begins("citrus_list_down", handle);
    return citrus_debug_ended(mine, citrus_list_down(handle, low, high, pairs, room, count, next));
}

static inline int32_t citrus_debug_first(citrus_handle *handle, uint64_t low, uint64_t *key, uint64_t *value) {
    const struct citrus_debug_call mine = citrus_debug_begins("citrus_first", handle);
    return citrus_debug_ended(mine, citrus_first(handle, low, key, value));
}

static inline int32_t citrus_debug_last(citrus_handle *handle, uint64_t low, uint64_t high, uint64_t *key, uint64_t *value) {
    const struct citrus_debug_call mine = citrus_debug_begins("citrus_last", handle);
    return citrus_debug_ended(mine, citrus_last(handle, low, high, key, value));
}

static inline int32_t citrus_debug_begin(citrus_handle *handle, uint64_t low, uint64_t high, uint64_t *cookie) {
    const struct citrus_debug_call mine = citrus_debug_begins("citrus_begin", handle);
    return citrus_debug_ended(mine, citrus_begin(handle, low, high, cookie));
}

static inline int32_t citrus_debug_poll(citrus_handle *handle, uint64_t cookie) {
    const struct citrus_debug_call mine = citrus_debug_begins("citrus_poll", handle);
    return citrus_debug_ended(mine, citrus_poll(handle, cookie));
}

static inline int32_t citrus_debug_open_lanes(citrus_handle *handle, citrus_lanes *lanes, uint32_t count) {
    const struct citrus_debug_call mine = citrus_debug_begins("citrus_open_lanes", handle);
    const struct citrus_debug_call other = citrus_debug_begins_by("citrus_open_lanes", lanes);
    const int32_t status = citrus_debug_ended(mine, citrus_open_lanes(handle, lanes, count));
    return citrus_debug_ended(other, status);
}

static inline int32_t citrus_debug_get_many(citrus_lanes *lanes, const uint64_t *keys, size_t count, citrus_answer *answers, size_t room) {
    const struct citrus_debug_call mine = citrus_debug_begins_by("citrus_get_many", lanes);
    return citrus_debug_ended(mine, citrus_get_many(lanes, keys, count, answers, room));
}

static inline void citrus_debug_close_lanes(citrus_lanes *lanes) {
    citrus_debug_only_begins(citrus_debug_begins_by("citrus_close_lanes", lanes));
    citrus_close_lanes(lanes);
}

#ifdef __cplusplus
}
#endif

/* citrus_tsan.h has its own of some. */
#undef citrus_hold
#undef citrus_release
#undef citrus_close
#undef citrus_insert
#undef citrus_insert_once
#undef citrus_replace
#undef citrus_replace_once
#undef citrus_upsert
#undef citrus_upsert_once
#undef citrus_remove
#undef citrus_remove_once
#undef citrus_take
#undef citrus_take_once
#undef citrus_wait
#undef citrus_get
#undef citrus_list
#undef citrus_list_down
#undef citrus_first
#undef citrus_last
#undef citrus_compare
#undef citrus_compare_once
#undef citrus_poll
#undef citrus_reopen
#undef citrus_get_many
#undef citrus_close_lanes
#define citrus_hold citrus_debug_hold
#define citrus_enter citrus_debug_enter
#define citrus_release citrus_debug_release
#define citrus_close citrus_debug_close
#define citrus_open citrus_debug_open
#define citrus_open_with citrus_debug_open_with
#define citrus_open_keeping citrus_debug_open_keeping
#define citrus_share citrus_debug_share
#define citrus_insert citrus_debug_insert
#define citrus_insert_once citrus_debug_insert_once
#define citrus_replace citrus_debug_replace
#define citrus_replace_once citrus_debug_replace_once
#define citrus_compare citrus_debug_compare
#define citrus_compare_once citrus_debug_compare_once
#define citrus_upsert citrus_debug_upsert
#define citrus_upsert_once citrus_debug_upsert_once
#define citrus_remove citrus_debug_remove
#define citrus_remove_once citrus_debug_remove_once
#define citrus_take citrus_debug_take
#define citrus_take_once citrus_debug_take_once
#define citrus_wait citrus_debug_wait
#define citrus_tidy citrus_debug_tidy
#define citrus_left citrus_debug_left
#define citrus_fair_share citrus_debug_fair_share
#define citrus_stats citrus_debug_stats
#define citrus_reopen citrus_debug_reopen
#define citrus_get citrus_debug_get
#define citrus_list citrus_debug_list
#define citrus_list_down citrus_debug_list_down
#define citrus_first citrus_debug_first
#define citrus_last citrus_debug_last
#define citrus_begin citrus_debug_begin
#define citrus_poll citrus_debug_poll
#define citrus_open_lanes citrus_debug_open_lanes
#define citrus_get_many citrus_debug_get_many
#define citrus_close_lanes citrus_debug_close_lanes

#endif
