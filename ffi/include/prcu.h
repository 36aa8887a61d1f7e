/* Predicate RCU by itself: read-copy-update whose readers say by a 64-bit key what they read, and whose waits are for the keys of a range
 * alone. It is what citrus.h has inside its tree, without the tree (Arbel and Morrison, "Predicate RCU: an RCU for scalable concurrent updates",
 * 2015). A reader enters with the key of what it reads, for instance the hash of what it looks up, loads, and leaves. A writer changes what
 * readers find, waits for the keys with which they may have found the old, and gives the old up:
 *
 *     prcu_place mine = PRCU_CLOSED_PLACE;
 *     prcu_open(&mine, 4, PRCU_EER);
 *     prcu_enter(&mine, 7);  use(atomic_load(&slots[7]));  prcu_leave(&mine);
 *     old = atomic_exchange(&slots[7], new);  prcu_wait(&mine, 7, 7);  free(old);
 *
 *     liburcu                              here
 *     rcu_init                             prcu_open: a domain, with room for so many threads; a program may have several
 *     rcu_register_thread                  prcu_share before the thread starts, or prcu_reopen; a place stands for the thread
 *     rcu_unregister_thread                prcu_close
 *     rcu_read_lock, rcu_read_unlock       prcu_enter with a key, prcu_leave. A place is in one section at a time: they don't nest
 *     synchronize_rcu                      prcu_wait for a range of keys; 0 to UINT64_MAX waits for everybody
 *     start_poll_synchronize_rcu,          prcu_begin, prcu_poll. A place has one such wait at a time
 *     poll_state_synchronize_rcu
 *     call_rcu, defer_rcu                  none, since the library has no thread of its own. Keep a list of what is to be given up, begin a
 *                                          wait for it, and give it up when a poll is DONE
 *     rcu_barrier                          none: give up what your list has
 *     rcu_dereference, rcu_assign_pointer, your own atomic loads and stores, sequentially consistent (memory_order_seq_cst, as atomic_load
 *     rcu_xchg_pointer                     and atomic_store are)
 *     rcu_quiescent_state, _offline        none: a place that is in no section holds nobody up
 *     cds_list, cds_lfht                   none; citrus.h is an ordered index
 *
 * What a caller owes is what citrus.h says of handles, and:
 *   - the loads and stores of what is shared are sequentially consistent;
 *   - the range of a wait has each key with which the old may have been found, and what was changed is such that nobody finds it any more;
 *   - what a reader found is used up to prcu_leave alone;
 *   - a thread that is in a section makes no wait by another place of the domain.
 * What is proved of these calls is proved of those of citrus.h. That a reader's loads come before the old is given up follows from the order of
 * sequentially consistent steps, and is an argument on paper. */
#ifndef PRCU_H
#define PRCU_H

#include "citrus.h"

#ifdef __cplusplus
extern "C" {
#endif

/* A place at a domain, with which a thread reads and waits. As a handle it belongs in lines of memory of its own. */
typedef citrus_handle prcu_place;

#define PRCU_CLOSED_PLACE CITRUS_CLOSED_HANDLE
#define PRCU_MAX_PLACES CITRUS_MAX_HANDLES
#define PRCU_ALL_TICKETS CITRUS_ALL_TICKETS

/* How waits look for readers: see citrus.h. With PRCU_DOMAIN and PRCU_DEER a wait may also wait for readers whose key is in the range modulo
 * 64 alone. */
enum { PRCU_EER = CITRUS_EER, PRCU_DOMAIN = CITRUS_DOMAIN, PRCU_DEER = CITRUS_DEER };

/* Each call answers as the one of citrus.h that it is made of, with the same causes. */

/* Opens a domain with so many places, 1 to PRCU_MAX_PLACES, and all tickets, of which each wait and each begin uses one. It is an index for
 * one pair, which stays empty; each place takes some 7 kB. DONE; BAD_ARGUMENT; NO_MEMORY. */
static inline int32_t prcu_open(prcu_place *place, uint32_t places, uint32_t waiter) { return citrus_open(place, 1, places, waiter); }

/* Makes `other` a second place of the domain, with so many of the places that are left to the first one, and so many of its tickets. */
static inline int32_t prcu_share(prcu_place *place, uint32_t places, uint64_t tickets, prcu_place *other) {
    return citrus_share(place, places, tickets, other);
}

/* The even part of the place's tickets for so many of the places that are left to it. */
static inline uint64_t prcu_fair_share(prcu_place *place, uint32_t places) { return citrus_fair_share(place, places); }

/* Makes `other`, which must be closed, a place of the domain with all that one had which was closed. */
static inline int32_t prcu_reopen(prcu_place *place, prcu_place *other) { return citrus_reopen(place, other); }

/* Closes the place, and leaves its section first where it is in one. */
static inline void prcu_close(prcu_place *place) { citrus_close(place); }

/* Enters a section with the key: two or three steps. DONE; CLOSED; HOLDS where the place is in one already; LOST. */
static inline int32_t prcu_enter(prcu_place *place, uint64_t key) { return citrus_enter(place, key); }

/* Leaves it: one step. DONE; UNCHANGED where the place is in none; CLOSED; LOST. */
static inline int32_t prcu_leave(prcu_place *place) { return citrus_release(place); }

/* Waits until each section with a key from low to high that was entered before has been left. DONE; CLOSED; HOLDS; BAD_ARGUMENT; SPENT; LOST. */
static inline int32_t prcu_wait(prcu_place *place, uint64_t low, uint64_t high) { return citrus_wait(place, low, high); }

/* Begins such a wait. DONE, and *cookie; CLOSED; HOLDS; BAD_ARGUMENT; SPENT; LOST. */
static inline int32_t prcu_begin(prcu_place *place, uint64_t low, uint64_t high, uint64_t *cookie) { return citrus_begin(place, low, high, cookie); }

/* Asks whether it is over. DONE, once; UNCHANGED where a reader is left; MOVED where another wait of the place took its place; CLOSED; HOLDS;
 * LOST. */
static inline int32_t prcu_poll(prcu_place *place, uint64_t cookie) { return citrus_poll(place, cookie); }

#ifdef __cplusplus
}
#endif
#endif
