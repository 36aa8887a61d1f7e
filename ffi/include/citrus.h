/* Citrus: an ordered index from 64-bit keys to 64-bit values, in memory, that up to 1,024 threads use at once.
 *
 * Lookups take no lock and wait for nobody; updates lock the few nodes that they change. Each thread calls through a handle of its own. Look
 * at every status; that is left out here:
 *
 *     citrus_handle mine = CITRUS_CLOSED_HANDLE, other = CITRUS_CLOSED_HANDLE;
 *     citrus_open(&mine, 100000, 2, CITRUS_EER);
 *     citrus_share(&mine, 1, citrus_fair_share(&mine, 1), &other); // hand `other` to a second thread
 *     citrus_insert(&mine, 5, 50);
 *     citrus_close(&other);
 *     citrus_close(&mine);
 *
 * Every function behind these calls is proved to keep its contract, for all inputs and every order of the threads' steps. A call checks what
 * can be checked, a closed handle too, and answers with a status. No contract says, but tests do: that a close leaves its section, and hands all
 * that the handle had to the next reopen; that a reopen finds it and gives it to the new handle as it was; that no pair comes or goes by these
 * two, by an open or a share over an open handle, or by a place that waits for a reopen; that memory is freed; and what the loops of this
 * header make of the calls of the archive, which are the ones that are proved.
 *
 * The words used here: a *ticket* is used up by an update or a wait, and an index has 2^57 of them; a *slot* is the place of a pair; a handle is
 * in a *section* while it holds a value, or after an enter; a *waiter* is the way in which a call waits for readers.
 *
 * What a thread wrote before an insert, a replace, a compare or an upsert is seen by whoever is told that value of that key; and what a reader
 * did before its release is over when a wait for its key ends. For all steps are sequentially consistent: an insert stores the link to its
 * node, and a replace the node's value; whoever is told the value has loaded that link and that value, or those of a copy, which the thread
 * that made it had loaded before; and a wait has loaded what the release stored. That is an argument on paper. The header tells
 * ThreadSanitizer of it: see citrus_tsan.h.
 *
 * What a caller owes, which the library can't test:
 *   - a handle is CITRUS_CLOSED_HANDLE, or as the last call with it left it. It is moved and never copied: whoever hands it on sets the old one
 *     to citrus_closed_handle(), and nobody touches its member;
 *   - one call at a time with one handle. It may go from thread to thread, by a lock, or by a thread's start or join. CITRUS_DEBUG, defined
 *     before this header is included in each file, detects two threads in calls with one, and a copy that is used: see citrus_debug.h;
 *   - the pointers of one call aren't null and don't overlap, and each points to memory of its type that lives as long as the call;
 *   - no call from a signal handler, nor from the child of a fork of a program with threads;
 *   - malloc, realloc and free belong to one allocator;
 *   - a thread that is in a section (citrus_hold, citrus_enter) makes no update, tidy or wait by another handle of the index. CITRUS_DEBUG
 *     tests it too.
 *
 * What you see of a mistake, and what it may be:
 *   - CITRUS_CLOSED of a handle that is open, an answer to another key, SIGILL or SIGSEGV: two threads call with one handle, or it was copied;
 *   - a call that doesn't end: this thread is in a section by another handle, or another thread is and waits for something of this one;
 *   - an object that is freed twice, or changes while it is read: a get in place of a hold, a free without a wait, a wait for other keys;
 *   - calls that are as slow as a walk over all pairs: somebody chose keys by the salt of the index (citrus_options).
 *
 * What is written: *value, *old, *found, *key, *next and *cookie only where the status says so; *count of the lists and *made always. */
#ifndef CITRUS_H
#define CITRUS_H

#include <sched.h>
#include <stddef.h>
#include <stdint.h>
#include <sys/select.h>
#include <time.h>
#if defined __linux__ && defined __has_include
#if __has_include(<sys/random.h>)
#include <sys/random.h>
#define CITRUS_HAS_GETRANDOM
#endif
#endif

/* Which version the header is of. citrus_version() tells the archive's. */
#define CITRUS_VERSION "0.2.0"
#define CITRUS_VERSION_MAJOR 0
#define CITRUS_VERSION_MINOR 2
#define CITRUS_VERSION_PATCH 0

/* A call whose status matters: the compiler warns where it isn't looked at, if it can. */
#if (defined __cplusplus && __cplusplus >= 201703L) || (defined __STDC_VERSION__ && __STDC_VERSION__ >= 202311L)
#define CITRUS_STATUS_MATTERS [[nodiscard]]
#elif defined __GNUC__
#define CITRUS_STATUS_MATTERS __attribute__((warn_unused_result))
#else
#define CITRUS_STATUS_MATTERS
#endif

#ifdef __cplusplus
extern "C" {
#endif

/* Each call writes the handle. So keep handles of different threads 128 bytes apart, or each on its thread's stack: in one line of memory each
   call waits for the others. */
typedef struct { void *at; } citrus_handle;

/* A closed handle: the first to begin with, for a static variable too, and the second for an assignment. */
#ifdef __cplusplus
#define CITRUS_NULL nullptr
#define CITRUS_CLOSED_HANDLE {}
#else
#define CITRUS_NULL NULL
#define CITRUS_CLOSED_HANDLE { NULL }
#endif

static inline citrus_handle citrus_closed_handle(void) {
    citrus_handle closed = CITRUS_CLOSED_HANDLE;
    return closed;
}

/* 2^30, less 68 slots for each of 1,024 handles. */
#define CITRUS_MAX_PAIRS 1073672192u
#define CITRUS_MAX_HANDLES 1024u
#define CITRUS_MAX_ROOM 1073741824u
/* 2^57: what the first handle of an index has. At a million updates a second, 16 tickets each, they last 280 years. */
#define CITRUS_ALL_TICKETS 144115188075855872u

/* The waiters: how a remove waits for the readers that may still stand on what it takes out. CITRUS_EER looks at the place of each handle, open
 * or not: begin with it. CITRUS_DOMAIN counts readers by key modulo 64, so its waits cost the same with many handles: try it with hundreds
 * that are mostly idle. CITRUS_DEER has a stamp for each handle and each key modulo 64, and its lookups make one store fewer. */
enum { CITRUS_EER = 0, CITRUS_DOMAIN = 1, CITRUS_DEER = 2 };

/* What a call answers. Those below 0 say that the call did nothing, except CITRUS_LOST, and except for the tickets that an upsert's rounds used
 * before it was CITRUS_SPENT. If there are several causes, the first of these is told: CLOSED, LOST, HOLDS, BAD_ARGUMENT, SPENT, NO_MEMORY. */
enum {
    CITRUS_DONE = 0,
    CITRUS_UNCHANGED = 1,     /* insert: the key is there already; get, replace, compare, remove, take: it is absent; first, last: there is no such
                                 pair; reopen: no closed handle left a place; release: the handle is in no section; poll: a reader is left */
    CITRUS_FULL = 2,          /* the key is absent, and there is no free slot for it: as many pairs as were asked for are there, or more */
    CITRUS_MORE = 3,          /* list: there are more pairs than room; tidy: the range isn't done */
    CITRUS_MOVED = 4,         /* upsert: others put the key in and took it out in each of 1,000 rounds; nothing was changed. A later call may
                                 get through; poll: the wait is no longer the handle's latest, or its end was told */
    CITRUS_NEW = 5,           /* upsert: the pair was added */
    CITRUS_DIFFERENT = 6,     /* compare, take: the key's value isn't the expected one */
    CITRUS_BUSY = 7,          /* citrus_insert_once and its like, of a list too: other threads were in the way, and nothing was changed or
                                 listed; of an insert, a remove and a take also: the handle has no room to keep slots back, until readers leave. Yield,
                                 and call again */
    CITRUS_CLOSED = -1,       /* the handle is closed, or the lanes are */
    CITRUS_BAD_ARGUMENT = -2, /* a number is out of its range; reopen: the other handle is open; open_lanes: the lanes are */
    CITRUS_NO_MEMORY = -3,    /* malloc gave none; open, share, reopen, list, tidy, open_lanes and get_many alone take memory */
    CITRUS_SPENT = -4,        /* the handle has fewer than 4 tickets (get, updates, tidy), or none (wait, begin). All other calls are left to it,
                                 such as list, first, last, hold, share, reopen and lanes */
    CITRUS_LOST = -5,         /* a call with this handle gave up after 2^64 - 1 rounds of waiting: the handle can only be closed */
    CITRUS_HOLDS = -6         /* the handle is in a section: release, left, stats and close alone are allowed */
};

/* A status by the name that it has above, for messages. */
static inline const char *citrus_status_name(int32_t status) {
    switch (status) {
    case CITRUS_DONE: return "CITRUS_DONE";
    case CITRUS_UNCHANGED: return "CITRUS_UNCHANGED";
    case CITRUS_FULL: return "CITRUS_FULL";
    case CITRUS_MORE: return "CITRUS_MORE";
    case CITRUS_MOVED: return "CITRUS_MOVED";
    case CITRUS_NEW: return "CITRUS_NEW";
    case CITRUS_DIFFERENT: return "CITRUS_DIFFERENT";
    case CITRUS_BUSY: return "CITRUS_BUSY";
    case CITRUS_CLOSED: return "CITRUS_CLOSED";
    case CITRUS_BAD_ARGUMENT: return "CITRUS_BAD_ARGUMENT";
    case CITRUS_NO_MEMORY: return "CITRUS_NO_MEMORY";
    case CITRUS_SPENT: return "CITRUS_SPENT";
    case CITRUS_LOST: return "CITRUS_LOST";
    case CITRUS_HOLDS: return "CITRUS_HOLDS";
    default: return "no status of citrus";
    }
}

/* The version of the archive, or of the shared library, that the program runs with: CITRUS_VERSION as it was built. Of all calls this alone
   isn't proved. It never fails, and the text stays. */
const char *citrus_version(void);

typedef struct { uint64_t key, value; } citrus_pair;

/* What an index is opened for. It begins with its size, and citrus_options_for fills all of it: so a program still works with a later library,
 * whose record has more at its end. A library answers BAD_ARGUMENT to each size that it doesn't know, a smaller one than this and a larger one
 * than its own, since it can't do what it doesn't know; of a record of another size it reads nothing else. What an earlier record lacks is as it
 * was before. This is the first record. */
typedef struct {
    size_t size; /* sizeof(citrus_options) */
    uint32_t pairs, handles, waiter;
    uint32_t flags; /* 0, since none is known */
    uint64_t salt;  /* any number: the tree turns its nodes by it. Whoever knows it can choose keys by which calls are as slow as a walk over all */
} citrus_options;

/* A number from the system, which nobody can guess. If the system gives none, as under some filters of system calls, it is made of the clock and
 * of addresses, which some can guess. It waits for nobody. */
static inline uint64_t citrus_drawn_salt(void) {
    uint64_t drawn = 0;
    time_t now = 0;
#ifdef CITRUS_HAS_GETRANDOM
    if (getrandom(&drawn, sizeof drawn, GRND_NONBLOCK) == 8) return drawn;
#endif
    time(&now);
    drawn = (uint64_t)now * UINT64_C(0x9e3779b97f4a7c15) ^ (uint64_t)clock() * UINT64_C(0xbf58476d1ce4e5b9);
    return drawn ^ (uint64_t)(uintptr_t)&drawn * UINT64_C(0x94d049bb133111eb);
}

/* The options of an index for so many pairs and handles, with this waiter, a drawn salt and no flags. */
static inline citrus_options citrus_options_for(uint32_t pairs, uint32_t handles, uint32_t waiter) {
    citrus_options options;
    options.size = sizeof options;
    options.pairs = pairs;
    options.handles = handles;
    options.waiter = waiter;
    options.flags = 0;
    options.salt = citrus_drawn_salt();
    return options;
}

/* Opens an index as citrus_open does, by a record of options: for a salt that is always the same, as tests need it.
 * DONE; BAD_ARGUMENT where a number is out of range, the size or a flag too; NO_MEMORY. At all but DONE the handle is as it was. */
CITRUS_STATUS_MATTERS int32_t citrus_open_with(citrus_handle *handle, const citrus_options *options);

/* Opens an index as citrus_open_with does, each of whose handles may keep back `keep` slots whose pairs were removed, until no reader can stand
 * there: 16 or more, or 0 for the usual number, which the other opens take: an eighth of the pairs that there are for each handle, but 64 at
 * least and 65,536 at most, and no more than 2^30 slots allow. The more they are, the longer updates go on beside a reader that stays.
 * The index has a slot of 72 bytes for each pair, and `keep` and 4 of them for each handle; and each handle has a list of 8 bytes for each slot
 * that it may keep back, which a share and lanes take too.
 * DONE; BAD_ARGUMENT as above, or where the slots are more than 2^30; NO_MEMORY. At all but DONE the handle is as it was. */
CITRUS_STATUS_MATTERS int32_t citrus_open_keeping(citrus_handle *handle, const citrus_options *options, uint32_t keep);

/* Opens a new, empty index with a salt of its own. At DONE, what the handle was open on before is closed.
 *   pairs    1 to CITRUS_MAX_PAIRS: so many always fit. More fit as long as handles don't keep back all the slots that are there for it
 *   handles  1 to CITRUS_MAX_HANDLES: how many there can be at once. Each has a place, and a closed one leaves it to a reopen
 *   waiter   CITRUS_EER, CITRUS_DOMAIN or CITRUS_DEER
 * It takes all memory of the index: 72 bytes for each pair, and an eighth more for the slots that the handles may keep back, but from 7 kB to
 * 4.7 MB for each handle. Only a list, a tidy, a share, a reopen or lanes take more later. The index is made from a list of its words: so the
 * call takes twice as much until it returns, and writes all of it. 10,000,000 pairs with 4 handles keep 740 MB, and take 1.5 GB for a moment. A
 * system that promises memory that it doesn't have, as Linux does, may end the program in this call instead of NO_MEMORY.
 * DONE; BAD_ARGUMENT or NO_MEMORY, and then the handle is as it was. */
CITRUS_STATUS_MATTERS static inline int32_t citrus_open(citrus_handle *handle, uint32_t pairs, uint32_t handles, uint32_t waiter) {
    const citrus_options options = citrus_options_for(pairs, handles, waiter);
    return citrus_open_with(handle, &options);
}

/* Makes `other` a second handle of the index. So many of the handles that are left to the first one (1 or more; `other` itself is one of
 * them) and so many of its tickets (0 or more; citrus_fair_share tells an even part) go over to it, and can be shared from it in turn. With 0
 * tickets it can do what needs none. What `other` was open on before is closed.
 * It waits for nobody, and takes memory: half a kilobyte, and 8 bytes for each slot that a handle may keep back (citrus_open_keeping).
 * DONE; CLOSED; HOLDS; BAD_ARGUMENT where the first has fewer handles or tickets; NO_MEMORY; LOST. At all but DONE both are as they were. */
CITRUS_STATUS_MATTERS int32_t citrus_share(citrus_handle *handle, uint32_t handles, uint64_t tickets, citrus_handle *other);

/* Tells how many more handles can be shared from this one, and how many tickets it has. It costs a few loads.
 * DONE, of a lost handle too; CLOSED. */
CITRUS_STATUS_MATTERS int32_t citrus_left(citrus_handle *handle, uint32_t *handles, uint64_t *tickets);

/* What a handle knows of itself and of its index, for a page of metrics. The size comes first, as in citrus_options. */
typedef struct {
    size_t size;      /* sizeof(citrus_numbers), set by the caller */
    uint64_t slots;   /* slots of the index: one for each pair that it was opened for, and room + 4 for each handle */
    uint64_t free;    /* how many of them were free when this handle last took a free one or gave one back; all, where it did neither yet. The
                       * others have a pair, or are kept back by a handle */
    uint64_t waits;   /* waits for readers that were begun from this handle's place */
    uint64_t tickets; /* tickets of this handle */
    uint64_t kept;    /* slots that this handle keeps back, whose pairs were removed: until no reader can stand there, and fewer than 48 of
                       * them longer, for its inserts, which ask for no free slot as long as there are some */
    uint64_t room;    /* how many it keeps back at most */
    uint32_t handles; /* how many handles the index can have at once */
    uint32_t unshared; /* how many more of them can be shared from this one */
} citrus_numbers;

/* Tells these numbers. It takes no step on the tree, costs a few loads, and answers of a handle in a section, and of a lost one, too.
 * DONE, and *stats; CLOSED; BAD_ARGUMENT where stats->size is another. */
CITRUS_STATUS_MATTERS int32_t citrus_stats(citrus_handle *handle, citrus_numbers *stats);

/* The even part of the handle's tickets for so many of the handles that are left to it, where it keeps one itself: what to share with these. It
 * is 0 of a closed handle. */
static inline uint64_t citrus_fair_share(citrus_handle *handle, uint32_t handles) {
    uint32_t left = 0;
    uint64_t tickets = 0;
    if (citrus_left(handle, &left, &tickets) != CITRUS_DONE) return 0;
    return tickets / ((uint64_t)left + 1) * handles;
}

/* Closes the handle. A closed one may be closed again. What it had (its place, the handles that could be shared from it, and its tickets) goes
 * to citrus_reopen, unless the handle is lost. So it is with a handle over which another is opened or shared. The memory of the index is freed
 * with the last of its handles. It waits for nobody, and costs a few atomic steps. */
void citrus_close(citrus_handle *handle);

/* Makes `other`, which must be closed, a handle of the index, with all that one closed handle had: it doesn't say whose that was, and
 * citrus_left tells what it has. So threads that come and go may close their handles and open them again without end, while one handle of
 * the index stays open. It waits for nobody: it looks at the places one by one, and again only where another reopen came first. It takes half
 * a kilobyte of memory, and no more for the slots that are kept back: the closed handle's list is there.
 * DONE; UNCHANGED where no closed handle left a place; CLOSED; HOLDS; BAD_ARGUMENT where `other` is open; NO_MEMORY, and the place is left
 * still; LOST, where `handle` is. `handle` is as it was, and at all but DONE `other` too. */
CITRUS_STATUS_MATTERS int32_t citrus_reopen(citrus_handle *handle, citrus_handle *other);

/* What a call that was in vain so many times does before it is made again: it yields the processor, and from the 200th time on it sleeps. Of the
 * calls that sleep this is the one that the C library declares in strict C too. */
static inline void citrus_rest(uint64_t times) {
    struct timeval moment;
    moment.tv_sec = 0;
    moment.tv_usec = 100;
    if (times < 200) sched_yield();
    else select(0, CITRUS_NULL, CITRUS_NULL, CITRUS_NULL, &moment);
}

/* Tells the key's value. If values are pointers, take citrus_hold.
 * It takes no lock and waits for nobody: a few stores, and two or three loads for each level of the tree. Writers can make its way longer, but
 * not without end: it makes at most three steps for each slot of the index, and four more. It needs 4 tickets and uses none.
 * DONE, and *value; UNCHANGED where the key is absent; CLOSED; HOLDS; SPENT; LOST where an earlier call gave up. */
CITRUS_STATUS_MATTERS int32_t citrus_get(citrus_handle *handle, uint64_t key, uint64_t *value);

/* The updates. Each searches as a get does, locks the few nodes that it changes, and begins again if another thread changed them first. If
 * another thread is in its way it spins for some hundred turns, and then it yields the processor and begins anew. The library can't yield:
 * there such a call ends as CITRUS_BUSY, with no lock, no slot and no section, and these functions yield, or sleep, and call it again. Whoever has
 * something better to do meanwhile calls citrus_insert_once and its like. Only a remove or a turn of nodes that has its locks spins until it
 * is through, while another thread's update is being stored; and so does an update that waits for readers. An update waits for a list that
 * keeps updates off, and for readers, which are inside a call or a section, only as said below.
 *
 * Tickets: each time that it is made an update needs 4 and uses 4 at most, and so does each replace and insert of an upsert. Beyond that an
 * insert that turns nodes uses up to 72, an insert or a remove before which the handle begins a wait of its own (see below) one, also if it is
 * BUSY then, and a remove that turns its node down up to 7 for each turn.
 *
 * Readers that stay: a thread that holds a value, or that the system stopped inside a get. A remove keeps back its slot until no reader can stand
 * there, and two if its node had two children; a turn of nodes keeps back two. So beside a reader that stays updates cost slots, whatever the keys:
 *   - Before an insert or a remove a handle that keeps back 32 slots or more, or half of `keep` if that is less, begins a wait of its own for all
 *     readers, if it has none under way and 5 tickets or more. It asks once whether its own wait is over, and then gives up to 256 slots back. It
 *     begins none while the wait that its user began last (citrus_begin) is its latest, and its end wasn't told. A later wait of the handle, its
 *     user's or a remove's, takes the place of its own.
 *   - A handle that keeps back `keep` - 1 slots or more (citrus_open_keeping) takes no pair out while its own wait is under way: a remove is
 *     CITRUS_BUSY. So is an insert, if the last pair that the handle added went deeper by a third or more than it should: then nodes are to be
 *     turned, for which there is no room. If it has no wait of its own, since its user's is the latest or tickets are short,
 *     such a remove waits for all readers inside the call, and so does such an insert before it turns nodes.
 *   - While no slot is free the handle's own wait begins with however few slots it keeps back, and an insert is CITRUS_BUSY until it is over. So is a
 *     remove that has no slot in reserve for a copy. The first one finds out that none is free: it looks its key up, and is BUSY only where it would
 *     take the pair out. Where the handle has no wait of its own and can begin none, such an update waits for all readers inside the call.
 *   - A remove of a node with two children puts the next pair in its place, and then waits, with up to five nodes locked, for the readers whose key is
 *     above its own and at most the next one; with CITRUS_DOMAIN and CITRUS_DEER also for those whose key has the class of one of these. But if
 *     the handle keeps back 48 slots, and its own wait is under way, a reader is known to stay: then turns bring the node down until it has one
 *     child, and the remove waits for none of them. It makes 64 at most, and none with fewer than 11 tickets; then it goes on as above.
 * Gets and lists are held up by no reader, replaces and compares only behind an update that waits with their node locked. Hold briefly all the
 * same, and take no more threads than processors. */

/* Adds the pair, if the key is absent. If no slot is free, and its handle keeps some back, it is BUSY until they went back (see above).
 * If it went deep to add the pair, and has 72 tickets left, it then turns nodes on the way, in 24 attempts at most, so that the tree stays
 * shallow in whatever order keys come. A turn locks three nodes, and is given up if one of them is locked. Where the handle keeps back `keep` - 1
 * slots or more it makes no further turn, unless the way is deeper by a third or more than it should be, and the handle has no wait of its own and
 * can begin none: then it first waits for all readers.
 * DONE, and after a loss at a turn too: then the next call is LOST; UNCHANGED where the key is there; FULL; CLOSED; HOLDS; SPENT;
 * LOST. */
CITRUS_STATUS_MATTERS int32_t citrus_insert_once(citrus_handle *handle, uint64_t key, uint64_t value);

CITRUS_STATUS_MATTERS static inline int32_t citrus_insert(citrus_handle *handle, uint64_t key, uint64_t value) {
    uint64_t times = 0;
    int32_t status;
    while ((status = citrus_insert_once(handle, key, value)) == CITRUS_BUSY) citrus_rest(times++);
    return status;
}

/* Gives the key another value, if it is present. It waits for no reader.
 * DONE, and the value before in *old; UNCHANGED where the key is absent; CLOSED; HOLDS; SPENT; LOST. */
CITRUS_STATUS_MATTERS int32_t citrus_replace_once(citrus_handle *handle, uint64_t key, uint64_t value, uint64_t *old);

CITRUS_STATUS_MATTERS static inline int32_t citrus_replace(citrus_handle *handle, uint64_t key, uint64_t value, uint64_t *old) {
    uint64_t times = 0;
    int32_t status;
    while ((status = citrus_replace_once(handle, key, value, old)) == CITRUS_BUSY) citrus_rest(times++);
    return status;
}

/* Gives the key another value, if its value is `expected` at that moment. It waits for no reader. If it first finds another value it locks
 * nothing, and costs what a get costs; the code is so, though no clause says it. To raise a counter, call it again with *found as `expected`
 * while it is DIFFERENT: another thread won each round that is lost. For values that are pointers see below.
 * DONE where one update replaced `expected`; DIFFERENT where the key had the value *found, which isn't `expected`, at a moment of the call;
 * UNCHANGED where the key is absent; CLOSED; HOLDS; SPENT; LOST. */
CITRUS_STATUS_MATTERS int32_t citrus_compare_once(citrus_handle *handle, uint64_t key, uint64_t expected, uint64_t value, uint64_t *found);

CITRUS_STATUS_MATTERS static inline int32_t citrus_compare(citrus_handle *handle, uint64_t key, uint64_t expected, uint64_t value, uint64_t *found) {
    uint64_t times = 0;
    int32_t status;
    while ((status = citrus_compare_once(handle, key, expected, value, found)) == CITRUS_BUSY) citrus_rest(times++);
    return status;
}

/* Gives the key this value: a replace or else an insert, by turns, until one of the two made an update.
 * DONE, and the value before in *old, where the key was present; NEW where the pair was added; FULL; MOVED where other threads put the key
 * in and took it out in each of 1,000 rounds; CLOSED; HOLDS; SPENT; LOST. */
CITRUS_STATUS_MATTERS int32_t citrus_upsert_once(citrus_handle *handle, uint64_t key, uint64_t value, uint64_t *old);

CITRUS_STATUS_MATTERS static inline int32_t citrus_upsert(citrus_handle *handle, uint64_t key, uint64_t value, uint64_t *old) {
    uint64_t times = 0;
    int32_t status;
    while ((status = citrus_upsert_once(handle, key, value, old)) == CITRUS_BUSY) citrus_rest(times++);
    return status;
}

/* Takes the pair out, if the key is present. Above it is said when it waits for readers, lists too, and is BUSY for their sake: also if the key is
 * absent. A remove needs a slot at hand, for the copy of a successor: if the handle's was used, by such a remove or a turn, it takes another.
 * DONE, and the value in *old; UNCHANGED where the key is absent; CLOSED; HOLDS; SPENT; LOST. */
CITRUS_STATUS_MATTERS int32_t citrus_remove_once(citrus_handle *handle, uint64_t key, uint64_t *old);

CITRUS_STATUS_MATTERS static inline int32_t citrus_remove(citrus_handle *handle, uint64_t key, uint64_t *old) {
    uint64_t times = 0;
    int32_t status;
    while ((status = citrus_remove_once(handle, key, old)) == CITRUS_BUSY) citrus_rest(times++);
    return status;
}

/* Takes the pair out, if its value is `expected` at that moment: so a cache drops an entry only while it is the one that it saw. What is said of
 * a remove's waits, of its slots and of BUSY goes for it too, also if the value is another one. If it first finds another value it locks nothing;
 * the code is so, though no clause says it. For values that are pointers see below.
 * DONE where one update took `expected` out; DIFFERENT where the key had the value *found, which isn't `expected`, at a moment of the call;
 * UNCHANGED where the key is absent; CLOSED; HOLDS; SPENT; LOST. */
CITRUS_STATUS_MATTERS int32_t citrus_take_once(citrus_handle *handle, uint64_t key, uint64_t expected, uint64_t *found);

CITRUS_STATUS_MATTERS static inline int32_t citrus_take(citrus_handle *handle, uint64_t key, uint64_t expected, uint64_t *found) {
    uint64_t times = 0;
    int32_t status;
    while ((status = citrus_take_once(handle, key, expected, found)) == CITRUS_BUSY) citrus_rest(times++);
    return status;
}

/* Lists of a key range, and the pairs nearest to a key: each as it was at one moment of the call. Beside writers none fails. They need no
 * tickets and lock no node.
 *
 * What they cost others: if an update came in each of 4 tries, such a call keeps all updates off for one more walk, which loads each value
 * once, some 30 ns a pair, or for one way down. Lookups and sections go on meanwhile. So beside writers a list of 1,000,000 pairs holds each
 * update up for some 30 ms: if that is too long, list in pages. A thread that the system stops within that walk holds all updates up, as does
 * one that is stopped within an update. Lists and updates race for their turn; there is no queue. If such a call doesn't get its turn soon
 * it yields the processor, and begins anew: citrus_list_once and its like end as CITRUS_BUSY then, with nothing listed. */

/* Lists the pairs with keys from low to high, both among them, keys ascending.
 * It fills pairs[0] to pairs[*count - 1], and *count is 0 except at DONE and MORE. It takes memory for `room` pairs, and gives it back.
 * DONE; MORE where there are more than `room` such pairs: these are the first ones, and the key after them is in *next; CLOSED;
 * HOLDS; BAD_ARGUMENT where low is above high, or room is 0 or above CITRUS_MAX_ROOM; NO_MEMORY; LOST. */
CITRUS_STATUS_MATTERS int32_t citrus_list_once(citrus_handle *handle, uint64_t low, uint64_t high, citrus_pair *pairs, size_t room, size_t *count, uint64_t *next);

CITRUS_STATUS_MATTERS static inline int32_t citrus_list(citrus_handle *handle, uint64_t low, uint64_t high, citrus_pair *pairs, size_t room, size_t *count, uint64_t *next) {
    uint64_t times = 0;
    int32_t status;
    while ((status = citrus_list_once(handle, low, high, pairs, room, count, next)) == CITRUS_BUSY) citrus_rest(times++);
    return status;
}

/* Lists them with keys descending, from the greatest key at or below `high` down. It answers and costs as citrus_list does; at MORE the pairs
 * are the last ones of the range, and the greatest key that isn't among them is in *next: the next call has it as its `high`. */
CITRUS_STATUS_MATTERS int32_t citrus_list_down_once(citrus_handle *handle, uint64_t low, uint64_t high, citrus_pair *pairs, size_t room, size_t *count, uint64_t *next);

CITRUS_STATUS_MATTERS static inline int32_t citrus_list_down(citrus_handle *handle, uint64_t low, uint64_t high, citrus_pair *pairs, size_t room, size_t *count, uint64_t *next) {
    uint64_t times = 0;
    int32_t status;
    while ((status = citrus_list_down_once(handle, low, high, pairs, room, count, next)) == CITRUS_BUSY) citrus_rest(times++);
    return status;
}

/* Tells the pair with the least key at or above `low`. It costs what a get costs, and takes no memory.
 * DONE, and *key and *value; UNCHANGED where there is none; CLOSED; HOLDS; LOST. */
CITRUS_STATUS_MATTERS int32_t citrus_first_once(citrus_handle *handle, uint64_t low, uint64_t *key, uint64_t *value);

CITRUS_STATUS_MATTERS static inline int32_t citrus_first(citrus_handle *handle, uint64_t low, uint64_t *key, uint64_t *value) {
    uint64_t times = 0;
    int32_t status;
    while ((status = citrus_first_once(handle, low, key, value)) == CITRUS_BUSY) citrus_rest(times++);
    return status;
}

/* Tells the pair with the greatest key from low to high, both among them. It costs as much.
 * DONE, and *key and *value; UNCHANGED where there is none, as where low is above high; CLOSED; HOLDS; LOST. */
CITRUS_STATUS_MATTERS int32_t citrus_last_once(citrus_handle *handle, uint64_t low, uint64_t high, uint64_t *key, uint64_t *value);

CITRUS_STATUS_MATTERS static inline int32_t citrus_last(citrus_handle *handle, uint64_t low, uint64_t high, uint64_t *key, uint64_t *value) {
    uint64_t times = 0;
    int32_t status;
    while ((status = citrus_last_once(handle, low, high, key, value)) == CITRUS_BUSY) citrus_rest(times++);
    return status;
}

/* Makes the tree shallow on the ways to the keys from low to high, without changing any pair: for an index that was filled and is only read
 * from then on, since otherwise inserts turn nodes where they went deep. It lists the first 256 of these keys and turns nodes on the way to
 * each, in order, until so many turns (1 or more) were tried; those that others' locks or changes brought to nothing count too. So it goes
 * down at most 256 ways and one for each turn. A whole index takes one call after another, each from *next of the one before, while the
 * answer is MORE:
 *
 *     uint64_t low = 0;
 *     uint32_t made = 0;
 *     while (citrus_tidy(&mine, low, UINT64_MAX, 1000, &made, &low) == CITRUS_MORE) continue;
 *
 * A turn locks three nodes, and waits for nobody; but where the handle keeps back `keep` - 1 slots or more, two for each turn, it first waits
 * for all readers. It needs 4 tickets, and uses at most 3 for each turn that was tried and for each key.
 * *made is how many turns were made: 0 except at DONE, MORE and FULL. *next is written only at MORE and FULL.
 * DONE, where no way to a key of the range needs a turn any more; MORE where it isn't through, and *next is the key to go on with: so many
 * turns were tried, tickets are short, there are more keys, or no slot was free for a turn and the handle gave slots back that it kept, behind
 * a wait for all readers; FULL where no slot is free and it keeps none, and *next; CLOSED; HOLDS; BAD_ARGUMENT where low is above high, or
 * turns is 0; SPENT; NO_MEMORY; LOST. */
CITRUS_STATUS_MATTERS int32_t citrus_tidy_once(citrus_handle *handle, uint64_t low, uint64_t high, uint32_t turns, uint32_t *made, uint64_t *next);

CITRUS_STATUS_MATTERS static inline int32_t citrus_tidy(citrus_handle *handle, uint64_t low, uint64_t high, uint32_t turns, uint32_t *made, uint64_t *next) {
    uint64_t times = 0;
    int32_t status;
    while ((status = citrus_tidy_once(handle, low, high, turns, made, next)) == CITRUS_BUSY) citrus_rest(times++);
    return status;
}

/* Values that are pointers.
 *
 * What citrus_get tells may be out of date when it comes. If values are pointers to objects of yours, look them up by citrus_hold: the object
 * stays until citrus_release, since whoever takes it out waits before freeing it:
 *
 *     if (citrus_hold(&mine, key, &value) == CITRUS_DONE) {
 *         read((struct object *)(uintptr_t)value);
 *         citrus_release(&mine);
 *     }
 *
 *     if (citrus_remove(&mine, key, &value) == CITRUS_DONE && citrus_wait(&mine, key, key) == CITRUS_DONE)
 *         free((struct object *)(uintptr_t)value);
 *
 * So it is with the old value of a replace or an upsert, and at a compare's or a take's DONE with `expected`. If you would rather not wait there,
 * begin a wait and ask later: citrus_begin, citrus_poll. What a caller owes for this, which nothing tests:
 *   - an object that was taken out is freed by whoever was told it, once, and not before a wait for its key is over that was begun after
 *     the call which told it. It isn't put in again;
 *   - an object stands under one key, or each of its keys is waited for;
 *   - what a hold told is followed up to the release alone, and what a get, a list, a first or a last told isn't followed at all. A
 *     compare and a take compare addresses: an object that was freed since `expected` was told may have left its address to another, which is
 *     then replaced, or taken out. */

/* Finds the key's value, and stays in a section with the key: each wait for the key waits for it. A handle is in one section at a time, so a
 * program that needs two values at once takes two handles. Hold a value as briefly as you would hold a lock: waits for the key wait for you,
 * and so may removes near it with the locks of a few nodes, and at last removes and inserts of any key, as said at the updates; no lookup and no
 * list does. So a thread that holds a value makes no update and no wait by another handle of the index: it might wait for itself, or for something that waits for it.
 * It costs what a get costs, and ends as a get does; it takes no memory, needs no ticket, and waits for nobody.
 * DONE, and *value; UNCHANGED where the key is absent, and then the handle is in no section; CLOSED; HOLDS; LOST where an earlier call gave
 * up. */
CITRUS_STATUS_MATTERS int32_t citrus_hold(citrus_handle *handle, uint64_t key, uint64_t *value);

/* Enters a section with the key without a search, for something other than the index: see prcu.h. A few steps, and no ticket.
 * DONE; CLOSED; HOLDS; LOST. */
CITRUS_STATUS_MATTERS int32_t citrus_enter(citrus_handle *handle, uint64_t key);

/* Leaves the section, as does whatever closes the handle. It costs a step.
 * DONE; UNCHANGED where the handle is in none; CLOSED; LOST. */
int32_t citrus_release(citrus_handle *handle);

/* Begins a wait until every section with a key from low to high, both included, that any handle entered before has been left; and tells a
 * cookie by which to ask whether it is over. A handle has one wait under way: a later begin or wait takes its place, and so does a remove or an
 * insert that waits, or a tidy; a wait that the handle would begin for its own slots doesn't. So ask until the end is told: before that the handle
 * gives no slots back without standing still. Give many waits handles of their own. It uses a ticket, and waits for nobody.
 * DONE, and *cookie; CLOSED; HOLDS; BAD_ARGUMENT where low is above high; SPENT; LOST. */
CITRUS_STATUS_MATTERS int32_t citrus_begin(citrus_handle *handle, uint64_t low, uint64_t high, uint64_t *cookie);

/* Asks whether the wait is over. It looks for the readers that are left, from where the last poll stopped, and waits for nobody.
 * DONE where it is over, which is told once; UNCHANGED where a reader is left; MOVED where its end was told, or another wait of the handle
 * took its place: then begin again; CLOSED; HOLDS; LOST. */
CITRUS_STATUS_MATTERS int32_t citrus_poll(citrus_handle *handle, uint64_t cookie);

/* Waits until every section with a key from low to high, both included, that any handle entered before has been left. To free many objects
 * after one wait take a range with all their keys, or 0 to UINT64_MAX: it waits for more readers then.
 * It is a begin with its polls, and ends only when they have all left. While one is left it yields the processor after each of 200 polls, and
 * sleeps for 100 microseconds after each later one. It uses a ticket.
 * DONE; CLOSED; HOLDS; BAD_ARGUMENT where low is above high; SPENT; LOST. */
CITRUS_STATUS_MATTERS static inline int32_t citrus_wait(citrus_handle *handle, uint64_t low, uint64_t high) {
    uint64_t cookie = 0, polls = 0;
    int32_t status = citrus_begin(handle, low, high, &cookie);
    if (status != CITRUS_DONE) return status;
    while ((status = citrus_poll(handle, cookie)) == CITRUS_UNCHANGED) citrus_rest(polls++);
    return status;
}

/* Many lookups at once.
 *
 * A lookup in a large index waits for one word of memory after another. Lanes are up to 8 places of an index by which one thread makes as many
 * lookups side by side: while one waits for its word, the others' words come too. They only look up, and use no ticket. What a caller owes for
 * them is what it owes for a handle: closed or as the last call left them, moved and never copied, one call at a time.
 *
 *     citrus_lanes lanes = CITRUS_CLOSED_LANES;
 *     citrus_open_lanes(&mine, &lanes, 8);            // `mine` has 8 unused handles or more
 *     citrus_get_many(&lanes, keys, 1000, answers, 1000);
 *     citrus_close_lanes(&lanes);
 *
 * Each wait for readers looks at the places of lanes too, as it looks at a handle's. */
typedef struct { void *at; } citrus_lanes;

/* Closed lanes: the first to begin with, the second for an assignment. */
#ifdef __cplusplus
#define CITRUS_CLOSED_LANES {}
#else
#define CITRUS_CLOSED_LANES { NULL }
#endif

static inline citrus_lanes citrus_closed_lanes(void) {
    citrus_lanes closed = CITRUS_CLOSED_LANES;
    return closed;
}

#define CITRUS_MAX_LANES 8u

/* What was found of a key: `found` is 1 where it is present, and else 0, and then `value` is 0 too. */
typedef struct { uint64_t value, found; } citrus_answer;

/* Opens so many lanes (1 to CITRUS_MAX_LANES) of the handle's index. Each gets one of the handles that could be shared from it, and no ticket.
 * It waits for nobody, and takes memory for each lane: half a kilobyte, and 8 bytes for each slot that a handle may keep back.
 * DONE; CLOSED; BAD_ARGUMENT where the lanes are open, the number is out of range, or the handle has fewer handles left; NO_MEMORY; HOLDS; LOST.
 * At all but DONE both are as they were. */
CITRUS_STATUS_MATTERS int32_t citrus_open_lanes(citrus_handle *handle, citrus_lanes *lanes, uint32_t count);

/* Looks up `count` keys (0 or more), and writes the answer of each at its index in `answers`, which has room for `room` of them. Each key's
 * answer was so at a moment of the call, as if citrus_get had been called for each; no two need be of one moment. A key may stand there twice.
 * It takes no lock and waits for nobody, each lookup comes to its end as a get does, and it takes 16 bytes a key for the time of the call.
 * DONE; CLOSED; BAD_ARGUMENT where room is less than count; NO_MEMORY. Answers are written at DONE alone, and no more than `count`. */
CITRUS_STATUS_MATTERS int32_t citrus_get_many(citrus_lanes *lanes, const uint64_t *keys, size_t count, citrus_answer *answers, size_t room);

/* Closes the lanes; closed ones may be closed again. Each place is left to citrus_reopen, as a handle with no ticket.
 * The index lives as long as one of its handles or lanes. */
void citrus_close_lanes(citrus_lanes *lanes);

#ifdef __cplusplus
}
#endif

/* Under ThreadSanitizer, and not where CITRUS_NO_TSAN is defined. */
#if defined __SANITIZE_THREAD__
#define CITRUS_TSAN
#elif defined __has_feature
#if __has_feature(thread_sanitizer)
#define CITRUS_TSAN
#endif
#endif
#if defined CITRUS_TSAN && !defined CITRUS_NO_TSAN
#include "citrus_tsan.h"
#endif

#ifdef CITRUS_DEBUG
#include "citrus_debug.h"
#endif
#endif
