/* Readers that stay, in an index whose handles may keep back many slots of removed pairs: removes go on beside a reader until their handle keeps
 * back all that it may, and are BUSY then; so are inserts that need turns, and updates that find no slot free. What is kept outlives a close, takes
 * no room from the pairs that always fit, and goes back once the reader has left, or is used again, also where its handle waits behind each remove. */
#include "stays.h"

/* The reader's key is the least, so it lies between no key that goes and the next one. Where waits go by classes of 64 keys, the keys of its
 * class are left out, and those before them stay: so it lies in no class between such two either. */
enum { HELD = 0, CLASSES = 64, STAYING = CLASSES - 1 };
enum { KEEP = 4096, FEW_KEYS = 9 };

static void begin_scene(struct scene *scene, uint32_t pairs, uint32_t handles, uint32_t waiter, uint32_t keep) {
    open_scene(scene, HELD, pairs, handles, waiter, keep);
    begin_reading(scene);
}

/* Puts so many pairs in and takes them out, one after the other, where the index has the least key alone. Each stands at the end of its way, so its
 * remove waits for nobody and keeps back its slot. */
static void put_and_take_out(citrus_handle *by, uint64_t count) {
    for (uint64_t i = 0; i < count && !wrong_here; i++) {
        const uint64_t key = 1 + i % FEW_KEYS;
        uint64_t old = UNTOUCHED;
        WANT(citrus_insert(by, key, i), CITRUS_DONE);
        WANT(citrus_remove(by, key, &old), CITRUS_DONE);
        WANT(old, i);
    }
}

static void removes_go_on_beside_a_reader_that_stays(uint32_t waiter) {
    struct scene scene;
    begin_scene(&scene, 10, 2, waiter, KEEP);
    for (uint64_t gone = 0; gone < KEEP - 1 && !wrong_here; gone++) {
        WANT(numbers_of(&scene.mine).kept, gone);
        put_and_take_out(&scene.mine, 1);
    }
    const citrus_numbers numbers = numbers_of(&scene.mine);
    WANT(numbers.kept, KEEP - 1);
    WANT(numbers.room, KEEP);
    WANT(numbers.slots, 10 + (KEEP + 4) * 2);
    /* When the last pair came there were two, and what was kept back by then. */
    WANT(numbers.slots - numbers.free, KEEP);
    leave(&scene);
    put_and_take_out(&scene.mine, 2 * KEEP);
    WANT(numbers_of(&scene.mine).kept < KEEP, 1);
    end_scene(&scene);
}

enum { WAITS_FOR = 32, USED_AGAIN = 500 };

/* Nobody reads. Once a handle keeps back so many that it waits for them, each insert uses one of these again, and asks for no free one. */
static void inserts_use_again_what_their_handle_keeps(uint32_t waiter) {
    struct scene scene;
    uint64_t old = UNTOUCHED;
    open_scene(&scene, HELD, 10, 2, waiter, KEEP);
    put_and_take_out(&scene.mine, WAITS_FOR);
    const citrus_numbers before = numbers_of(&scene.mine);
    WANT(before.kept, WAITS_FOR);
    for (uint64_t i = 0; i < USED_AGAIN && !wrong_here; i++) {
        const uint64_t key = 1 + i % FEW_KEYS;
        WANT(citrus_insert(&scene.mine, key, i), CITRUS_DONE);
        WANT(numbers_of(&scene.mine).kept, WAITS_FOR - 1);
        WANT(citrus_remove(&scene.mine, key, &old), CITRUS_DONE);
        WANT(old, i);
        WANT(numbers_of(&scene.mine).kept, WAITS_FOR);
        WANT(numbers_of(&scene.mine).free, before.free);
    }
    end_scene(&scene);
}

enum { WRITERS = 3, REMOVES = 1200 };

static void *put_and_take_out_own(void *member) {
    struct member *me = member;
    for (uint64_t i = 0; i < REMOVES && !me->wrong; i++) {
        const uint64_t key = 1 + i % FEW_KEYS * WRITERS + me->number;
        uint64_t old = UNTOUCHED;
        member_wants(me, "an insert of", key, citrus_insert(&me->handle, key, i), CITRUS_DONE);
        member_wants(me, "a remove of", key, citrus_remove(&me->handle, key, &old), CITRUS_DONE);
        member_wants(me, "the value of", key, old, i);
    }
    return NULL;
}

/* Here a pair that goes may stand above others. Then its node is turned down, once as a rule, or its successor is copied: that keeps back one to
 * three slots. */
static void so_do_those_of_several_threads(uint32_t waiter) {
    struct member members[WRITERS];
    pthread_t ids[WRITERS];
    struct scene scene;
    begin_scene(&scene, 10, 2 + WRITERS, waiter, KEEP);
    for (uint32_t i = 0; i < WRITERS; i++) {
        members[i] = (struct member){.handle = CITRUS_CLOSED_HANDLE, .number = i, .of = WRITERS};
        WANT(citrus_share(&scene.mine, 1, 1000000, &members[i].handle), CITRUS_DONE);
        if (pthread_create(&ids[i], NULL, put_and_take_out_own, &members[i])) abort();
    }
    for (uint32_t i = 0; i < WRITERS; i++) {
        pthread_join(ids[i], NULL);
        wrong_here += members[i].wrong != 0;
        const uint64_t kept = numbers_of(&members[i].handle).kept;
        WANT(kept >= REMOVES && kept <= 3 * REMOVES, 1);
    }
    leave(&scene);
    for (uint32_t i = 0; i < WRITERS; i++) citrus_close(&members[i].handle);
    end_scene(&scene);
}

/* While a handle that keeps back all that it may waits for its own slots, its remove is BUSY, and nothing changes. */
static void is_busy_and_changes_nothing(citrus_handle *by, uint64_t key) {
    const citrus_numbers before = numbers_of(by);
    uint64_t old = UNTOUCHED;
    for (int turn = 0; turn < 100; turn++) WANT(citrus_remove_once(by, key, &old), CITRUS_BUSY);
    const citrus_numbers after = numbers_of(by);
    WANT(old, UNTOUCHED);
    WANT(after.kept, before.kept);
    WANT(after.tickets, before.tickets);
    WANT(after.waits, before.waits);
    WANT(citrus_get(by, key, &old), CITRUS_DONE);
}

/* A remove that comes back has this long to show it. */
static void rest_until_it_shows(void) {
    for (int turn = 0; turn < 10; turn++) rest_a_while();
}

static const uint32_t keeps[] = {16, 17, 31, 32, 33, 64, 100, KEEP};

/* The pair that is to go is there, and the handle keeps back all that it may. */
static void keep_all(citrus_handle *by, uint32_t keep) {
    put_and_take_out(by, keep - 1);
    WANT(citrus_insert(by, 5, 50), CITRUS_DONE);
    WANT(numbers_of(by).kept, keep - 1);
}

static void a_handle_that_keeps_all_that_it_may_takes_no_pair_out(uint32_t waiter) {
    for (size_t i = 0; i < COUNT_OF(keeps); i++) {
        struct scene scene;
        struct removal removal = {.by = &scene.mine, .key = 5, .old = UNTOUCHED};
        pthread_t id;
        begin_scene(&scene, 10, 2, waiter, keeps[i]);
        keep_all(&scene.mine, keeps[i]);
        is_busy_and_changes_nothing(&scene.mine, 5);
        if (pthread_create(&id, NULL, take_out, &removal)) abort();
        rest_until_it_shows();
        WANT(removal.is_over, 0);
        leave(&scene);
        pthread_join(id, NULL);
        WANT(removal.status, CITRUS_DONE);
        WANT(removal.old, 50);
        WANT(numbers_of(&scene.mine).kept < keeps[i], 1);
        end_scene(&scene);
    }
}

enum { BLOCKS = 8, ALL_KEYS = BLOCKS * CLASSES, ROUNDS = 3, TURN_SLOTS = 48, KEEP_FOR_TURNS = 4 * KEEP };

static int goes(uint64_t key) { return key % CLASSES != HELD && key % CLASSES != STAYING; }

/* Each key once, in an order that is drawn (Durstenfeld, "Algorithm 235: Random permutation", 1964). */
static void draw_order(uint64_t order[ALL_KEYS], uint64_t *state) {
    for (uint64_t i = 0; i < ALL_KEYS; i++) {
        const uint64_t at = (draw(state) >> 8) % (i + 1);
        order[i] = order[at];
        order[at] = i;
    }
}

/* Takes all that go out in one order, and puts them in again in another; how many. No handle that keeps back so few waits. */
static uint64_t change_all(citrus_handle *by, uint64_t *state) {
    uint64_t order[ALL_KEYS], old = UNTOUCHED, gone = 0;
    draw_order(order, state);
    for (size_t i = 0; i < ALL_KEYS && !wrong_here; i++) {
        if (!goes(order[i])) continue;
        WANT(citrus_remove(by, order[i], &old), CITRUS_DONE);
        WANT(old, order[i]);
        gone++;
    }
    draw_order(order, state);
    for (size_t i = 0; i < ALL_KEYS && !wrong_here; i++) {
        WANT(numbers_of(by).kept + TURN_SLOTS < KEEP_FOR_TURNS, 1);
        if (goes(order[i])) WANT(citrus_insert(by, order[i], order[i]), CITRUS_DONE);
    }
    return gone;
}

/* At first each takes a copy of its successor, which keeps back two slots, and waits for readers above its key and up to the next one. Once 48 slots
 * are kept back its node is turned down, and each turn keeps back two. */
static void so_do_removes_of_nodes_with_two_children(uint32_t waiter) {
    struct scene scene;
    uint64_t order[ALL_KEYS], state = 88172645463325252u, gone = 0;
    open_scene(&scene, HELD, ALL_KEYS, 2, waiter, KEEP_FOR_TURNS);
    draw_order(order, &state);
    for (size_t i = 0; i < ALL_KEYS; i++)
        if (order[i] % CLASSES != HELD) WANT(citrus_insert(&scene.mine, order[i], order[i]), CITRUS_DONE);
    const uint64_t before = numbers_of(&scene.mine).kept;
    begin_reading(&scene);
    for (int round = 0; round < ROUNDS && !wrong_here; round++) gone += change_all(&scene.mine, &state);
    const uint64_t kept = numbers_of(&scene.mine).kept - before;
    WANT(gone, ROUNDS * BLOCKS * (CLASSES - 2));
    WANT(kept > gone, 1);
    leave(&scene);
    end_scene(&scene);
}

static void *take_out_once(void *at) {
    struct removal *removal = at;
    removal->status = citrus_remove_once(removal->by, removal->key, &removal->old);
    removal->is_over = 1;
    return NULL;
}

/* A handle begins no wait for its slots that would take the place of its user's: then the remove comes back when the reader has left. */
static void beside_a_begun_wait_its_remove_stands_still(uint32_t waiter) {
    for (size_t i = 0; i < COUNT_OF(keeps); i++) {
        struct scene scene;
        struct removal removal = {.by = &scene.mine, .key = 5, .old = UNTOUCHED};
        uint64_t cookie = 0;
        pthread_t id;
        begin_scene(&scene, 10, 2, waiter, keeps[i]);
        keep_all(&scene.mine, keeps[i]);
        WANT(citrus_begin(&scene.mine, 5, 5, &cookie), CITRUS_DONE);
        if (pthread_create(&id, NULL, take_out_once, &removal)) abort();
        rest_until_it_shows();
        WANT(removal.is_over, 0);
        leave(&scene);
        pthread_join(id, NULL);
        WANT(removal.status, CITRUS_DONE);
        WANT(removal.old, 50);
        WANT(numbers_of(&scene.mine).kept < 4, 1);
        WANT(citrus_poll(&scene.mine, cookie), CITRUS_MOVED);
        end_scene(&scene);
    }
}

enum { WAITED_FOR = 401, FEW_KEPT = 64 };

/* Each wait takes the place of the one that the handle began for its slots. */
static void remove_and_wait(citrus_handle *by, uint64_t key) {
    uint64_t old = UNTOUCHED;
    WANT(citrus_remove(by, key, &old), CITRUS_DONE);
    WANT(old, key);
    WANT(citrus_wait(by, key, key), CITRUS_DONE);
}

/* Nobody reads. */
static void waits_behind_removes_leave_few_slots(uint32_t waiter) {
    struct scene scene;
    open_scene(&scene, HELD, WAITED_FOR, 2, waiter, KEEP);
    for (uint64_t i = 1; i < WAITED_FOR; i++) WANT(citrus_insert(&scene.mine, i * 211 % WAITED_FOR, i * 211 % WAITED_FOR), CITRUS_DONE);
    for (uint64_t i = 1; i < WAITED_FOR && !wrong_here; i++) {
        remove_and_wait(&scene.mine, i * 97 % WAITED_FOR);
        WANT(numbers_of(&scene.mine).kept < FEW_KEPT, 1);
    }
    end_scene(&scene);
}

/* Beside a reader the handle is BUSY behind such a wait too, whether its last updates before began a wait for its slots, or found one given up. */
static void behind_a_wait_it_takes_no_pair_out(uint32_t waiter) {
    for (int updates = 0; updates < 4; updates++)
        for (size_t i = 0; i < COUNT_OF(keeps) && !wrong_here; i++) {
            struct scene scene;
            struct removal removal = {.by = &scene.mine, .key = 5, .old = UNTOUCHED};
            pthread_t id;
            begin_scene(&scene, 10, 2, waiter, keeps[i]);
            keep_all(&scene.mine, keeps[i]);
            WANT(citrus_wait(&scene.mine, 5, 5), CITRUS_DONE);
            for (int update = 0; update < updates; update++) WANT(citrus_insert(&scene.mine, 5, 0), CITRUS_UNCHANGED);
            WANT(citrus_wait(&scene.mine, 5, 5), CITRUS_DONE);
            if (pthread_create(&id, NULL, take_out_once, &removal)) abort();
            WANT(comes_true(&removal.is_over), 1);
            if (removal.is_over) is_busy_and_changes_nothing(&scene.mine, 5);
            leave(&scene);
            pthread_join(id, NULL);
            WANT(removal.status, CITRUS_BUSY);
            WANT(citrus_remove(&scene.mine, 5, &removal.old), CITRUS_DONE);
            end_scene(&scene);
        }
}

/* The first call begins a wait for the slots that its place keeps. */
static void a_reopened_handle_takes_no_pair_out(uint32_t waiter) {
    for (size_t i = 0; i < COUNT_OF(keeps); i++) {
        citrus_handle other = CITRUS_CLOSED_HANDLE;
        struct scene scene;
        uint64_t old = UNTOUCHED;
        begin_scene(&scene, 10, 3, waiter, keeps[i]);
        WANT(citrus_share(&scene.mine, 1, 1000000, &other), CITRUS_DONE);
        keep_all(&other, keeps[i]);
        citrus_close(&other);
        WANT(citrus_reopen(&scene.mine, &other), CITRUS_DONE);
        const citrus_numbers before = numbers_of(&other);
        WANT(citrus_remove_once(&other, 5, &old), CITRUS_BUSY);
        WANT(numbers_of(&other).waits, before.waits + 1);
        WANT(numbers_of(&other).tickets, before.tickets - 1);
        is_busy_and_changes_nothing(&other, 5);
        leave(&scene);
        WANT(citrus_remove(&other, 5, &old), CITRUS_DONE);
        WANT(numbers_of(&other).kept < keeps[i], 1);
        citrus_close(&other);
        end_scene(&scene);
    }
}

enum { FIRST_IN_ORDER = 100, IN_ORDER = 500, DEEP = 64 };

/* Keys in order make a way that needs turns, and turns need room. A handle that has none adds as many pairs as a way has slots that is far too deep,
 * and is BUSY then until the reader has left. */
static void an_insert_that_needs_turns_is_busy(uint32_t waiter) {
    for (size_t i = 0; i < COUNT_OF(keeps); i++) {
        struct scene scene;
        uint64_t value = UNTOUCHED, key = FIRST_IN_ORDER;
        int32_t status;
        begin_scene(&scene, IN_ORDER + 10, 2, waiter, keeps[i]);
        put_and_take_out(&scene.mine, keeps[i] - 1);
        while ((status = citrus_insert_once(&scene.mine, key, key)) == CITRUS_DONE && key < FIRST_IN_ORDER + DEEP) key++;
        WANT(status, CITRUS_BUSY);
        const citrus_numbers before = numbers_of(&scene.mine);
        for (int turn = 0; turn < 100; turn++) WANT(citrus_insert_once(&scene.mine, key, key), CITRUS_BUSY);
        WANT(citrus_get(&scene.mine, key, &value), CITRUS_UNCHANGED);
        WANT(numbers_of(&scene.mine).kept, before.kept);
        WANT(numbers_of(&scene.mine).tickets, before.tickets);
        WANT(citrus_get(&scene.mine, key - 1, &value), CITRUS_DONE);
        leave(&scene);
        for (; key < FIRST_IN_ORDER + IN_ORDER; key++) WANT(citrus_insert(&scene.mine, key, key), CITRUS_DONE);
        end_scene(&scene);
    }
}

/* The slots stay kept back, and the objects go: whoever took one out waits for its own key alone. That which the reader holds stays, though its
 * pair is gone. */
static void objects_are_freed_beside_a_reader_that_stays(uint32_t waiter) {
    enum { OBJECTS = 1000 };
    citrus_handle asks = CITRUS_CLOSED_HANDLE;
    struct scene scene;
    uint64_t old = UNTOUCHED, cookie = 0;
    begin_scene(&scene, 10, 3, waiter, KEEP);
    WANT(citrus_share(&scene.mine, 1, 1000000, &asks), CITRUS_DONE);
    for (uint64_t i = 0; i < OBJECTS && !wrong_here; i++) {
        const uint64_t key = 1 + i % (STAYING - 1);
        WANT(citrus_insert(&scene.mine, key, new_object(key)), CITRUS_DONE);
        WANT(citrus_remove(&scene.mine, key, &old), CITRUS_DONE);
        WANT(begin_and_ask(&asks, key, &cookie), CITRUS_DONE);
        if (wrong_here) break;
        WANT(*object_at(old), ~key);
        free(object_at(old));
    }
    WANT(citrus_remove(&scene.mine, HELD, &old), CITRUS_DONE);
    WANT(old, scene.object);
    WANT(begin_and_ask(&asks, HELD, &cookie), CITRUS_UNCHANGED);
    WANT(numbers_of(&scene.mine).kept, OBJECTS + 1);
    leave(&scene);
    WANT(ask(&asks, cookie), CITRUS_DONE);
    citrus_close(&asks);
    end_scene(&scene);
}

/* Closes the handle, and opens it again by the other one: it has what it had. */
static void close_and_reopen(citrus_handle *by, citrus_handle *other) {
    const citrus_numbers before = numbers_of(other);
    citrus_close(other);
    WANT(citrus_reopen(by, other), CITRUS_DONE);
    const citrus_numbers after = numbers_of(other);
    WANT(after.kept, before.kept);
    WANT(after.room, before.room);
    WANT(after.tickets, before.tickets);
    WANT(after.waits, before.waits);
}

static void kept_slots_outlive_a_close(uint32_t waiter) {
    enum { TIMES = 8, EACH = 500 };
    citrus_handle other = CITRUS_CLOSED_HANDLE;
    struct scene scene;
    begin_scene(&scene, 10, 3, waiter, KEEP);
    WANT(citrus_share(&scene.mine, 1, CITRUS_ALL_TICKETS / 4, &other), CITRUS_DONE);
    for (uint64_t times = 1; times <= TIMES; times++) {
        put_and_take_out(&other, EACH);
        WANT(numbers_of(&other).kept, EACH * times);
        close_and_reopen(&scene.mine, &other);
    }
    /* The reader's handle alone is open. */
    citrus_close(&other);
    citrus_close(&scene.mine);
    leave(&scene);
    WANT(citrus_reopen(&scene.reader.handle, &scene.mine), CITRUS_DONE);
    WANT(citrus_reopen(&scene.reader.handle, &other), CITRUS_DONE);
    WANT(numbers_of(&scene.mine).kept + numbers_of(&other).kept, EACH * TIMES);
    put_and_take_out(&scene.mine, KEEP);
    put_and_take_out(&other, KEEP);
    WANT(numbers_of(&scene.mine).kept < KEEP && numbers_of(&other).kept < KEEP, 1);
    citrus_close(&other);
    end_scene(&scene);
}

enum { PAIRS = 1000, HALF = 512, KEPT_BY_EACH = 500 };

/* Two threads, each of which keeps back all that it may beside the other one's hold. */
struct both {
    struct scene scene;
    _Atomic int is_held, keeps, is_full;
    int32_t held, released;
};

static void *keep_and_hold(void *at) {
    struct both *both = at;
    citrus_handle *const mine = &both->scene.reader.handle;
    uint64_t value = UNTOUCHED;
    if (!comes_true(&both->is_held)) return NULL;
    put_and_take_out(mine, KEPT_BY_EACH - 1);
    both->held = citrus_hold(mine, HELD, &value);
    both->keeps = 1;
    comes_true(&both->is_full);
    both->released = citrus_release(mine);
    return NULL;
}

/* As many pairs as the index was opened for are there in the end, though the slots that both keep back can't go back. The keys come in halves, so
 * that no way is deep. */
static void all_pairs_fit_beside_kept_slots(uint32_t waiter) {
    static citrus_pair found[PAIRS + 1];
    struct both both = {.held = CITRUS_LOST, .released = CITRUS_LOST};
    citrus_handle *const mine = &both.scene.mine;
    uint64_t value = UNTOUCHED, pairs = 1, next = 0;
    size_t count = 0;
    pthread_t id;
    open_scene(&both.scene, HELD, PAIRS, 2, waiter, KEPT_BY_EACH);
    if (pthread_create(&id, NULL, keep_and_hold, &both)) abort();
    WANT(citrus_hold(mine, HELD, &value), CITRUS_DONE);
    both.is_held = 1;
    WANT(comes_true(&both.keeps), 1);
    WANT(citrus_release(mine), CITRUS_DONE);
    put_and_take_out(mine, KEPT_BY_EACH - 1);
    for (uint64_t step = HALF; step; step /= 2)
        for (uint64_t key = step; key < 2 * HALF && pairs < PAIRS && !wrong_here; key += 2 * step, pairs++)
            WANT(citrus_insert(mine, key, key), CITRUS_DONE);
    const citrus_numbers numbers = numbers_of(mine);
    WANT(numbers.kept, KEPT_BY_EACH - 1);
    WANT(numbers.slots - numbers.free, PAIRS + 2 * (KEPT_BY_EACH - 1));
    WANT(citrus_list(mine, 0, UINT64_MAX, found, PAIRS + 1, &count, &next), CITRUS_DONE);
    WANT(count, PAIRS);
    both.is_full = 1;
    pthread_join(id, NULL);
    WANT(both.held, CITRUS_DONE);
    WANT(both.released, CITRUS_DONE);
    WANT(numbers_of(&both.scene.reader.handle).kept, KEPT_BY_EACH - 1);
    end_scene(&both.scene);
}

enum { FEWEST = 16, FEW_RETIRED = 4, TALLEST = 64 };

/* The keys of this many bits, in halves: so no way is deep. */
static uint64_t in_halves(uint64_t number) {
    uint64_t key = 0;
    for (uint64_t bit = TALLEST / 2; bit; bit /= 2, number /= 2) key += number % 2 * bit;
    return TALLEST + key;
}

/* No slot is free, and its handle keeps some back: such an insert begins a wait for these, is BUSY until the reader has left, and changes nothing.
 * Removes that have a spare go on meanwhile. */
static void an_insert_without_a_free_slot_is_busy(uint32_t waiter) {
    struct scene scene;
    uint64_t old = UNTOUCHED, pairs = 0;
    int32_t status = CITRUS_DONE;
    begin_scene(&scene, 10, 2, waiter, FEWEST);
    put_and_take_out(&scene.mine, FEW_RETIRED);
    while (status == CITRUS_DONE && pairs < TALLEST)
        if ((status = citrus_insert_once(&scene.mine, in_halves(pairs), pairs)) == CITRUS_DONE) pairs++;
    WANT(status, CITRUS_BUSY);
    WANT(citrus_insert_once(&scene.mine, in_halves(pairs), pairs), CITRUS_BUSY);
    const citrus_numbers before = numbers_of(&scene.mine);
    WANT(before.free, 0);
    WANT(before.kept, FEW_RETIRED);
    for (int turn = 0; turn < 100; turn++) WANT(citrus_insert_once(&scene.mine, in_halves(pairs), pairs), CITRUS_BUSY);
    const citrus_numbers after = numbers_of(&scene.mine);
    WANT(after.kept, FEW_RETIRED);
    WANT(after.tickets, before.tickets);
    WANT(after.waits, before.waits);
    WANT(citrus_get(&scene.mine, in_halves(pairs), &old), CITRUS_UNCHANGED);
    WANT(citrus_insert_once(&scene.mine, in_halves(0), 1), CITRUS_UNCHANGED);
    WANT(citrus_remove_once(&scene.mine, in_halves(pairs - 1), &old), CITRUS_DONE);
    WANT(old, pairs - 1);
    leave(&scene);
    WANT(citrus_insert(&scene.mine, in_halves(pairs), pairs), CITRUS_DONE);
    WANT(citrus_get(&scene.mine, in_halves(pairs), &old), CITRUS_DONE);
    WANT(old, pairs);
    end_scene(&scene);
}

enum { ABOVE_TWO = 5, FIRST_CHILD = 3, LAST_CHILD = 7, KEPT_BY_COPY = 2 };

/* Its first remove copied a successor, which took its spare, and another handle has the last free slot since: it doesn't know that none is left. */
static void lose_spare_and_slots(struct scene *scene, uint32_t waiter, citrus_handle *other) {
    uint64_t old = UNTOUCHED, pairs = 0;
    int32_t status = CITRUS_DONE;
    begin_scene(scene, 1, 3, waiter, FEWEST);
    WANT(citrus_share(&scene->mine, 1, 1000000, other), CITRUS_DONE);
    WANT(citrus_insert(&scene->mine, ABOVE_TWO, 50), CITRUS_DONE);
    WANT(citrus_insert(&scene->mine, FIRST_CHILD, 30), CITRUS_DONE);
    WANT(citrus_insert(&scene->mine, LAST_CHILD, 70), CITRUS_DONE);
    WANT(citrus_remove(&scene->mine, ABOVE_TWO, &old), CITRUS_DONE);
    while ((status = citrus_insert_once(other, in_halves(pairs), pairs)) == CITRUS_DONE && pairs < TALLEST) pairs++;
    WANT(status, CITRUS_FULL);
    const citrus_numbers numbers = numbers_of(&scene->mine);
    WANT(numbers.kept, KEPT_BY_COPY);
    WANT(numbers.free > 0, 1);
}

static int32_t remove_absent(citrus_handle *by, uint64_t *found) { return citrus_remove_once(by, ABOVE_TWO, found); }
static int32_t take_another(citrus_handle *by, uint64_t *found) { return citrus_take_once(by, FIRST_CHILD, 31, found); }
static int32_t take_expected(citrus_handle *by, uint64_t *found) { return citrus_take_once(by, FIRST_CHILD, 30, found); }
static int32_t remove_present(citrus_handle *by, uint64_t *found) { return citrus_remove_once(by, FIRST_CHILD, found); }

static const struct {
    int32_t (*call)(citrus_handle *by, uint64_t *found);
    int32_t status;
    uint64_t found;
} without_slots[] = {
    {remove_absent, CITRUS_UNCHANGED, UNTOUCHED},
    {take_another, CITRUS_DIFFERENT, 30},
    {take_expected, CITRUS_BUSY, UNTOUCHED},
    {remove_present, CITRUS_BUSY, UNTOUCHED},
};

/* Such a remove waits for nobody in its call. It tells what needs no slot, that the key is absent or has another value, and else it is busy; the next
 * one begins a wait for what its handle keeps. */
static void a_remove_that_finds_no_slot_free_is_busy(uint32_t waiter) {
    for (size_t i = 0; i < COUNT_OF(without_slots); i++) {
        citrus_handle other = CITRUS_CLOSED_HANDLE;
        struct scene scene;
        uint64_t found = UNTOUCHED;
        lose_spare_and_slots(&scene, waiter, &other);
        const citrus_numbers before = numbers_of(&scene.mine);
        WANT(without_slots[i].call(&scene.mine, &found), without_slots[i].status);
        WANT(found, without_slots[i].found);
        const citrus_numbers after = numbers_of(&scene.mine);
        WANT(after.free, 0);
        WANT(after.kept, KEPT_BY_COPY);
        WANT(after.tickets, before.tickets);
        WANT(after.waits, before.waits);
        WANT(citrus_remove_once(&scene.mine, FIRST_CHILD, &found), CITRUS_BUSY);
        WANT(numbers_of(&scene.mine).waits, before.waits + 1);
        is_busy_and_changes_nothing(&scene.mine, FIRST_CHILD);
        leave(&scene);
        WANT(citrus_remove(&scene.mine, FIRST_CHILD, &found), CITRUS_DONE);
        WANT(found, 30);
        citrus_close(&other);
        end_scene(&scene);
    }
}

/* Those that are shared, and those whose places lanes had. */
static void each_handle_may_keep_back_as_many(uint32_t waiter) {
    const citrus_options options = citrus_options_for(10, 4, waiter);
    citrus_handle handles[3] = {CITRUS_CLOSED_HANDLE, CITRUS_CLOSED_HANDLE, CITRUS_CLOSED_HANDLE};
    citrus_lanes lanes = CITRUS_CLOSED_LANES;
    WANT(citrus_open_keeping(&handles[0], &options, 300), CITRUS_DONE);
    WANT(citrus_open_lanes(&handles[0], &lanes, 2), CITRUS_DONE);
    WANT(citrus_share(&handles[0], 1, 1000000, &handles[1]), CITRUS_DONE);
    citrus_close_lanes(&lanes);
    WANT(citrus_reopen(&handles[1], &handles[2]), CITRUS_DONE);
    for (size_t i = 0; i < COUNT_OF(handles); i++) {
        WANT(numbers_of(&handles[i]).room, 300);
        WANT(numbers_of(&handles[i]).slots, 10 + 304 * 4);
    }
    for (size_t i = 0; i < COUNT_OF(handles); i++) citrus_close(&handles[i]);
}

static const struct waiter_case cases[] = {
    {"removes go on beside a reader that stays", removes_go_on_beside_a_reader_that_stays},
    {"inserts use again what their handle keeps", inserts_use_again_what_their_handle_keeps},
    {"so do those of several threads", so_do_those_of_several_threads},
    {"so do removes of nodes with two children", so_do_removes_of_nodes_with_two_children},
    {"a handle that keeps all that it may takes no pair out", a_handle_that_keeps_all_that_it_may_takes_no_pair_out},
    {"beside a begun wait its remove stands still", beside_a_begun_wait_its_remove_stands_still},
    {"a reopened handle takes no pair out", a_reopened_handle_takes_no_pair_out},
    {"waits behind removes leave few slots", waits_behind_removes_leave_few_slots},
    {"behind a wait it takes no pair out", behind_a_wait_it_takes_no_pair_out},
    {"an insert that needs turns is busy", an_insert_that_needs_turns_is_busy},
    {"objects are freed beside a reader that stays", objects_are_freed_beside_a_reader_that_stays},
    {"kept slots outlive a close", kept_slots_outlive_a_close},
    {"all pairs fit beside kept slots", all_pairs_fit_beside_kept_slots},
    {"an insert without a free slot is busy", an_insert_without_a_free_slot_is_busy},
    {"a remove that finds no slot free is busy", a_remove_that_finds_no_slot_free_is_busy},
    {"each handle may keep back as many", each_handle_may_keep_back_as_many},
};

int main(void) {
    run_waiter_cases(cases, COUNT_OF(cases));
    return failed_cases != 0;
}
