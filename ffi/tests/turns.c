/* Nodes with two children beside a reader that stays. A remove of one copies its successor, and waits for readers above its key and up to the next
 * one; but once a handle keeps back 48 slots and its own wait for all readers isn't over, the node is turned down until it has one child, and the
 * remove comes back. What a handle does for its slots takes nothing from what it began for its user. */
#include "stays.h"

enum { KEEP = 4096, MANY = 48, BEGINS_TO_WAIT = 32, HIGH = 1000000 };

/* Below the first key two more, and above it a way that goes to the left: so the first one has two children, and the next key is at the way's end. */
enum { TOP = 500, NEXT = 510 };
static const uint64_t around[] = {TOP, 250, 900, 800, 700, 600, 550, 520, NEXT, 950, 100, 300};

struct stage {
    struct scene scene;
    citrus_handle other;
    struct removal removal;
    pthread_t id;
};

/* The index has these pairs, and the reader holds the object of its key, which is one of them. */
static void open_stage(struct stage *stage, uint64_t held, uint32_t waiter) {
    *stage = (struct stage){.other = CITRUS_CLOSED_HANDLE};
    open_scene(&stage->scene, held, 2 * COUNT_OF(around), 3, waiter, KEEP);
    WANT(citrus_share(&stage->scene.mine, 1, 1000000, &stage->other), CITRUS_DONE);
    uint64_t old = UNTOUCHED;
    WANT(citrus_remove(&stage->scene.mine, held, &old), CITRUS_DONE);
    for (size_t i = 0; i < COUNT_OF(around); i++)
        WANT(citrus_insert(&stage->scene.mine, around[i], around[i] == held ? stage->scene.object : around[i]), CITRUS_DONE);
}

static void end_stage(struct stage *stage) {
    citrus_close(&stage->other);
    end_scene(&stage->scene);
}

/* Takes pairs out beside the reader until the handle keeps back so many slots: each stands at the end of its way, so its remove keeps back one, and
 * waits for nobody. */
static void keep_back(citrus_handle *by, uint64_t slots) {
    uint64_t old = UNTOUCHED;
    for (uint64_t kept; (kept = numbers_of(by).kept) < slots && !wrong_here;) {
        WANT(citrus_insert(by, HIGH + kept, kept), CITRUS_DONE);
        WANT(citrus_remove(by, HIGH + kept, &old), CITRUS_DONE);
        WANT(old, kept);
        WANT(numbers_of(by).kept, kept + 1);
    }
}

/* All pairs are there but that one. */
static void want_all_but(struct stage *stage, uint64_t gone) {
    citrus_pair pairs[2 * COUNT_OF(around)];
    uint64_t next = UNTOUCHED, before = 0;
    size_t count = 0, at = 0;
    WANT(citrus_list(&stage->other, 0, UINT64_MAX, pairs, COUNT_OF(pairs), &count, &next), CITRUS_DONE);
    WANT(count, COUNT_OF(around) - 1);
    for (at = 0; at < count; before = pairs[at++].key) {
        const uint64_t key = pairs[at].key;
        size_t i = 0;
        while (i < COUNT_OF(around) && around[i] != key) i++;
        WANT(i < COUNT_OF(around) && key != gone && (at == 0 || key > before), 1);
        WANT(pairs[at].value, key == stage->scene.reader.key ? stage->scene.object : key);
    }
}

/* It began no wait, and keeps back a slot and two for each turn. */
static void want_turns(struct stage *stage, uint64_t key, citrus_numbers before) {
    const citrus_numbers after = numbers_of(&stage->scene.mine);
    const uint64_t kept = after.kept - before.kept, turns = kept / 2;
    WANT(after.waits, before.waits);
    WANT(turns >= 1 && kept == 2 * turns + 1, 1);
    WANT(before.tickets - after.tickets <= 5 + 7 * turns, 1);
    want_all_but(stage, key);
}

/* The remove of the first pair, whose reader stays at another key or at the same, comes back. */
static void takes_out_by_turns(struct stage *stage, uint64_t key) {
    uint64_t old = UNTOUCHED;
    const citrus_numbers before = numbers_of(&stage->scene.mine);
    WANT(citrus_remove(&stage->scene.mine, key, &old), CITRUS_DONE);
    WANT(old, key == stage->scene.reader.key ? stage->scene.object : key);
    want_turns(stage, key, before);
}

/* So does a take; but with another value it turns nothing. */
static void a_take_by_turns(struct stage *stage, uint64_t key) {
    uint64_t found = UNTOUCHED;
    const citrus_numbers first = numbers_of(&stage->scene.mine);
    WANT(citrus_take(&stage->scene.mine, key, key + 1, &found), CITRUS_DIFFERENT);
    WANT(found, key);
    const citrus_numbers before = numbers_of(&stage->scene.mine);
    WANT(before.kept, first.kept);
    WANT(citrus_take(&stage->scene.mine, key, key, &found), CITRUS_DONE);
    want_turns(stage, key, before);
}

static void goes_down_beside_a_reader_of_the_next_key(uint32_t waiter, void (*goes)(struct stage *, uint64_t)) {
    struct stage stage;
    open_stage(&stage, NEXT, waiter);
    begin_reading(&stage.scene);
    keep_back(&stage.scene.mine, MANY);
    goes(&stage, TOP);
    leave(&stage.scene);
    keep_back(&stage.scene.mine, 1);
    end_stage(&stage);
}

static void a_node_goes_down_beside_a_reader_of_the_next_key(uint32_t waiter) { goes_down_beside_a_reader_of_the_next_key(waiter, takes_out_by_turns); }
static void a_node_goes_down_for_a_take(uint32_t waiter) { goes_down_beside_a_reader_of_the_next_key(waiter, a_take_by_turns); }

/* The update of a remove that waits has been made, and it is over only when the reader has left. */
static void waits_until_the_reader_leaves(struct stage *stage, uint64_t key) {
    uint64_t value = UNTOUCHED;
    stage->removal = (struct removal){.by = &stage->scene.mine, .key = key, .old = UNTOUCHED};
    if (pthread_create(&stage->id, NULL, take_out, &stage->removal)) abort();
    const double begun = now();
    while (citrus_get(&stage->other, key, &value) == CITRUS_DONE && now() - begun < PATIENCE) rest_a_while();
    WANT(citrus_get(&stage->other, key, &value), CITRUS_UNCHANGED);
    for (int turn = 0; turn < 10; turn++) rest_a_while();
    WANT(stage->removal.is_over, 0);
    leave(&stage->scene);
    pthread_join(stage->id, NULL);
    WANT(stage->removal.status, CITRUS_DONE);
    WANT(stage->removal.old, key);
    want_all_but(stage, key);
}

/* Though its user waited behind other updates, which takes the place of the handle's own wait. */
static void a_node_goes_down_behind_waits_too(uint32_t waiter) {
    for (int waits = 1; waits < 4 && !wrong_here; waits++) {
        struct stage stage;
        uint64_t old = UNTOUCHED;
        open_stage(&stage, NEXT, waiter);
        begin_reading(&stage.scene);
        keep_back(&stage.scene.mine, MANY);
        for (int i = 0; i < waits; i++) {
            WANT(citrus_insert(&stage.scene.mine, HIGH, 1), CITRUS_DONE);
            WANT(citrus_remove(&stage.scene.mine, HIGH, &old), CITRUS_DONE);
            WANT(citrus_wait(&stage.scene.mine, HIGH, HIGH), CITRUS_DONE);
            if (i % 2) WANT(citrus_replace(&stage.scene.mine, TOP, TOP, &old), CITRUS_DONE);
        }
        stage.removal = (struct removal){.by = &stage.scene.mine, .key = TOP, .old = UNTOUCHED};
        if (pthread_create(&stage.id, NULL, take_out, &stage.removal)) abort();
        WANT(comes_true(&stage.removal.is_over), 1);
        leave(&stage.scene);
        pthread_join(stage.id, NULL);
        WANT(stage.removal.status, CITRUS_DONE);
        want_all_but(&stage, TOP);
        end_stage(&stage);
    }
}

static void with_fewer_slots_it_waits(uint32_t waiter) {
    static const uint64_t few[] = {0, 1, BEGINS_TO_WAIT, MANY - 1};
    for (size_t i = 0; i < COUNT_OF(few); i++) {
        struct stage stage;
        open_stage(&stage, NEXT, waiter);
        begin_reading(&stage.scene);
        keep_back(&stage.scene.mine, few[i]);
        waits_until_the_reader_leaves(&stage, TOP);
        end_stage(&stage);
    }
}

/* The pair that is held goes, and comes again with another object: a wait for its key waits for the reader, who reads the first object meanwhile. */
static void a_held_pair_goes_beside_its_reader(uint32_t waiter) {
    struct stage stage;
    uint64_t cookie = 0, old = UNTOUCHED;
    open_stage(&stage, TOP, waiter);
    begin_reading(&stage.scene);
    keep_back(&stage.scene.mine, MANY);
    takes_out_by_turns(&stage, TOP);
    const uint64_t kept = numbers_of(&stage.scene.mine).kept;
    WANT(begin_and_ask(&stage.other, TOP, &cookie), CITRUS_UNCHANGED);
    for (uint64_t i = 1; i <= 2 * MANY && !wrong_here; i++) {
        WANT(citrus_insert(&stage.scene.mine, TOP, i), CITRUS_DONE);
        WANT(citrus_remove(&stage.scene.mine, TOP, &old), CITRUS_DONE);
        WANT(old, i);
        WANT(numbers_of(&stage.scene.mine).kept >= kept + i, 1);
    }
    WANT(ask(&stage.other, cookie), CITRUS_UNCHANGED);
    leave(&stage.scene);
    WANT(ask(&stage.other, cookie), CITRUS_DONE);
    end_stage(&stage);
}

enum { ALL_KEYS = 300, ROUNDS = 3, DRAWN_KEEP = 65536 };

/* Wherever the reader is, all pairs go in an order that is drawn, its own too, and come again, and after each list there are those that should be. */
static void all_pairs_go_wherever_the_reader_is(uint32_t waiter) {
    static citrus_pair pairs[ALL_KEYS + 2];
    static const uint64_t held[] = {0, 1, 77, 150, ALL_KEYS - 1};
    uint64_t state = 88172645463325252u, old = UNTOUCHED, next = 0, goes_through = 0;
    for (size_t at = 0; at < COUNT_OF(held) && !wrong_here; at++) {
        struct scene scene;
        size_t count = 0;
        open_scene(&scene, held[at], ALL_KEYS + 1, 2, waiter, DRAWN_KEEP);
        for (uint64_t i = 0; i < ALL_KEYS; i++) {
            const uint64_t key = i * 211 % ALL_KEYS;
            if (key != held[at]) WANT(citrus_insert(&scene.mine, key, key), CITRUS_DONE);
        }
        begin_reading(&scene);
        keep_back(&scene.mine, MANY);
        const uint64_t waits = numbers_of(&scene.mine).waits;
        for (int round = 0; round < ROUNDS && !wrong_here; round++) {
            uint8_t is_gone[ALL_KEYS] = {0};
            for (uint64_t gone = 0; gone < ALL_KEYS && !wrong_here; gone++) {
                for (goes_through = draw(&state) % ALL_KEYS; is_gone[goes_through];) goes_through = (goes_through + 1) % ALL_KEYS;
                WANT(citrus_remove(&scene.mine, goes_through, &old), CITRUS_DONE);
                WANT(old, goes_through == held[at] && round == 0 ? scene.object : goes_through);
                is_gone[goes_through] = 1;
                if (gone % 16) continue;
                WANT(citrus_list(&scene.mine, 0, UINT64_MAX, pairs, ALL_KEYS + 1, &count, &next), CITRUS_DONE);
                WANT(count, ALL_KEYS - 1 - gone);
                for (size_t i = 0; i < count; i++) WANT(pairs[i].key < ALL_KEYS && !is_gone[pairs[i].key] && (i == 0 || pairs[i].key > pairs[i - 1].key), 1);
            }
            for (uint64_t i = 0; i < ALL_KEYS; i++) WANT(citrus_insert(&scene.mine, i * 211 % ALL_KEYS, i * 211 % ALL_KEYS), CITRUS_DONE);
        }
        WANT(numbers_of(&scene.mine).waits, waits);
        leave(&scene);
        end_scene(&scene);
    }
}

/* A wait that a handle began for its user stays its latest one, whatever the handle keeps back, until its end is told. Then the handle waits for its
 * own slots again. */
static void a_begun_wait_keeps_its_meaning(uint32_t waiter) {
    struct stage stage;
    uint64_t held = 0, free_of = 0;
    open_stage(&stage, NEXT, waiter);
    begin_reading(&stage.scene);
    citrus_handle *const mine = &stage.scene.mine;
    keep_back(mine, BEGINS_TO_WAIT + 8);
    WANT(citrus_begin(mine, TOP, TOP, &free_of), CITRUS_DONE);
    keep_back(mine, MANY);
    WANT(ask(mine, free_of), waiter == CITRUS_EER || TOP % 64 != NEXT % 64 ? CITRUS_DONE : CITRUS_UNCHANGED);
    WANT(citrus_begin(mine, NEXT, NEXT, &held), CITRUS_DONE);
    const uint64_t waits = numbers_of(mine).waits;
    for (uint64_t more = 1; more <= MANY && !wrong_here; more++) {
        keep_back(mine, MANY + more);
        WANT(citrus_poll(mine, held), CITRUS_UNCHANGED);
    }
    WANT(numbers_of(mine).waits, waits);
    leave(&stage.scene);
    WANT(ask(mine, held), CITRUS_DONE);
    WANT(citrus_poll(mine, held), CITRUS_MOVED);
    const uint64_t kept = numbers_of(mine).kept;
    uint64_t old = UNTOUCHED;
    for (int turn = 0; turn < 3; turn++) {
        WANT(citrus_insert(mine, HIGH, 1), CITRUS_DONE);
        WANT(citrus_remove(mine, HIGH, &old), CITRUS_DONE);
    }
    WANT(numbers_of(mine).waits > waits, 1);
    WANT(numbers_of(mine).kept < kept, 1);
    end_stage(&stage);
}

static uint64_t tickets_of(citrus_handle *handle) { return numbers_of(handle).tickets; }

/* An insert and a remove use 4 tickets and one for the handle's own wait, and an insert that turns nodes 72 more; beside a reader and without one. */
static void tickets_of_updates(uint32_t waiter) {
    enum { MOST = 5, TURNS = 72, COUNT = 2000 };
    struct stage stage;
    uint64_t old = UNTOUCHED, before = 0;
    for (int stays = 0; stays < 2; stays++) {
        open_stage(&stage, NEXT, waiter);
        if (stays) begin_reading(&stage.scene);
        citrus_handle *const mine = &stage.scene.mine;
        for (uint64_t i = 0; i < COUNT && !wrong_here; i++) {
            const uint64_t key = HIGH + i % 7;
            before = tickets_of(mine);
            WANT(citrus_insert(mine, key, i), CITRUS_DONE);
            WANT(before - tickets_of(mine) <= MOST + TURNS, 1);
            before = tickets_of(mine);
            WANT(citrus_remove(mine, key, &old), CITRUS_DONE);
            WANT(before - tickets_of(mine) <= MOST, 1);
        }
        if (stays) leave(&stage.scene);
        end_stage(&stage);
    }
}

static const struct waiter_case cases[] = {
    {"a node goes down beside a reader of the next key", a_node_goes_down_beside_a_reader_of_the_next_key},
    {"a node goes down for a take", a_node_goes_down_for_a_take},
    {"a node goes down behind waits too", a_node_goes_down_behind_waits_too},
    {"with fewer slots it waits", with_fewer_slots_it_waits},
    {"a held pair goes beside its reader", a_held_pair_goes_beside_its_reader},
    {"all pairs go wherever the reader is", all_pairs_go_wherever_the_reader_is},
    {"a begun wait keeps its meaning", a_begun_wait_keeps_its_meaning},
    {"tickets of updates", tickets_of_updates},
};

int main(void) {
    run_waiter_cases(cases, COUNT_OF(cases));
    return failed_cases != 0;
}
