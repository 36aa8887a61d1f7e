/* The same with liburcu and its hash table: `urcu THREADS PAIRS`. It is compiled once for each flavour: FLAVOUR is a name, URCU_HEADER its
 * header, and QUIESCENT is defined where threads have to say that they read nothing. */
#define _LGPL_SOURCE
#include "sections.h"
#include URCU_HEADER
#include <urcu/rculfhash.h>

struct pair {
    struct cds_lfht_node node;
    uint64_t key, value;
};

static struct cds_lfht *table;
static struct pair own[MOST_THREADS][OWN_KEYS];

static void begin_thread(void) { rcu_register_thread(); }
static void end_thread(void) { rcu_unregister_thread(); }

static void say_quiescent(void) {
#ifdef QUIESCENT
    rcu_quiescent_state();
#endif
}

static unsigned long hash_of(uint64_t key) {
    key ^= key >> 31;
    return key * UINT64_C(0x9e3779b97f4a7c15) >> 16;
}

static struct pair *pair_at(struct cds_lfht_node *node) { return caa_container_of(node, struct pair, node); }

static int has_key(struct cds_lfht_node *node, const void *key) { return pair_at(node)->key == *(const uint64_t *)key; }

static void look_up(struct worker *me) {
    volatile uint64_t sum = 0;
    for (int i = 0; i < OPERATIONS; i++) {
        const uint64_t key = drawn_key(me);
        struct cds_lfht_iter found;
        rcu_read_lock();
        cds_lfht_lookup(table, hash_of(key), has_key, &key, &found);
        struct cds_lfht_node *node = cds_lfht_iter_get_node(&found);
        if (node) sum += pair_at(node)->value;
        rcu_read_unlock();
    }
    say_quiescent();
}

static void enter(struct worker *me) {
    volatile uint64_t sum = 0;
    for (int i = 0; i < OPERATIONS; i++) {
        sum += some_key(me);
        rcu_read_lock();
        rcu_read_unlock();
    }
    say_quiescent();
}

static void change_one(struct worker *me) {
    struct pair *pair = &own[me->number][me->turn % OWN_KEYS];
    pair->key = own_key(me);
    pair->value = 1;
    cds_lfht_node_init(&pair->node);
    rcu_read_lock();
    cds_lfht_add(table, hash_of(pair->key), &pair->node);
    rcu_read_unlock();
    rcu_read_lock();
    cds_lfht_del(table, &pair->node);
    rcu_read_unlock();
}

static void change_and_wait(struct worker *me) {
    for (int i = 0; i < OPERATIONS; i++) {
        change_one(me);
        synchronize_rcu();
    }
}

/* A pair is put in again only after a wait, so there is one after as many as are there. */
static void change_and_wait_once(struct worker *me) {
    for (int i = 0; i < OPERATIONS; i++) change_one(me);
    synchronize_rcu();
}

static void wait_for_all(struct worker *me) {
    (void)me;
    for (int i = 0; i < OPERATIONS; i++) synchronize_rcu();
}

static const struct {
    const char *what;
    batch *of;
} kinds[] = {
    {"look up and hold", look_up},
    {"enter and leave", enter},
    {"add; take out; wait", change_and_wait},
    {"add; take out; one wait for 64", change_and_wait_once},
    {"wait for all", wait_for_all},
};

int main(int count, char **words) {
    if (count != 3) return 2;
    threads = (uint32_t)atoi(words[1]);
    pairs = strtoull(words[2], NULL, 10);
    rcu_register_thread();
    table = cds_lfht_new(32768, 32768, 0, CDS_LFHT_ACCOUNTING, NULL);
    struct pair *all = calloc(pairs, sizeof *all);
    if (!table || !all) abort();
    for (uint64_t i = 0; i < pairs; i++) {
        all[i].key = mixed(i);
        all[i].value = i;
        cds_lfht_node_init(&all[i].node);
        rcu_read_lock();
        cds_lfht_add(table, hash_of(all[i].key), &all[i].node);
        rcu_read_unlock();
    }
    rcu_unregister_thread();
    for (uint32_t i = 0; i < threads; i++) workers[i] = (struct worker){.state = i * 77 + 1, .number = i};
    for (size_t i = 0; i < sizeof kinds / sizeof kinds[0]; i++) measure(FLAVOUR, kinds[i].what, kinds[i].of);
}
