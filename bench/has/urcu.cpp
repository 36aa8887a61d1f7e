// What liburcu's hash table cds_lfht has, for README's table: each line was tried here, by the flavour memb.
#include "tried.hpp"
#define RCU_MEMBARRIER
#include <algorithm>
#include <functional>
#include <string>
#include <thread>
#include <urcu.h>
#include <urcu/rculfhash.h>
#include <vector>

struct Entry {
    cds_lfht_node node{};
    rcu_head head{};
    std::string key;
};

static int freed = 0;

static Entry *entry_at(cds_lfht_node *node) { return caa_container_of(node, Entry, node); }

static int has_key(cds_lfht_node *node, const void *key) { return entry_at(node)->key == *static_cast<const std::string *>(key); }

static void drop(rcu_head *head) {
    delete caa_container_of(head, Entry, head);
    freed++;
}

class Table {
public:
    void add(const std::string &key) {
        auto *const entry = new Entry;
        entry->key = key;
        cds_lfht_add(table_, std::hash<std::string>{}(key), &entry->node);
    }

    cds_lfht_node *find(const std::string &key) {
        cds_lfht_iter found;
        cds_lfht_lookup(table_, std::hash<std::string>{}(key), has_key, &key, &found);
        return cds_lfht_iter_get_node(&found);
    }

    bool erase(cds_lfht_node *node) { return cds_lfht_del(table_, node) == 0; }

    std::vector<std::string> keys() {
        std::vector<std::string> all;
        cds_lfht_iter at;
        cds_lfht_first(table_, &at);
        for (; cds_lfht_iter_get_node(&at); cds_lfht_next(table_, &at)) all.push_back(entry_at(cds_lfht_iter_get_node(&at))->key);
        return all;
    }

private:
    cds_lfht *table_ = cds_lfht_new(1, 1, 0, CDS_LFHT_AUTO_RESIZE | CDS_LFHT_ACCOUNTING, nullptr);
};

int main() {
    rcu_register_thread();
    Table table;
    rcu_read_lock();
    for (int i = 0; i < 10000; i++) table.add(std::to_string(i));
    tried("keys of any type, and it grows from one bucket", table.find("5000") && table.keys().size() == 10000);
    const auto keys = table.keys();
    tried("a walk is in the order of hashes, so there is no range of keys", !std::is_sorted(keys.begin(), keys.end()));

    // Another thread takes an entry out while this one reads it.
    cds_lfht_node *const node = table.find("5000");
    std::thread([&] {
        rcu_register_thread();
        rcu_read_lock();
        tried("erase beside readers", table.erase(table.find("5000")));
        rcu_read_unlock();
        call_rcu(&entry_at(node)->head, drop);
        rcu_unregister_thread();
    }).join();
    tried("who reads an entry keeps it, and nobody finds it any more", freed == 0 && entry_at(node)->key == "5000" && !table.find("5000"));
    rcu_read_unlock();
    rcu_barrier();
    tried("it is freed when its readers are gone", freed == 1);
    rcu_unregister_thread();
}
