// Dictionaries of libcds over its RCU: the skip list, and the search tree of Ellen and others.
#include <cds/init.h>
#include <cds/threading/model.h>
#include <cds/urcu/general_buffered.h>
#include <cds/container/ellen_bintree_map_rcu.h>
#include <cds/container/skip_list_map_rcu.h>
#include "client.hpp"
#include "measuring.hpp"
#include <optional>

using Gc = cds::urcu::gc<cds::urcu::general_buffered<>>;

struct SkipTraits : cds::container::skip_list::traits {
    using less = std::less<uint64_t>;
};

struct EllenTraits : cds::container::ellen_bintree::traits {
    using less = std::less<uint64_t>;
};

using SkipMap = cds::container::SkipListMap<Gc, uint64_t, uint64_t, SkipTraits>;
using EllenMap = cds::container::EllenBinTreeMap<Gc, uint64_t, uint64_t, EllenTraits>;

template <class Map> class CdsMap {
public:
    explicit CdsMap(const Room &) {}

    std::optional<uint64_t> get(uint64_t key) {
        std::optional<uint64_t> value;
        map_.find(key, [&](auto &pair) { value = pair.second; });
        return value;
    }

    bool put(uint64_t key, uint64_t value) { return map_.insert(key, value); }
    bool del(uint64_t key) { return map_.erase(key); }

    // A thread is known to libcds as long as its client lives.
    class Client {
    public:
        explicit Client(CdsMap &map) : map_(map) { cds::threading::Manager::attachThread(); }
        Client(const Client &) = delete;
        ~Client() { cds::threading::Manager::detachThread(); }
        bool may_call() const { return true; }
        uint64_t call(const Op &op) { return PlainClient<CdsMap>{map_}.call(op); }

    private:
        CdsMap &map_;
    };

    Client client(uint32_t) { return Client(*this); }

private:
    Map map_;
};

template <class Map> void measure_map(const char *name, const Options &options) {
    measure_all(name, options, [](const Room &room) { return std::make_unique<CdsMap<Map>>(room); });
}

int main(int count, char **words) {
    const Options options = options_of(count, words);
    cds::Initialize();
    {
        Gc gc;
        cds::threading::Manager::attachThread();
        measure_map<SkipMap>("libcds skip list", options);
        measure_map<EllenMap>("libcds Ellen tree", options);
        cds::threading::Manager::detachThread();
    }
    cds::Terminate();
}
