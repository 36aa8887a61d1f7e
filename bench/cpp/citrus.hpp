// CITRUS as Arbel and Attiya have it (Concurrent updates with RCU: search tree as an example, PODC 2014), in plain C++: nodes of one
// line, pointers, acquire and release, and no node is used again, so that an update waits for readers only where a node with two
// children goes. There is no number of updates, no second generation of a node, and no proof: it is the limit for a tree of this kind.
#pragma once
#include "backoff.hpp"
#include <array>
#include <deque>
#include <optional>
#include <vector>

enum Side { LeftSide, RightSide };

class Rcu {
public:
    explicit Rcu(uint32_t threads) : times_(threads) {}

    // A time is even in a section. The first load of the section must not come before the time is seen.
    void enter(uint32_t thread) {
        auto &time = times_[thread].value;
        time.exchange(time.load(std::memory_order_relaxed) + 1);
    }

    void leave(uint32_t thread) {
        auto &time = times_[thread].value;
        time.store(time.load(std::memory_order_relaxed) + 1, std::memory_order_release);
    }

    // Waits until every section that has begun is over.
    void synchronize() {
        order_all();
        for (Time &time : times_) {
            const uint64_t then = time.value.load(std::memory_order_acquire);
            Backoff backoff;
            while (then % 2 == 0 && time.value.load(std::memory_order_acquire) == then) backoff.snooze();
        }
    }

private:
    struct alignas(128) Time {
        Atomic<uint64_t> value{1};
    };
    std::vector<Time> times_;
};

struct alignas(64) CitrusNode {
    Atomic<CitrusNode *> child[2];
    uint64_t key, value;
    Atomic<uint32_t> tag[2];
    Atomic<bool> locked, marked;

    void lock() {
        Backoff backoff;
        while (locked.exchange(true, std::memory_order_acquire)) backoff.snooze();
    }

    void unlock() { locked.store(false, std::memory_order_release); }

    CitrusNode *below(Side side) const { return child[side].load(std::memory_order_acquire); }
    void link(Side side, CitrusNode *node) { child[side].store(node, std::memory_order_release); }
    void raise_tag(Side side) { tag[side].store(tag[side].load(std::memory_order_relaxed) + 1, std::memory_order_release); }
};
static_assert(sizeof(CitrusNode) == 64);

// What a thread makes nodes from. None is given back.
class Nodes {
public:
    CitrusNode *make(uint64_t key, uint64_t value) {
        if (chunks_.empty() || used_ == chunks_.back().size()) {
            chunks_.emplace_back(1024);
            used_ = 0;
        }
        CitrusNode *node = &chunks_.back()[used_++];
        node->key = key;
        node->value = value;
        return node;
    }

private:
    std::deque<std::vector<CitrusNode>> chunks_;
    size_t used_ = 0;
};

class Citrus {
public:
    explicit Citrus(uint32_t threads) : rcu_(threads), nodes_(threads) {}

    std::optional<uint64_t> get(uint32_t thread, uint64_t key) {
        rcu_.enter(thread);
        const Path path = descend(key);
        std::optional<uint64_t> value;
        if (path.node) value = path.node->value;
        rcu_.leave(thread);
        return value;
    }

    bool put(uint32_t thread, uint64_t key, uint64_t value) {
        for (;;) {
            rcu_.enter(thread);
            const Path path = descend(key);
            const uint32_t tag = path.parent->tag[path.side].load(std::memory_order_acquire);
            rcu_.leave(thread);
            if (path.node) return false;
            Held held;
            held.lock(path.parent);
            if (!holds(path, tag)) continue;
            path.parent->link(path.side, nodes_[thread].nodes.make(key, value));
            return true;
        }
    }

    bool del(uint32_t thread, uint64_t key) {
        for (;;) {
            rcu_.enter(thread);
            const Path path = descend(key);
            rcu_.leave(thread);
            if (!path.node) return false;
            Held held;
            held.lock(path.parent);
            held.lock(path.node);
            if (!holds(path, 0)) continue;
            if (!path.node->below(LeftSide)) bypass(path, path.node->below(RightSide));
            else if (!path.node->below(RightSide)) bypass(path, path.node->below(LeftSide));
            else if (!shift(thread, path, held)) continue;
            return true;
        }
    }

private:
    struct Path {
        CitrusNode *parent, *node;
        Side side;
    };

    // Locks that are held until the end of the attempt: two parents, two nodes and a copy at most.
    class Held {
    public:
        Held() = default;
        Held(const Held &) = delete;
        ~Held() {
            while (count_ > 0) nodes_[--count_]->unlock();
        }
        void lock(CitrusNode *node) {
            node->lock();
            nodes_[count_++] = node;
        }

    private:
        std::array<CitrusNode *, 5> nodes_;
        uint32_t count_ = 0;
    };

    struct alignas(128) Own {
        Nodes nodes;
    };

    Path descend(uint64_t key) {
        Path path{&root_, root_.below(RightSide), RightSide};
        while (path.node && path.node->key != key) {
            const Side side = key < path.node->key ? LeftSide : RightSide;
            path = {path.node, path.node->below(side), side};
        }
        return path;
    }

    static bool holds(const Path &path, uint32_t tag) {
        if (path.parent->marked.load(std::memory_order_relaxed) || path.parent->below(path.side) != path.node) return false;
        if (path.node) return !path.node->marked.load(std::memory_order_relaxed);
        return path.parent->tag[path.side].load(std::memory_order_relaxed) == tag;
    }

    static void relink(CitrusNode *parent, Side side, CitrusNode *child) {
        parent->link(side, child);
        if (!child) parent->raise_tag(side);
    }

    static void bypass(const Path &path, CitrusNode *child) {
        path.node->marked.store(true, std::memory_order_relaxed);
        relink(path.parent, path.side, child);
    }

    // Puts a copy of the next node in the node's place, and takes that one out once no reader can be on the way to it.
    bool shift(uint32_t thread, const Path &path, Held &held) {
        Path next{path.node, path.node->below(RightSide), RightSide};
        while (CitrusNode *left = next.node->below(LeftSide)) next = {next.node, left, LeftSide};
        const uint32_t tag = next.node->tag[LeftSide].load(std::memory_order_acquire);
        const bool near = next.parent == path.node;
        if (!near) held.lock(next.parent);
        held.lock(next.node);
        if (!holds(next, 0) || !holds({next.node, nullptr, LeftSide}, tag)) return false;
        CitrusNode *copy = nodes_[thread].nodes.make(next.node->key, next.node->value);
        held.lock(copy);
        copy->link(LeftSide, path.node->below(LeftSide));
        copy->link(RightSide, path.node->below(RightSide));
        path.node->marked.store(true, std::memory_order_relaxed);
        path.parent->link(path.side, copy);
        rcu_.synchronize();
        next.node->marked.store(true, std::memory_order_relaxed);
        relink(near ? copy : next.parent, next.side, next.node->below(RightSide));
        return true;
    }

    CitrusNode root_{};
    Rcu rcu_;
    std::vector<Own> nodes_;
};
