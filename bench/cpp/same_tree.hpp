// The search tree's calls: the atomic accesses of crates/citrus_tree on the same words, in the same order, and nothing else.
#pragma once
#include "tree_slots.hpp"

struct Spot {
    uint32_t slot;
    Field side;
    uint64_t generation, tag;
};

struct Node {
    uint32_t parent, slot;
    Field side;
    uint64_t parent_generation, generation, left, right;
};

struct Successor {
    uint32_t parent, slot;
    uint64_t parent_generation, generation;
};

struct Descent {
    bool found;
    uint32_t slot, parent;
    Field side;
};

// Slots whose locks are held, in the order in which they were taken.
struct Locks {
    uint32_t slots[4], count = 0;
    void add(uint32_t slot) { slots[count++] = slot; }
};

constexpr Field tag_of(Field side) { return side == Left ? LeftTag : RightTag; }
constexpr bool is_life(uint64_t life, uint64_t generation) { return life % 2 == 0 && life / 2 == generation; }

template <class W, class Ways = Spinning> class SameTree : public TreeSlots<W, Ways> {
    using Slots = TreeSlots<W, Ways>;

public:
    using Slots::Slots;

    // The value, or nothing.
    std::optional<uint64_t> get(TreeSeat &seat, uint64_t key) {
        const Descent end = descend(seat, key);
        std::optional<uint64_t> value;
        if (end.found) value = at(end.slot, Value).load();
        this->leave(seat);
        return value;
    }

    // The update's number, or 0 where the key is there or the tree is full.
    uint64_t put(TreeSeat &seat, uint64_t key, uint64_t value) {
        this->begin_call(seat);
        Backoff backoff;
        for (;;) {
            const Descent end = descend(seat, key);
            if (end.found) {
                this->leave(seat);
                if (seat.hand != 0) this->put_back(seat);
                return 0;
            }
            const Spot spot = leave_with_spot(seat, end);
            if (seat.hand == 0) {
                if (!this->take_slot(seat, spot.slot)) return 0;
                const uint32_t leaf = seat.hand;
                at(leaf, Key).store(key);
                at(leaf, Value).store(value);
                at(leaf, Left).store(0);
                at(leaf, Right).store(0);
            }
            const std::optional<uint64_t> number = link_leaf(seat, spot);
            if (number && *number != 0) return *number;
            if (number) {
                backoff.snooze();
            } else {
                give_way(seat);
                backoff = {};
            }
        }
    }

    // The update's number, or 0 where the key is absent.
    uint64_t del(TreeSeat &seat, uint64_t key) {
        this->begin_call(seat);
        this->make_room(seat);
        Backoff backoff;
        for (;;) {
            const Descent end = descend(seat, key);
            if (!end.found) {
                this->leave(seat);
                return 0;
            }
            Node node = load_node(end);
            std::optional<Successor> successor;
            if (node.left != 0 && node.right != 0) successor = load_successor(node);
            this->leave(seat);
            if (const uint64_t number = take_out(seat, key, node, successor)) return number;
            backoff.snooze();
        }
    }

protected:
    using Slots::at;

    // Both links of a slot, which are loaded together, by the side to which a search goes.
    struct Links {
        uint32_t ahead;
        uint64_t aside;
    };

    Links links(uint32_t slot, Field side) {
        const uint32_t left = uint32_t(at(slot, Left).load()), right = uint32_t(at(slot, Right).load());
        const uint32_t ahead = side == Left ? left : right;
        return {ahead, left ^ right ^ ahead};
    }

    Descent descend(TreeSeat &seat, uint64_t key) {
        this->enter(seat, key);
        uint32_t slot = 0;
        Field side = Right;
        Links links = this->links(0, Right);
        for (;;) {
            const uint32_t child = links.ahead;
            if (child == 0) return {false, slot, 0, side};
            const uint64_t found = at(child, Key).load();
            this->bring_near(links.aside);
            if (found == key) return {true, child, slot, side};
            slot = child;
            side = key < found ? Left : Right;
            links = this->links(slot, side);
        }
    }

    Spot leave_with_spot(TreeSeat &seat, const Descent &end) {
        const uint64_t tag = at(end.slot, tag_of(end.side)).load();
        const uint64_t life = at(end.slot, Life).load();
        this->leave(seat);
        return {end.slot, end.side, life / 2, tag};
    }

    Node load_node(const Descent &end) {
        const uint64_t parent_life = at(end.parent, Life).load(), life = at(end.slot, Life).load();
        const uint64_t left = at(end.slot, Left).load(), right = at(end.slot, Right).load();
        return {end.parent, end.slot, end.side, parent_life / 2, life / 2, left, right};
    }

    Successor load_successor(const Node &node) {
        uint32_t parent = node.slot, slot = node.right;
        while (const uint32_t left = at(slot, Left).load()) {
            parent = slot;
            slot = left;
        }
        const uint64_t parent_generation = parent == node.slot ? 0 : at(parent, Life).load() / 2;
        return {parent, slot, parent_generation, at(slot, Life).load() / 2};
    }

    bool try_lock(const TreeSeat &seat, uint32_t slot) { return Slots::exchange(at(slot, Lock), 0, seat.place + 1) == 0; }
    void unlock(uint32_t slot) { at(slot, Lock).store(0); }

    void unlock_all(Locks &locks) {
        while (locks.count > 0) unlock(locks.slots[--locks.count]);
    }

    // Makes the front odd. Where another's update has it odd, it is waited for, unless the caller gives way.
    std::optional<uint64_t> try_front(TreeSeat &seat, bool may_give_way) {
        Ways tries = this->tries(seat, CommonWord::Front);
        uint64_t expected = seat.front + seat.front % 2;
        for (;;) {
            const uint64_t found = Slots::exchange(this->front(), expected, expected + 1);
            seat.front = found == expected ? expected + 1 : found;
            if (found == expected) {
                tries.end();
                return found;
            }
            expected = found + found % 2;
            if (!tries.tries_on(found % 2 == 1, may_give_way)) return {};
        }
    }

    uint64_t open_front(TreeSeat &seat) { return *try_front(seat, false); }

    uint64_t close_front(TreeSeat &seat, uint64_t front) {
        seat.front = front + 2;
        this->front().store(front + 2);
        return (front + 2) / 2;
    }

    // A call that gives way ends, its caller yields the processor, and begins again.
    void give_way(TreeSeat &seat) {
        this->put_back(seat);
        yield_processor();
        this->begin_call(seat);
    }

    // The update's number, or 0 where the spot isn't as it was any more; or nothing where the caller gives way.
    std::optional<uint64_t> link_leaf(TreeSeat &seat, const Spot &spot) {
        if (!try_lock(seat, spot.slot)) return 0;
        const uint64_t life = at(spot.slot, Life).load(), link = at(spot.slot, spot.side).load();
        const uint64_t tag = at(spot.slot, tag_of(spot.side)).load();
        if (!is_life(life, spot.generation) || link != 0 || tag != spot.tag) {
            unlock(spot.slot);
            return 0;
        }
        const std::optional<uint64_t> front = try_front(seat, true);
        if (!front) {
            unlock(spot.slot);
            return {};
        }
        seat.tickets--;
        at(spot.slot, spot.side).store(seat.hand);
        seat.hand = 0;
        const uint64_t number = close_front(seat, *front);
        unlock(spot.slot);
        return number;
    }

    uint64_t take_out(TreeSeat &seat, uint64_t key, Node &node, const std::optional<Successor> &successor) {
        Locks wanted, locks;
        wanted.add(node.parent);
        wanted.add(node.slot);
        if (successor && successor->parent != node.slot) wanted.add(successor->parent);
        if (successor) wanted.add(successor->slot);
        for (uint32_t i = 0; i < wanted.count; i++) {
            if (!try_lock(seat, wanted.slots[i])) {
                unlock_all(locks);
                return 0;
            }
            locks.add(wanted.slots[i]);
        }
        if (!holds(node, successor)) {
            unlock_all(locks);
            return 0;
        }
        return successor ? shift(seat, key, node, *successor, locks) : bypass(seat, node);
    }

    // All words are loaded before they are judged. The node's links are then those that were found.
    bool holds(Node &node, const std::optional<Successor> &successor) {
        const uint64_t parent_life = at(node.parent, Life).load(), link = at(node.parent, node.side).load();
        const uint64_t life = at(node.slot, Life).load();
        const uint64_t left = at(node.slot, Left).load(), right = at(node.slot, Right).load();
        node.left = left;
        node.right = right;
        const bool few = left == 0 || right == 0;
        bool below = few;
        if (successor) {
            const bool near = successor->parent == node.slot;
            const uint64_t above_life = near ? 0 : at(successor->parent, Life).load();
            const uint64_t next_link = at(successor->parent, near ? Right : Left).load();
            const uint64_t next_life = at(successor->slot, Life).load(), next_left = at(successor->slot, Left).load();
            if (near) node.right = next_link;
            below = !few && (near || is_life(above_life, successor->parent_generation)) && next_link == successor->slot
                && is_life(next_life, successor->generation) && next_left == 0;
        }
        return is_life(parent_life, node.parent_generation) && link == node.slot && is_life(life, node.generation) && below;
    }

    void settle_side(uint32_t slot, Field side, uint64_t child) {
        if (child != 0) return;
        const uint64_t tag = at(slot, tag_of(side)).load();
        at(slot, tag_of(side)).store(tag + 1);
    }

    uint64_t bypass(TreeSeat &seat, const Node &node) {
        const uint64_t child = node.left == 0 ? node.right : node.left;
        at(node.slot, Life).store(2 * node.generation + 1);
        const uint64_t front = open_front(seat);
        seat.tickets--;
        at(node.parent, node.side).store(child);
        const uint64_t number = close_front(seat, front);
        settle_side(node.parent, node.side, child);
        unlock(node.slot);
        unlock(node.parent);
        seat.retired.push_back(node.slot);
        return number;
    }

    uint64_t shift(TreeSeat &seat, uint64_t key, const Node &node, const Successor &successor, Locks &locks) {
        const uint32_t copy = seat.spare;
        const uint64_t next_key = at(successor.slot, Key).load(), value = at(successor.slot, Value).load();
        at(copy, Key).store(next_key);
        at(copy, Value).store(value);
        at(copy, Left).store(node.left);
        at(copy, Right).store(node.right);
        at(copy, Life).load();
        if (!try_lock(seat, copy)) {
            unlock_all(locks);
            return 0;
        }
        at(node.slot, Life).store(2 * node.generation + 1);
        const uint64_t front = open_front(seat);
        seat.tickets--;
        seat.spare = 0;
        at(node.parent, node.side).store(copy);
        const uint64_t number = close_front(seat, front);
        this->wait(seat, {key + 1, next_key});
        at(successor.slot, Life).store(2 * successor.generation + 1);
        const uint64_t child = at(successor.slot, Right).load();
        const bool near = successor.parent == node.slot;
        const uint32_t above = near ? copy : successor.parent;
        at(above, near ? Right : Left).store(child);
        settle_side(above, near ? Right : Left, child);
        unlock(successor.slot);
        if (!near) unlock(successor.parent);
        unlock(copy);
        unlock(node.slot);
        unlock(node.parent);
        seat.retired.push_back(node.slot);
        seat.retired.push_back(successor.slot);
        return number;
    }
};
