// A twin of the library, for faults inside it, which no proof would let through: calls of citrus.h over the same steps in C++, those of
// bench/cpp/same_tree.hpp with the first waiter. It makes no turns and has no lanes. TWIN_FAULT in the environment names a fault:
//   remove    a remove doesn't wait for the readers on their way to the successor
//   reclaim   slots are given back without a wait for all readers
//   list      a list doesn't look whether an update came in between
//   replace   a replace doesn't look, under the lock, whether the node was taken out
//   wait      a wait for some keys, as a caller makes it, waits for nobody
//   busy      an update that is busy was made
#include "../../bench/cpp/same_tree.hpp"
#include <citrus.h>
#include <cstdlib>
#include <cstring>
#include <mutex>
#include <shared_mutex>

static const char *const planted = getenv("TWIN_FAULT") ? getenv("TWIN_FAULT") : "";

static const bool is_wrong_at_remove = strcmp(planted, "remove") == 0, is_wrong_at_reclaim = strcmp(planted, "reclaim") == 0,
                  is_wrong_at_list = strcmp(planted, "list") == 0, is_wrong_at_replace = strcmp(planted, "replace") == 0,
                  is_wrong_at_wait = strcmp(planted, "wait") == 0, is_wrong_at_busy = strcmp(planted, "busy") == 0;

// The calling thread is in a wait of its program's.
static thread_local bool is_callers_wait = false;

struct FaultyEer : Eer<Spaced> {
    static bool poll(Words &words, Seat &seat, Grace &grace, uint32_t places) {
        const bool is_for_all = grace.keys.low == 0 && grace.keys.high == UINT64_MAX;
        if (is_callers_wait ? is_wrong_at_wait : is_for_all ? is_wrong_at_reclaim : is_wrong_at_remove) return true;
        return Eer::poll(words, seat, grace, places);
    }
};

using Pairs = std::vector<citrus_pair>;
using Found = std::optional<uint64_t>;

// It keeps no slots for what it puts next: it would wait for readers in a put to have some, which the library doesn't.
class KeepsNone : public Spinning {
public:
    static constexpr bool keeps_slots = false;
    using Spinning::Spinning;
};

class Twin : public SameTree<FaultyEer, KeepsNone> {
public:
    using SameTree::SameTree;

    // The key's value, in a section that goes on where it is present.
    Found hold(TreeSeat &seat, uint64_t key) {
        const Descent end = descend(seat, key);
        if (end.found) return at(end.slot, Value).load();
        this->leave(seat);
        return std::nullopt;
    }

    // The value before, where the key is present. It gets the other one where that is the expected one, if there is one.
    Found set(TreeSeat &seat, uint64_t key, uint64_t value, Found expected) {
        begin_call(seat);
        for (Backoff backoff;; backoff.snooze()) {
            const Descent end = descend(seat, key);
            const uint64_t generation = end.found ? at(end.slot, Life).load() / 2 : 0, before = end.found ? at(end.slot, Value).load() : 0;
            this->leave(seat);
            if (!end.found) return std::nullopt;
            if (expected && before != *expected) return before;
            if (!try_lock(seat, end.slot)) continue;
            const Found old = at(end.slot, Value).load();
            const bool is_there = is_wrong_at_replace || is_life(at(end.slot, Life).load(), generation);
            if (is_there && (!expected || old == expected)) {
                const uint64_t front = open_front(seat);
                at(end.slot, Value).store(value);
                close_front(seat, front);
            }
            unlock(end.slot);
            if (is_there) return old;
        }
    }

    // A slot that was taken out keeps its value as long as the place keeps it back.
    Found remove(TreeSeat &seat, uint64_t key) {
        begin_call(seat);
        this->make_room(seat);
        for (Backoff backoff;; backoff.snooze()) {
            const Descent end = descend(seat, key);
            if (!end.found) {
                this->leave(seat);
                return std::nullopt;
            }
            Node node = load_node(end);
            std::optional<Successor> successor;
            if (node.left != 0 && node.right != 0) successor = load_successor(node);
            this->leave(seat);
            if (take_out(seat, key, node, successor)) return at(node.slot, Value).load();
        }
    }

    // In four tries between two looks at the front, and then alone.
    Pairs list(TreeSeat &seat, uint64_t low, uint64_t high) {
        for (int tries = 0; tries < 4; tries++) {
            Pairs pairs;
            this->enter(seat, low);
            const uint64_t front = this->front().load();
            if (front % 2 == 0) walk(at(0, Right).load(), low, high, pairs);
            const bool is_same = front % 2 == 0 && (is_wrong_at_list || front == this->front().load());
            this->leave(seat);
            if (is_same) return pairs;
        }
        Pairs pairs;
        const uint64_t front = open_front(seat);
        walk(at(0, Right).load(), low, high, pairs);
        this->front().store(front);
        seat.front = front;
        return pairs;
    }

    using SameTree::enter, SameTree::leave, SameTree::wait;

private:
    // While a remove waits, the successor stands there twice, and the upper one counts: below it a key comes once more than it may.
    void walk(uint64_t slot, uint64_t low, uint64_t high, Pairs &pairs) {
        if (slot == 0) return;
        const uint64_t key = at(uint32_t(slot), Key).load();
        if (low < key) walk(at(uint32_t(slot), Left).load(), low, std::min(high, key - 1), pairs);
        if (low <= key && key <= high) pairs.push_back({key, at(uint32_t(slot), Value).load()});
        if (key < high) walk(at(uint32_t(slot), Right).load(), std::max(low, key + 1), high, pairs);
    }
};

// A handle keeps few slots back, so slots are soon used again.
enum { KEPT_BACK = 4, SLOTS_EACH = 9 };

struct Index {
    Twin tree;
    std::atomic<uint32_t> users{0}, places{0};

    Index(uint32_t pairs, uint32_t handles) : tree(pairs + SLOTS_EACH * handles, handles, KEPT_BACK) {}
};

struct Opened {
    Index *index;
    TreeSeat seat;
    uint32_t left;
    uint64_t low = 0, high = 0, cookie = 0, asked = 0;

    Opened(Index *of, uint32_t handles) : index(of), seat(of->tree.seat(of->places++, UINT64_MAX)), left(handles - 1) { ++of->users; }
    Twin &tree() { return index->tree; }
};

static Opened *opened(citrus_handle *handle) { return static_cast<Opened *>(handle->at); }

static int32_t told(const Found &found, uint64_t *value) {
    if (!found) return CITRUS_UNCHANGED;
    *value = *found;
    return CITRUS_DONE;
}

static int32_t told(const Pairs &pairs, bool last, uint64_t *key, uint64_t *value) {
    if (pairs.empty()) return CITRUS_UNCHANGED;
    const citrus_pair pair = last ? pairs.back() : pairs.front();
    *key = pair.key;
    *value = pair.value;
    return CITRUS_DONE;
}

int32_t citrus_open_with(citrus_handle *handle, const citrus_options *options) {
    citrus_close(handle);
    handle->at = new Opened(new Index(options->pairs, options->handles), options->handles);
    return CITRUS_DONE;
}

/* The twin keeps no slot back. */
int32_t citrus_open_keeping(citrus_handle *handle, const citrus_options *options, uint32_t) { return citrus_open_with(handle, options); }

int32_t citrus_share(citrus_handle *handle, uint32_t handles, uint64_t, citrus_handle *other) {
    Opened &mine = *opened(handle);
    if (handles > mine.left) return CITRUS_BAD_ARGUMENT;
    mine.left -= handles;
    citrus_close(other);
    other->at = new Opened(mine.index, handles);
    return CITRUS_DONE;
}

int32_t citrus_left(citrus_handle *handle, uint32_t *handles, uint64_t *tickets) {
    *handles = opened(handle)->left;
    *tickets = CITRUS_ALL_TICKETS;
    return CITRUS_DONE;
}

int32_t citrus_stats(citrus_handle *handle, citrus_numbers *stats) {
    if (stats->size != sizeof *stats) return CITRUS_BAD_ARGUMENT;
    *stats = {sizeof *stats, 0, 0, 0, CITRUS_ALL_TICKETS, 0, KEPT_BACK, 0, opened(handle)->left};
    return CITRUS_DONE;
}

void citrus_close(citrus_handle *handle) {
    Opened *const mine = opened(handle);
    if (mine && mine->seat.key) mine->tree().leave(mine->seat);
    if (mine && --mine->index->users == 0) delete mine->index;
    delete mine;
    handle->at = nullptr;
}

int32_t citrus_reopen(citrus_handle *, citrus_handle *) { return CITRUS_UNCHANGED; }

int32_t citrus_get(citrus_handle *handle, uint64_t key, uint64_t *value) { return told(opened(handle)->tree().get(opened(handle)->seat, key), value); }

// The twin's take isn't made by steps of its own: it looks, and then removes, while no other update is made.
static std::shared_mutex takes;

// Its steps yield by themselves. So that its callers are busy too, one update in sixteen is before it begins.
template <class Update> static int32_t busy_or(const Update &update) {
    static thread_local uint64_t calls = 0;
    const bool is_busy = ++calls % 16 == 0;
    if (is_busy && !is_wrong_at_busy) return CITRUS_BUSY;
    const std::shared_lock<std::shared_mutex> beside(takes);
    const int32_t status = update();
    return is_busy ? CITRUS_BUSY : status;
}

int32_t citrus_insert_once(citrus_handle *handle, uint64_t key, uint64_t value) {
    return busy_or([=] { return opened(handle)->tree().put(opened(handle)->seat, key, value) ? CITRUS_DONE : CITRUS_UNCHANGED; });
}

int32_t citrus_replace_once(citrus_handle *handle, uint64_t key, uint64_t value, uint64_t *old) {
    return busy_or([=] { return told(opened(handle)->tree().set(opened(handle)->seat, key, value, std::nullopt), old); });
}

static int32_t compare(citrus_handle *handle, uint64_t key, uint64_t expected, uint64_t value, uint64_t *found) {
    const Found before = opened(handle)->tree().set(opened(handle)->seat, key, value, expected);
    if (!before || *before == expected) return before ? CITRUS_DONE : CITRUS_UNCHANGED;
    *found = *before;
    return CITRUS_DIFFERENT;
}

int32_t citrus_compare_once(citrus_handle *handle, uint64_t key, uint64_t expected, uint64_t value, uint64_t *found) {
    return busy_or([=] { return compare(handle, key, expected, value, found); });
}

int32_t citrus_upsert_once(citrus_handle *handle, uint64_t key, uint64_t value, uint64_t *old) {
    for (;;) {
        if (citrus_replace(handle, key, value, old) == CITRUS_DONE) return CITRUS_DONE;
        if (citrus_insert(handle, key, value) == CITRUS_DONE) return CITRUS_NEW;
    }
}

int32_t citrus_remove_once(citrus_handle *handle, uint64_t key, uint64_t *old) {
    return busy_or([=] { return told(opened(handle)->tree().remove(opened(handle)->seat, key), old); });
}

int32_t citrus_take_once(citrus_handle *handle, uint64_t key, uint64_t expected, uint64_t *found) {
    const std::unique_lock<std::shared_mutex> alone(takes);
    Opened &mine = *opened(handle);
    const Found value = mine.tree().get(mine.seat, key);
    if (!value || *value == expected) return mine.tree().remove(mine.seat, key) ? CITRUS_DONE : CITRUS_UNCHANGED;
    *found = *value;
    return CITRUS_DIFFERENT;
}

int32_t citrus_list_once(citrus_handle *handle, uint64_t low, uint64_t high, citrus_pair *pairs, size_t room, size_t *count, uint64_t *next) {
    const Pairs found = opened(handle)->tree().list(opened(handle)->seat, low, high);
    *count = std::min(room, found.size());
    std::copy_n(found.begin(), *count, pairs);
    if (found.size() <= room) return CITRUS_DONE;
    *next = found[room].key;
    return CITRUS_MORE;
}

int32_t citrus_list_down_once(citrus_handle *handle, uint64_t low, uint64_t high, citrus_pair *pairs, size_t room, size_t *count,
                              uint64_t *next) {
    const Pairs found = opened(handle)->tree().list(opened(handle)->seat, low, high);
    *count = std::min(room, found.size());
    std::copy_n(found.rbegin(), *count, pairs);
    if (found.size() <= room) return CITRUS_DONE;
    *next = found[found.size() - 1 - room].key;
    return CITRUS_MORE;
}

int32_t citrus_first_once(citrus_handle *handle, uint64_t low, uint64_t *key, uint64_t *value) {
    return told(opened(handle)->tree().list(opened(handle)->seat, low, UINT64_MAX), false, key, value);
}

int32_t citrus_last_once(citrus_handle *handle, uint64_t low, uint64_t high, uint64_t *key, uint64_t *value) {
    return told(opened(handle)->tree().list(opened(handle)->seat, low, high), true, key, value);
}

int32_t citrus_tidy_once(citrus_handle *, uint64_t low, uint64_t, uint32_t, uint32_t *made, uint64_t *next) {
    *made = 0;
    *next = low;
    return CITRUS_DONE;
}

int32_t citrus_hold(citrus_handle *handle, uint64_t key, uint64_t *value) { return told(opened(handle)->tree().hold(opened(handle)->seat, key), value); }

int32_t citrus_release(citrus_handle *handle) {
    Opened *const mine = opened(handle);
    if (!mine || !mine->seat.key) return mine ? CITRUS_UNCHANGED : CITRUS_CLOSED;
    mine->tree().leave(mine->seat);
    return CITRUS_DONE;
}

int32_t citrus_begin(citrus_handle *handle, uint64_t low, uint64_t high, uint64_t *cookie) {
    Opened &mine = *opened(handle);
    mine.low = low;
    mine.high = high;
    *cookie = ++mine.cookie;
    return CITRUS_DONE;
}

int32_t citrus_poll(citrus_handle *handle, uint64_t cookie) {
    Opened &mine = *opened(handle);
    if (cookie != mine.cookie || mine.asked == cookie) return CITRUS_MOVED;
    mine.asked = cookie;
    is_callers_wait = true;
    mine.tree().wait(mine.seat, {mine.low, mine.high});
    is_callers_wait = false;
    return CITRUS_DONE;
}
