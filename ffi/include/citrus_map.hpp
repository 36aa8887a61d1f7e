// A map whose values are objects, for C++17, over citrus.hpp: threads read them in place, and whoever takes one out gets it as a
// `std::unique_ptr` once its readers are gone.
//
//     citrus::map<std::string> mine(100000, 2);              // for 100,000 pairs and two map objects: this is the first
//     citrus::map<std::string> other = mine.share();         // for the second thread
//     mine.insert(5, std::make_unique<std::string>("five"));
//     if (auto text = mine.get(5)) std::cout << *text;       // it stays until `text` ends
//     for (const auto &[key, text] : mine.range(1, 9)) std::cout << *text;
//     std::unique_ptr<std::string> gone = mine.remove(5);
//
// Keys are 64-bit numbers, and those of `citrus::map<K, T>` are of a type of yours, as citrus_key.hpp says:
//
//     citrus::map<std::pair<int32_t, uint32_t>, std::string> rows(100000, 2);
//     rows.insert({-1, 5}, std::make_unique<std::string>("minus one, five"));
//
// What is left to owe beside what citrus.hpp says:
//   - a map object outlives the held values and the ranges that it gave, and what a held value leads to isn't used when that has ended;
//   - while a thread has a held value of one map object it makes no update by another one of the same map. By the same one it can't: holds is
//     thrown;
//   - the destructor of an object makes no call of the map that has it, nor does what `update`, `remove_if`, `retire_if` and
//     `retain` call.
#ifndef CITRUS_MAP_HPP
#define CITRUS_MAP_HPP

#include "citrus_key.hpp"
// In an older language citrus.hpp says so, and this one says nothing more.
#if __cplusplus >= 201703L
#include "citrus_turns.hpp"
#include <algorithm>
#include <atomic>
#include <memory>
#include <thread>

namespace citrus {

// Whether the updates of a map's objects go beside each other, or take turns: see citrus_turns.hpp.
enum class updates { beside, in_turn };

// A value that is read, and stays meanwhile; or none. It is for a moment, as a lock is: updates of its key wait for it.
template <class T> class held {
public:
    held() noexcept = default;

    explicit operator bool() const noexcept { return bool(within_); }
    const T &operator*() const noexcept { return *get(); }
    const T *operator->() const noexcept { return get(); }
    const T *get() const noexcept { return within_ ? reinterpret_cast<const T *>(uintptr_t(within_.value())) : nullptr; }

    // Ends it early, of a constant too: from then on it leads to nothing.
    void release() const noexcept { within_.leave(); }

private:
    template <class, class> friend class map;
    template <class, class> friend class held_range;
    explicit held(section &&within) noexcept : within_(std::move(within)) {}

    mutable section within_;
};

// A pair whose value is read.
template <class K, class T> struct held_pair {
    K key;
    held<T> value;
};

// The pairs of a key range, as `map::range` gives them: keys ascend from `begin` on, and descend from `rbegin` on. The keys are listed page by
// page, each of one moment, later than that of the page before, and the value of each is held when it comes to it, one at a time: so it is one
// that the key had since its page was listed, and a pair that is gone by then is left out. No key comes twice or out of order, and what is there
// all the time comes.
//
// While a value is held its map object makes no other call, as beside any held value; `release` of the value lets it, and the range goes on behind
// it. One pass is made at a time: another `begin`, or `rbegin`, takes the place of the one before.
template <class K, class T> class held_range {
    template <bool is_down> using pass = of_ranges::pass<is_down, of_ranges::by_handle>;

    template <bool is_down> class stepper {
    public:
        using iterator_category = std::input_iterator_tag;
        using value_type = held_pair<K, T>;
        using difference_type = std::ptrdiff_t;
        using pointer = const value_type *;
        using reference = const value_type &;

        stepper() noexcept = default;

        reference operator*() const noexcept { return *of_->now_; }
        pointer operator->() const noexcept { return &**this; }

        stepper &operator++() {
            of_->now_.reset();
            if (!of_->holds_next(of_->template pass_of<is_down>())) of_ = nullptr;
            return *this;
        }

        void operator++(int) { ++*this; }

        // Whether both are at the end, or both aren't.
        friend bool operator==(const stepper &one, const stepper &other) noexcept { return one.of_ == other.of_; }
        friend bool operator!=(const stepper &one, const stepper &other) noexcept { return one.of_ != other.of_; }

    private:
        friend class held_range;
        explicit stepper(held_range *of) noexcept : of_(of) {}

        held_range *of_ = nullptr;
    };

public:
    using iterator = stepper<false>;
    using reverse_iterator = stepper<true>;

    iterator begin() { return iterator(begins(up_) ? this : nullptr); }
    iterator end() noexcept { return iterator(); }
    reverse_iterator rbegin() { return reverse_iterator(begins(down_) ? this : nullptr); }
    reverse_iterator rend() noexcept { return reverse_iterator(); }

private:
    template <class, class> friend class map;
    held_range(handle &by, uint64_t low, uint64_t high, size_t room) noexcept : by_(&by), up_({by_}, low, high, room), down_({by_}, low, high, room) {}

    handle *by_;
    pass<false> up_;
    pass<true> down_;
    std::optional<held_pair<K, T>> now_;

    template <bool is_down> auto &pass_of() noexcept {
        if constexpr (is_down) return down_;
        else return up_;
    }

    template <class Pass> bool begins(Pass &at) {
        now_.reset();
        return at.begin() && (holds(at.now().key) || holds_next(at));
    }

    // Goes on to the next pair that is there still, if there is one.
    template <class Pass> bool holds_next(Pass &at) {
        while (at.step())
            if (holds(at.now().key)) return true;
        return false;
    }

    bool holds(uint64_t word) {
        section within = by_->hold(word);
        if (!within) return false;
        now_.emplace(held_pair<K, T>{key_traits<K>::decode(word), held<T>(std::move(within))});
        return true;
    }
};

// `map<T>` has keys of 64 bits, and `map<K, T>` those of a type of yours.
template <class K, class T = void> class map;

// One of the map objects of a map, for one thread at a time. The last of them drops all that is left. Calls throw as those of `handle`; a
// null pointer as a value is a bad_argument. Of a map object that was moved from nothing is called but an assignment.
template <class T> class map<T, void> {
public:
    // So many objects that were retired are kept at most.
    static constexpr size_t most_retired = 64;

    // A pair that was taken out, when the readers of its value are gone.
    struct popped {
        uint64_t key;
        std::unique_ptr<T> value;
    };

    // The first map object of a new map, in which so many pairs always fit. Throws bad_argument or no_memory.
    map(uint32_t pairs, uint32_t objects, waiter how = waiter::eer, updates go = updates::beside)
        : map(options{pairs, objects, how}, go) {}

    // The same by options, whose handles are its map objects.
    explicit map(const options &asked, updates go = updates::beside) : map(handle(asked), asked.handles, go) {}

    map(map &&) noexcept = default;

    map &operator=(map &&other) noexcept {
        if (this != &other) {
            close();
            own_ = std::move(other.own_);
        }
        return *this;
    }

    ~map() { close(); }

    // A second map object: with what a closed one had, or else one of those that are left to this one, with an even part of its tickets. The
    // first has all that are left. Throws no_handle where there is none.
    map share() {
        std::optional<handle> again = own_->at.reopen();
        return map(std::make_unique<own>(again ? std::move(*again) : own_->at.share(), own_->all));
    }

    // The key's value, where it is present. It takes no lock and waits for nobody.
    [[nodiscard]] held<T> get(uint64_t key) { return held<T>(own_->at.hold(key)); }

    // Whether the key is present.
    bool contains(uint64_t key) { return own_->at.contains(key); }

    // The least key, if there is one, and the least at or above `low`; the greatest, and the greatest at or below `high`.
    std::optional<uint64_t> first_key() { return first_key_from(0); }
    std::optional<uint64_t> first_key_from(uint64_t low) { return key_of(own_->at.first_from(low)); }
    std::optional<uint64_t> last_key() { return last_key_to(UINT64_MAX); }
    std::optional<uint64_t> last_key_to(uint64_t high) { return key_of(own_->at.last_to(high)); }

    // The same with its value, which is held as by `get`. The key was the first, or the last, at a moment of the call.
    [[nodiscard]] std::optional<held_pair<uint64_t, T>> first() { return first_from(0); }
    [[nodiscard]] std::optional<held_pair<uint64_t, T>> first_from(uint64_t low) {
        return found_by([this, low] { return first_key_from(low); });
    }
    [[nodiscard]] std::optional<held_pair<uint64_t, T>> last() { return last_to(UINT64_MAX); }
    [[nodiscard]] std::optional<held_pair<uint64_t, T>> last_to(uint64_t high) {
        return found_by([this, high] { return last_key_to(high); });
    }

    // The pairs of the range with their values, one by one, up by `begin` and down by `rbegin`: see `held_range`. Keys are listed by pages with
    // room for so many.
    held_range<uint64_t, T> range(uint64_t low = 0, uint64_t high = UINT64_MAX, size_t room = handle::page_room) {
        return range_of<uint64_t>(low, high, room);
    }

    // Whether there is no pair; and how many there are, counted as `handle::size` counts.
    bool empty() { return own_->at.empty(); }
    uint64_t size(uint64_t low = 0, uint64_t high = UINT64_MAX) { return own_->at.size(low, high); }

    // Whether the value was added: not where the key is there already, and then `value` keeps it, as it does where this throws, but for lost.
    bool insert(uint64_t key, std::unique_ptr<T> &&value) {
        const bool is_added = offer(value, [&](uint64_t object) { return own_->at.insert(key, object); });
        if (is_added) static_cast<void>(value.release());
        return is_added;
    }

    // Gives the key another value, where it is present: the value before, when its readers are gone. Where the key is absent `value` keeps
    // what it has.
    std::unique_ptr<T> replace(uint64_t key, std::unique_ptr<T> &&value) {
        make_room();
        const auto old = offer(value, [&](uint64_t object) { return own_->at.replace(key, object); });
        if (!old) return nullptr;
        static_cast<void>(value.release());
        return outwait({key, *old});
    }

    // Gives the key the std::unique_ptr<T> that `change` makes of its value, where it is present: the value before, when its readers are
    // gone. It is one update; where another thread gives the key another value meanwhile, what `change` made is dropped, and it is called
    // once more with that. It reads the value as a held one is read, so it is to be short.
    template <class Change> std::unique_ptr<T> update(uint64_t key, Change change) {
        make_room();
        for (;;) {
            held<T> found = get(key);
            if (!found) return nullptr;
            std::unique_ptr<T> value = change(*found);
            const uint64_t expected = address_of(found.get());
            const compared told = compare(key, std::move(found), expected, value);
            if (told == compared::absent) return nullptr;
            if (told == compared::done) return outwait({key, expected});
        }
    }

    // Gives the key this value: the value before, when its readers are gone, or none where the pair was added. Throws full or moved, and then
    // `value` keeps what it has.
    std::unique_ptr<T> upsert(uint64_t key, std::unique_ptr<T> &&value) {
        make_room();
        const auto old = offer(value, [&](uint64_t object) { return own_->at.upsert(key, object); });
        static_cast<void>(value.release());
        if (!old) return nullptr;
        return outwait({key, *old});
    }

    // Takes the pair out, where the key is present: its value, when its readers are gone. Where it throws then, the value is retired.
    std::unique_ptr<T> remove(uint64_t key) {
        make_room();
        const auto old = take_out(key);
        if (!old) return nullptr;
        return outwait({key, *old});
    }

    // Takes out the pair with the least key, or the least at or above `low`, or with the greatest, or the greatest at or below `high`, if there is
    // one: as those of `handle`.
    std::optional<popped> pop_first() { return pop_first_from(0); }
    std::optional<popped> pop_first_from(uint64_t low) {
        return pop([this, low] { return first_key_from(low); });
    }
    std::optional<popped> pop_last() { return pop_last_to(UINT64_MAX); }
    std::optional<popped> pop_last_to(uint64_t high) {
        return pop([this, high] { return last_key_to(high); });
    }

    // Takes the pair out, and returns whether it was there. Its value is dropped by a later call of this map object, when its readers are gone;
    // this one waits only where most_retired are kept, or the remove itself does (citrus.h).
    bool retire(uint64_t key) {
        make_room();
        const auto old = take_out(key);
        if (!old) return false;
        own_->retired.push_back({key, *old});
        settle();
        return true;
    }

    // Takes the pair out, or retires it, where the key is present and `goes(value)` says yes: as `remove` and `retire`. Where another thread
    // gives the key another value after that was asked, it is asked once more, with that one. It reads the value as a held one is read, so it is
    // to be short. Where the tree has to wait for readers, whoever takes the same value out meanwhile and waits for its readers waits for this
    // call too.
    template <class Goes> std::unique_ptr<T> remove_if(uint64_t key, Goes goes) {
        make_room();
        const auto old = take_while(key, goes);
        if (!old) return nullptr;
        return outwait({key, *old});
    }

    template <class Goes> bool retire_if(uint64_t key, Goes goes) {
        make_room();
        const auto old = take_while(key, goes);
        if (!old) return false;
        own_->retired.push_back({key, *old});
        settle();
        return true;
    }

    // Retires each pair with a key from low to high that `stays(key, value)` says no to, page by page as `handle::retain`; how many.
    template <class Stays> uint64_t retain(uint64_t low, uint64_t high, Stays stays) {
        uint64_t gone = 0;
        for (const citrus_pair &pair : own_->at.range(low, high))
            gone += retire_if(pair.key, [&](const T &value) { return !stays(pair.key, value); });
        return gone;
    }

    // Retires all pairs of the range, page by page; how many.
    uint64_t clear(uint64_t low = 0, uint64_t high = UINT64_MAX) {
        uint64_t gone = 0;
        for (const citrus_pair &pair : own_->at.range(low, high)) gone += retire(pair.key);
        return gone;
    }

    // Waits for the readers of all that was retired by this map object, and drops it.
    void flush() {
        if (own_->leaving.empty() && own_->retired.empty()) return;
        uint64_t low = UINT64_MAX, high = 0;
        widen(low, high, own_->leaving);
        widen(low, high, own_->retired);
        own_->at.wait(low, high);
        drop(own_->leaving);
        drop(own_->retired);
    }

private:
    static_assert(sizeof(T *) <= sizeof(uint64_t), "a value is the address of an object");

    struct taken_out {
        uint64_t key, object;
    };

    // The object with which a map object compares in an update or a take, or 0. Nobody drops it meanwhile: so at its address there is no other one,
    // which would be taken for it (Michael, "Hazard pointers: safe memory reclamation for lock-free objects", 2004). In lines of its own.
    struct alignas(128) hazard {
        std::atomic<bool> is_taken{false};
        std::atomic<uint64_t> object{0};
    };

    // What all map objects of a map share.
    struct common {
        std::atomic<size_t> users{0};
        std::vector<hazard> hazards;
        const updates go;
        turns update_turns;

        common(uint32_t objects, updates how) : hazards(objects), go(how) {}

        // There are as many as handles, and each is given back before its handle is.
        hazard &take_hazard() {
            for (size_t i = 0;; i = (i + 1) % hazards.size())
                if (!hazards[i].is_taken.exchange(true)) return hazards[i];
        }
    };

    // Where it is while the map object is moved, since held values lead to the handle.
    struct own {
        handle at;
        std::shared_ptr<common> all;
        hazard &compares;
        std::vector<taken_out> leaving; // the wait of the cookie is for the readers of these
        std::vector<taken_out> retired;
        uint64_t cookie = 0;

        own(handle &&open, std::shared_ptr<common> shared) : at(std::move(open)), all(std::move(shared)), compares(all->take_hazard()) {
            ++all->users;
        }

        ~own() { compares.is_taken = false; }
    };

    // While it is there, nobody drops the object.
    class kept {
    public:
        kept(hazard &at, uint64_t object) noexcept : at_(at) { at_.object = object; }
        kept(const kept &) = delete;
        kept &operator=(const kept &) = delete;
        ~kept() { at_.object = 0; }

    private:
        hazard &at_;
    };

    // No wait has this cookie.
    static constexpr uint64_t no_cookie = UINT64_MAX;

    template <class, class> friend class map;

    std::unique_ptr<own> own_;

    explicit map(std::unique_ptr<own> &&its) noexcept : own_(std::move(its)) {}

    template <class K> held_range<K, T> range_of(uint64_t low, uint64_t high, size_t room) { return {own_->at, low, high, room}; }

    map(handle &&first, uint32_t objects, updates go) : own_(std::make_unique<own>(std::move(first), std::make_shared<common>(objects, go))) {}

    static uint64_t address_of(const T *object) noexcept { return reinterpret_cast<uintptr_t>(object); }

    static std::optional<uint64_t> key_of(const std::optional<citrus_pair> &pair) noexcept {
        if (!pair) return std::nullopt;
        return pair->key;
    }

    // Makes an update of the index: in its turn, where updates take turns. Whoever has one may wait for the section of this map object, so
    // where it is in one it is refused before it asks for a turn.
    template <class Update> auto in_turn(Update update) {
        if (own_->all->go == updates::beside) return update();
        static_cast<void>(own_->at.poll(no_cookie));
        const std::lock_guard<turns> turn(own_->all->update_turns);
        return update();
    }

    std::optional<uint64_t> take_out(uint64_t key) {
        return in_turn([&] { return own_->at.remove(key); });
    }

    // Where a call gave up, the object may be in the index, so it is left there.
    template <class Call> auto offer(std::unique_ptr<T> &value, Call call) {
        if (!value) throw error(fault::bad_argument);
        try {
            return in_turn([&] { return call(address_of(value.get())); });
        } catch (const error &told) {
            if (told.why() == fault::lost) static_cast<void>(value.release());
            throw;
        }
    }

    // Gives the key this value where it has the expected one still, which was held until now: whoever took that out waits for the hold, and
    // then for the hazard.
    compared compare(uint64_t key, held<T> &&found, uint64_t expected, std::unique_ptr<T> &value) {
        const kept until_told(own_->compares, expected);
        found.release();
        uint64_t other = expected;
        const compared told = offer(value, [&](uint64_t object) { return own_->at.compare_exchange(key, other, object); });
        if (told == compared::done) static_cast<void>(value.release());
        return told;
    }

    // Takes the pair out while `goes` says yes to its value; the object. It is the one that was asked about, which is kept as `compare` keeps it.
    template <class Goes> std::optional<uint64_t> take_while(uint64_t key, Goes &goes) {
        for (;;) {
            held<T> found = get(key);
            if (!found || !goes(*found)) return std::nullopt;
            const uint64_t object = address_of(found.get());
            const kept until_told(own_->compares, object);
            found.release();
            uint64_t other = object;
            const compared told = in_turn([&] { return own_->at.take(key, other); });
            if (told == compared::done) return object;
            if (told == compared::absent) return std::nullopt;
        }
    }

    // Another map object may take the pair out whose key was found first.
    template <class Find> std::optional<held_pair<uint64_t, T>> found_by(Find find) {
        while (const std::optional<uint64_t> key = find())
            if (held<T> value = get(*key)) return held_pair<uint64_t, T>{*key, std::move(value)};
        return std::nullopt;
    }
    template <class Find> std::optional<popped> pop(Find find) {
        while (const std::optional<uint64_t> key = find())
            if (std::unique_ptr<T> value = remove(*key)) return popped{*key, std::move(value)};
        return std::nullopt;
    }

    // Before a value is taken out, so that nothing fails between that and its place among the retired.
    void make_room() {
        if (own_->retired.size() == own_->retired.capacity()) own_->retired.reserve(own_->retired.size() + most_retired);
    }

    std::unique_ptr<T> outwait(taken_out gone) {
        own_->retired.push_back(gone);
        own_->at.wait(gone.key, gone.key);
        own_->retired.pop_back();
        return give_up(gone.object);
    }

    // Whether a map object compares with this object, which was taken out and has no readers. Where none does, none will.
    bool is_compared(uint64_t object) const noexcept {
        const auto &all = own_->all->hazards;
        return std::any_of(all.begin(), all.end(), [object](const hazard &one) { return one.object == object; });
    }

    // An object whose readers are gone, once nobody compares with it. Who does waits for no update of this map object, which has no lock
    // here. But a take may have to wait for readers first.
    std::unique_ptr<T> give_up(uint64_t object) noexcept {
        while (is_compared(object)) std::this_thread::yield();
        return std::unique_ptr<T>(reinterpret_cast<T *>(uintptr_t(object)));
    }

    // Drops those whose readers are gone, and begins a wait for the next ones.
    void settle() {
        own &now = *own_;
        if (!now.leaving.empty()) {
            const progress told = now.at.poll(now.cookie);
            if (told == progress::over) drop_left(now.leaving);
            if (told == progress::displaced) begin(now.leaving);
        }
        if (now.leaving.empty() && !now.retired.empty()) {
            now.leaving.swap(now.retired);
            begin(now.leaving);
        }
        if (now.leaving.size() + now.retired.size() >= most_retired) flush();
    }

    void begin(const std::vector<taken_out> &gone) {
        uint64_t low = UINT64_MAX, high = 0;
        widen(low, high, gone);
        own_->cookie = own_->at.begin(low, high);
    }

    // To a range that has the keys of all these.
    static void widen(uint64_t &low, uint64_t &high, const std::vector<taken_out> &gone) noexcept {
        for (const taken_out &one : gone) {
            low = std::min(low, one.key);
            high = std::max(high, one.key);
        }
    }

    // Drops what nobody compares with: a retire waits for nobody. What stays is asked about by a wait more.
    void drop_left(std::vector<taken_out> &list) noexcept {
        const auto gone = std::partition(list.begin(), list.end(), [this](const taken_out &one) { return is_compared(one.object); });
        std::for_each(gone, list.end(), [this](const taken_out &one) { give_up(one.object); });
        list.erase(gone, list.end());
    }

    void drop(std::vector<taken_out> &list) noexcept {
        for (const taken_out &one : std::exchange(list, {})) give_up(one.object);
    }

    // What can't be waited for, or listed, is leaked.
    void close() noexcept {
        if (!own_) return;
        try {
            flush();
        } catch (const std::exception &) {
        }
        try {
            if (--own_->all->users == 0) drop_all();
        } catch (const std::exception &) {
        }
        own_.reset();
    }

    // There is no other map object, so nobody reads or updates.
    void drop_all() {
        for (const citrus_pair &pair : own_->at.range()) give_up(pair.value);
    }
};

// The same with keys of a type of yours: each call is that of `map<T>` with its name, by the key's word, which is made once. A range goes from
// its low key to its high one, both among it, and where one isn't said it has no end there.
template <class K, class T> class map {
    static_assert(needs_key<K>());
    using traits = key_traits<K>;
    using by_word = map<T>;
    using passed_key = of_keys::passed<K>;

public:
    static constexpr size_t most_retired = by_word::most_retired;

    // A pair that was taken out, when the readers of its value are gone.
    struct popped {
        K key;
        std::unique_ptr<T> value;
    };

    // The first map object of a new map.
    map(uint32_t pairs, uint32_t objects, waiter how = waiter::eer, updates go = updates::beside) : its_(pairs, objects, how, go) {}
    explicit map(const options &asked, updates go = updates::beside) : its_(asked, go) {}

    map share() { return map(its_.share()); }

    [[nodiscard]] held<T> get(passed_key key) { return its_.get(traits::encode(key)); }
    bool contains(passed_key key) { return its_.contains(traits::encode(key)); }

    std::optional<K> first_key() { return key_of(its_.first_key()); }
    std::optional<K> first_key_from(passed_key low) { return key_of(its_.first_key_from(traits::encode(low))); }
    std::optional<K> last_key() { return key_of(its_.last_key()); }
    std::optional<K> last_key_to(passed_key high) { return key_of(its_.last_key_to(traits::encode(high))); }

    [[nodiscard]] std::optional<held_pair<K, T>> first() { return held_of(its_.first()); }
    [[nodiscard]] std::optional<held_pair<K, T>> first_from(passed_key low) { return held_of(its_.first_from(traits::encode(low))); }
    [[nodiscard]] std::optional<held_pair<K, T>> last() { return held_of(its_.last()); }
    [[nodiscard]] std::optional<held_pair<K, T>> last_to(passed_key high) { return held_of(its_.last_to(traits::encode(high))); }

    held_range<K, T> range() { return its_.template range_of<K>(0, UINT64_MAX, handle::page_room); }
    held_range<K, T> range(passed_key low) { return its_.template range_of<K>(traits::encode(low), UINT64_MAX, handle::page_room); }
    held_range<K, T> range(passed_key low, passed_key high, size_t room = handle::page_room) {
        return its_.template range_of<K>(traits::encode(low), traits::encode(high), room);
    }

    bool empty() { return its_.empty(); }
    uint64_t size() { return its_.size(); }
    uint64_t size(passed_key low) { return its_.size(traits::encode(low)); }
    uint64_t size(passed_key low, passed_key high) { return its_.size(traits::encode(low), traits::encode(high)); }

    bool insert(passed_key key, std::unique_ptr<T> &&value) { return its_.insert(traits::encode(key), std::move(value)); }
    std::unique_ptr<T> replace(passed_key key, std::unique_ptr<T> &&value) { return its_.replace(traits::encode(key), std::move(value)); }
    std::unique_ptr<T> upsert(passed_key key, std::unique_ptr<T> &&value) { return its_.upsert(traits::encode(key), std::move(value)); }
    template <class Change> std::unique_ptr<T> update(passed_key key, Change change) {
        return its_.update(traits::encode(key), std::move(change));
    }
    std::unique_ptr<T> remove(passed_key key) { return its_.remove(traits::encode(key)); }

    std::optional<popped> pop_first() { return popped_of(its_.pop_first()); }
    std::optional<popped> pop_first_from(passed_key low) { return popped_of(its_.pop_first_from(traits::encode(low))); }
    std::optional<popped> pop_last() { return popped_of(its_.pop_last()); }
    std::optional<popped> pop_last_to(passed_key high) { return popped_of(its_.pop_last_to(traits::encode(high))); }

    bool retire(passed_key key) { return its_.retire(traits::encode(key)); }

    template <class Goes> std::unique_ptr<T> remove_if(passed_key key, Goes goes) { return its_.remove_if(traits::encode(key), std::move(goes)); }
    template <class Goes> bool retire_if(passed_key key, Goes goes) { return its_.retire_if(traits::encode(key), std::move(goes)); }

    template <class Stays> uint64_t retain(passed_key low, passed_key high, Stays stays) {
        const auto stay = [&](uint64_t word, const T &value) { return stays(traits::decode(word), value); };
        return its_.retain(traits::encode(low), traits::encode(high), stay);
    }

    uint64_t clear() { return its_.clear(); }
    uint64_t clear(passed_key low) { return its_.clear(traits::encode(low)); }
    uint64_t clear(passed_key low, passed_key high) { return its_.clear(traits::encode(low), traits::encode(high)); }

    void flush() { its_.flush(); }

private:
    by_word its_;

    explicit map(by_word &&its) noexcept : its_(std::move(its)) {}

    static std::optional<K> key_of(const std::optional<uint64_t> &word) noexcept {
        if (!word) return std::nullopt;
        return traits::decode(*word);
    }

    static std::optional<held_pair<K, T>> held_of(std::optional<held_pair<uint64_t, T>> &&one) noexcept {
        if (!one) return std::nullopt;
        return held_pair<K, T>{traits::decode(one->key), std::move(one->value)};
    }

    static std::optional<popped> popped_of(std::optional<typename by_word::popped> &&one) noexcept {
        if (!one) return std::nullopt;
        return popped{traits::decode(one->key), std::move(one->value)};
    }
};

} // namespace citrus

#endif
#endif
