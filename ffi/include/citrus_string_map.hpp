// A map from strings, or any bytes, to objects, in the order of the bytes, for C++17, over citrus.hpp. Lookups take no lock, and values are read
// in place.
//
//     citrus::string_map<int> mine(200000, 2);                // for 200,000 pairs and two map objects: this is the first
//     citrus::string_map<int> other = mine.share();           // for the second thread
//     mine.insert("user:7", 70);
//     if (auto value = mine.get("user:7")) use(*value);       // it stays until `value` ends
//     mine.each_with("user:", [](std::string_view text, const int &value) { .. });
//     std::optional<int> gone = mine.remove("user:7");        // when its readers are gone
//
// How many pairs: one for each string, and one for each layer that stands (`layers`), which is made where two strings go on from one slice of
// theirs, 7 bytes at first and then 4. It has all that the strings have in common there, however long, and goes when its last string does. Where
// no string is removed layers are fewer than strings; ids and UUIDs need hardly any, URLs one for four strings. An update that makes one has two
// pairs more for a moment.
//
// What a range promises: strings ascend, and none comes twice. What stands in one layer is listed as it was at one moment, as far as a list has
// room, and each list is later than the one before. So a string that is there all the time is visited, one that isn't there at any time isn't,
// and the whole is of no one moment.
//
// Who chooses the strings can make a lookup as many searches as his string has slices, and layers: one for each 4 bytes of each string that is
// there, and no more. Then pairs run out, and inserts throw full. The ways of other strings get no longer, but for those that begin as his.
//
// What is left to owe beside what citrus.hpp says:
//   - a map object outlives the held values that it gave, and makes no update while one is there: holds is thrown;
//   - while a thread has a held value of one map object it makes no update by another one of the same map: it might wait for itself;
//   - what `each`, `update` and `remove_if` call is short, since it reads the value as a held one is read, and makes no call of the map; nor
//     does the destructor of a value.
// Who holds a value for long keeps back what others take out: removes of strings with the same first 7 bytes wait for him, and all removes for
// a visit. No insert and no get does.
#ifndef CITRUS_STRING_MAP_HPP
#define CITRUS_STRING_MAP_HPP

#include "citrus_string_layers.hpp"
// In an older language citrus.hpp says so, and this one says nothing more.
#if __cplusplus >= 201703L

namespace citrus {

// One of the map objects of a map, for one thread at a time. The last of them drops all that is left. Calls throw as those of `handle`. Of a map
// object that was moved from nothing is called but an assignment.
//
// A pair of its index leads to a leaf, which is a string with its value, or to a layer. Another index, which stays empty, has the sections: one
// with the string's first slice for each call, so that all who may come to an object say one key, and one for whoever goes through many. Who
// takes an object out waits for both, and compares with addresses in a section alone, where none is given out again. Five kinds of update are made:
//   - a leaf where there is none;
//   - a leaf by another one of the same string;
//   - a leaf, or a layer, by a layer that nobody knew and that has it and one leaf more;
//   - a leaf that is taken out, while it is the one that was seen;
//   - a layer without pairs by a mark. When all have left who may have seen it without, and it has no pair still, the mark is taken out. Whoever
//     is to add below a mark puts the layer back first.
// The crate `string_layers` proves of each history of such updates, sections and waits: at each moment the pairs stand for one map
// (`fronts_are_tries`), an update changes it at one string or nowhere (`updates_change_one`), and what a lookup ends with it said at a moment
// since its section was entered (`ways_end_with_what_was_said`).
template <class T> class string_map {
    using leaf = of_strings::leaf<T>;
    using own_leaf = of_strings::own_leaf<T>;
    using layer = of_strings::layer;
    using mark = of_strings::mark;
    using way = of_strings::way;

public:
    // So many objects that were taken out are kept at most, and a wait for their readers is begun when there are so many.
    static constexpr size_t most_retired = 64, retired_together = 16;
    // So many strings are visited in one section.
    static constexpr size_t page_room = 128;

    // A value that is read, and stays meanwhile; or none. It is for a moment, as a lock is.
    class held {
    public:
        held() noexcept = default;

        explicit operator bool() const noexcept { return bool(within_); }
        const T &operator*() const noexcept { return found_->value; }
        const T *operator->() const noexcept { return get(); }
        const T *get() const noexcept { return within_ ? &found_->value : nullptr; }
        std::string_view key() const noexcept { return within_ ? found_->text() : std::string_view(); }

        // Ends it early, of a constant too: from then on it leads to nothing.
        void release() const noexcept { within_.leave(); }

    private:
        friend class string_map;
        held(section &&within, const leaf *found) noexcept : within_(std::move(within)), found_(found) {}

        mutable section within_;
        const leaf *found_ = nullptr;
    };

    // A pair that was taken out, when the readers of its value are gone.
    struct popped {
        std::string key;
        T value;
    };

    // The first map object of a new map, in which so many pairs always fit: those of strings and of layers. Throws bad_argument or no_memory.
    string_map(uint32_t pairs, uint32_t objects, waiter how = waiter::eer) : string_map(options{pairs, objects, how}) {}

    // The same by options, whose handles are its map objects.
    explicit string_map(const options &asked)
        : own_(std::make_unique<own>(handle(asked), handle(1, asked.handles, asked.how), std::make_shared<common>())) {}

    string_map(string_map &&) noexcept = default;

    string_map &operator=(string_map &&other) noexcept {
        if (this != &other) {
            close();
            own_ = std::move(other.own_);
        }
        return *this;
    }

    ~string_map() { close(); }

    // A second map object: with what a closed one had, or else one of those that are left to this one. The first has all that are left. Throws
    // no_handle where there is none.
    string_map share() {
        if (std::optional<handles> spare = own_->all->take_spare())
            return string_map(std::make_unique<own>(std::move(spare->index), std::move(spare->domain), own_->all));
        handle domain = another(own_->domain);
        return string_map(std::make_unique<own>(another(own_->index), std::move(domain), own_->all));
    }

    // The string's value, where it is present. It takes no lock and waits for nobody.
    [[nodiscard]] held get(std::string_view text) {
        section within = own_->domain.enter(of_strings::section_key(text));
        way on(text);
        const leaf *const found = find(text, on);
        if (!found) return {};
        return held(std::move(within), found);
    }

    // Whether the string is present.
    bool contains(std::string_view text) { return bool(get(text)); }

    // Whether the pair was added: not where the string is there already. Throws full.
    bool insert(std::string_view text, T value) { return put(text, value, false).is_added; }

    // Gives the string this value: the value before, when its readers are gone, or none where the pair was added. Throws full.
    std::optional<T> upsert(std::string_view text, T value) {
        settle();
        return outwait(put(text, value, true).before);
    }

    // The same without a wait, and whether the pair was added. The value before is dropped by a later call of this map object.
    bool insert_or_assign(std::string_view text, T value) {
        const bool is_added = put(text, value, true).is_added;
        settle();
        return is_added;
    }

    // Gives the string the T that `change` makes of its value, where it is present: the value before, when its readers are gone. It is one
    // update; where another thread gives the string another value meanwhile `change` is called once more, with that.
    template <class Change> std::optional<T> update(std::string_view text, Change change) {
        settle();
        return outwait(exchange(text, change));
    }

    // Takes the pair out, where the string is present: its value, when its readers are gone. Where it throws then, the value is retired.
    std::optional<T> remove(std::string_view text) { return remove_if(text, any); }

    // Takes the pair out, and returns whether it was there. Its value is dropped by a later call of this map object, when its readers are gone;
    // this one waits only where most_retired are kept.
    bool retire(std::string_view text) { return retire_if(text, any); }

    // Takes the pair out, or retires it, where the string is present and `goes(value)` says yes. Where another thread gives the string another
    // value after that was asked, it is asked once more, with that one.
    template <class Goes> std::optional<T> remove_if(std::string_view text, Goes goes) {
        settle();
        return outwait(take_while(text, goes));
    }

    template <class Goes> bool retire_if(std::string_view text, Goes goes) {
        const bool was_there = take_while(text, goes) != nullptr;
        settle();
        return was_there;
    }

    // Calls `visit(text, value)` for each pair from `low` on and below `below`, in order, and returns how many there were. What it promises
    // stands above. The text is there as long as the value is.
    template <class Visit> uint64_t each(std::string_view low, std::string_view below, Visit visit) {
        return pages<false>(low, &below, UINT64_MAX, visit);
    }

    // The same from `low` on, and of all.
    template <class Visit> uint64_t each(std::string_view low, Visit visit) { return pages<false>(low, nullptr, UINT64_MAX, visit); }
    template <class Visit> uint64_t each(Visit visit) { return pages<false>({}, nullptr, UINT64_MAX, visit); }

    // The same of the strings that begin with this prefix.
    template <class Visit> uint64_t each_with(std::string_view prefix, Visit visit) {
        std::string below(prefix);
        while (!below.empty() && below.back() == static_cast<char>(UINT8_MAX)) below.pop_back();
        if (below.empty()) return each(prefix, visit);
        ++below.back();
        return each(prefix, below, visit);
    }

    // The same of the first ones from `low` on, so many at most.
    template <class Visit> uint64_t first(std::string_view low, uint64_t most, Visit visit) { return pages<false>(low, nullptr, most, visit); }

    // The same from the greatest string down: of all, and of those from `low` on and below `below`.
    template <class Visit> uint64_t each_down(Visit visit) { return pages<true>({}, nullptr, UINT64_MAX, visit); }
    template <class Visit> uint64_t each_down(std::string_view low, std::string_view below, Visit visit) {
        return pages<true>(low, &below, UINT64_MAX, visit);
    }

    // The least string, if there is one, and the least at or above `low`; the greatest, and the greatest at or below `high`: of the strings that
    // are there all the time, and perhaps a nearer one that came or went meanwhile.
    std::optional<std::string> first_key() { return key_of<false>({}, nullptr); }
    std::optional<std::string> first_key_from(std::string_view low) { return key_of<false>(low, nullptr); }
    std::optional<std::string> last_key() { return key_of<true>({}, nullptr); }
    std::optional<std::string> last_key_to(std::string_view high) {
        const std::string behind = std::string(high) + '\0';
        const std::string_view below(behind);
        return key_of<true>({}, &below);
    }

    // The same with its value, which is held as by `get`.
    [[nodiscard]] held first() { return first_from({}); }
    [[nodiscard]] held first_from(std::string_view low) {
        return found_by([this, low] { return first_key_from(low); });
    }
    [[nodiscard]] held last() {
        return found_by([this] { return last_key(); });
    }
    [[nodiscard]] held last_to(std::string_view high) {
        return found_by([this, high] { return last_key_to(high); });
    }

    // Takes out the pair with that string, if there is one, as `remove` does.
    std::optional<popped> pop_first() { return pop_first_from({}); }
    std::optional<popped> pop_first_from(std::string_view low) {
        return pop([this, low] { return first_key_from(low); });
    }
    std::optional<popped> pop_last() {
        return pop([this] { return last_key(); });
    }
    std::optional<popped> pop_last_to(std::string_view high) {
        return pop([this, high] { return last_key_to(high); });
    }

    // Whether there is no string; and how many there are, by a visit to each.
    bool empty() { return !first_key(); }
    uint64_t size() {
        return each([](std::string_view, const T &) {});
    }

    // How many layers stand in the index, each with a pair; one that is just being made may be counted already.
    uint64_t layers() const noexcept { return own_->all->layers; }

    // Waits for the readers of all that this map object took out, and drops it.
    void flush() {
        for (own &now = *own_;;) {
            if (now.leaving.is_empty()) std::swap(now.leaving, now.waiting);
            if (now.leaving.is_empty()) return;
            now.domain.wait(now.leaving.low(), of_strings::scans);
            give_up(now.leaving);
        }
    }

private:
    struct handles {
        handle index, domain;
    };

    // What all map objects of a map share.
    struct common {
        std::atomic<uint64_t> users{0}, layers{0};
        // What nobody finds may be in the index, since a call that takes it out again was refused: spent, or lost.
        std::atomic<bool> is_torn{false};
        of_strings::numbers numbers;

        // Of a map object that was closed.
        std::optional<handles> take_spare() {
            const std::lock_guard<std::mutex> locked(lock);
            if (spare.empty()) return std::nullopt;
            std::optional<handles> its(std::move(spare.back()));
            spare.pop_back();
            return its;
        }

        void put_spare(handle &&index, handle &&domain) {
            const std::lock_guard<std::mutex> locked(lock);
            spare.push_back({std::move(index), std::move(domain)});
        }

    private:
        std::mutex lock;
        std::vector<handles> spare;
    };

    struct retired {
        uint64_t section, word;
    };

    // Objects that were taken out, and marks that were put in: what is to be done when the readers with their keys are gone.
    struct batch {
        std::vector<retired> objects;
        std::vector<mark *> marks;

        size_t size() const noexcept { return objects.size() + marks.size(); }
        bool is_empty() const noexcept { return size() == 0; }

        uint64_t low() const noexcept {
            uint64_t least = of_strings::scans;
            for (const retired &one : objects) least = std::min(least, one.section);
            for (const mark *one : marks) least = std::min(least, one->section);
            return least;
        }
    };

    // Where it is while the map object is moved, since held values lead to the handle.
    struct own {
        handle index, domain;
        std::shared_ptr<common> all;
        batch leaving, waiting; // the wait of the cookie is for the readers of those that are leaving
        uint64_t cookie = 0;
        std::unique_ptr<mark> next_mark;

        own(handle &&pairs, handle &&sections, std::shared_ptr<common> shared)
            : index(std::move(pairs)), domain(std::move(sections)), all(std::move(shared)) {
            ++all->users;
        }
    };

    // A leaf that is to be placed. It is made when its place was found.
    struct coming {
        std::string_view text;
        T &value;
        own_leaf made;

        uint64_t word() {
            if (!made) made.reset(leaf::make(text, std::move(value)));
            return of_strings::word_of(made.get(), of_strings::is_leaf);
        }
    };

    // Makes an update by which the index comes to have an object, and returns whether it has. Where the call was lost it may have it too: then the
    // object is leaked.
    template <class Owner, class Update> static bool gives(Owner &object, Update update) {
        bool has_it = false;
        try {
            has_it = update();
        } catch (const error &told) {
            if (told.why() == fault::lost) static_cast<void>(object.release());
            throw;
        }
        if (has_it) static_cast<void>(object.release());
        return has_it;
    }

    // A layer that isn't in its place yet, with the pairs that are put in it. Nobody knows it: where it doesn't come there, all of it goes back.
    class unseen {
    public:
        unseen(own &its, std::string_view prefix) : own_(its), made_(std::make_unique<layer>(prefix)) { made_->number = own_.all->numbers.take(); }
        unseen(const unseen &) = delete;
        unseen &operator=(const unseen &) = delete;

        ~unseen() {
            if (!made_) return;
            try {
                while (count_ > 0) own_.index.remove(keys_[--count_]);
                own_.all->numbers.put(made_->number);
            } catch (const error &) {
                own_.all->is_torn = true;
            }
        }

        void add(std::string_view text, uint64_t word) {
            const uint64_t key = made_->key_of(text);
            own_.index.insert(key, word);
            keys_[count_++] = key;
        }

        // Whether it came to stand in the place of the word.
        bool replaces(uint64_t at, uint64_t word) {
            const uint64_t layer_word = of_strings::word_of(made_.get(), of_strings::is_layer);
            // Before others may take it out.
            ++own_.all->layers;
            const bool is_done = gives(made_, [&] { return own_.index.compare_exchange(at, word, layer_word) == compared::done; });
            if (!is_done) --own_.all->layers;
            return is_done;
        }

    private:
        own &own_;
        std::unique_ptr<layer> made_;
        uint64_t keys_[2] = {};
        size_t count_ = 0;
    };

    // What a put came to. Where it added no pair and replaced no leaf, the string was there.
    struct placed {
        bool is_added;
        leaf *before;
    };

    std::unique_ptr<own> own_;

    explicit string_map(std::unique_ptr<own> &&its) noexcept : own_(std::move(its)) {}

    static bool any(const T &) noexcept { return true; }

    static handle another(handle &one) {
        std::optional<handle> again = one.reopen();
        return again ? std::move(*again) : one.share();
    }

    // A section around updates of the index, in which no object of the way to the text is dropped.
    [[nodiscard]] section enter(std::string_view text) { return own_->domain.enter_around(of_strings::section_key(text)); }

    // In a section of the text: its leaf, where there is one, and how far the way to it goes.
    leaf *find(std::string_view text, way &on) {
        while (const std::optional<uint64_t> word = own_->index.get(on.at)) {
            if (of_strings::kind_of(*word) == of_strings::is_leaf) {
                leaf *const found = of_strings::object_of<leaf>(*word);
                return found->text() == text ? found : nullptr;
            }
            layer *const next = of_strings::layer_of(*word);
            if (!next->has(text, on.known)) return nullptr;
            on.enter(*next, text);
        }
        return nullptr;
    }

    // Whether the pair led to that, and leads to this now.
    bool change(uint64_t at, uint64_t expected, uint64_t desired) { return own_->index.compare_exchange(at, expected, desired) == compared::done; }

    placed put(std::string_view text, T &value, bool replaces) {
        make_room();
        coming fresh{text, value, nullptr};
        const section within = enter(text);
        return place(fresh, replaces);
    }

    placed place(coming &fresh, bool replaces) {
        for (way on(fresh.text);;) {
            const std::optional<uint64_t> found = own_->index.get(on.at);
            if (!found) {
                if (adds(on, fresh)) return {true, nullptr};
            } else if (of_strings::kind_of(*found) == of_strings::is_mark) {
                change(on.at, *found, of_strings::word_of(of_strings::layer_of(*found), of_strings::is_layer));
            } else if (of_strings::kind_of(*found) == of_strings::is_leaf && of_strings::object_of<leaf>(*found)->text() == fresh.text) {
                if (!replaces) return {false, nullptr};
                if (exchanges(on, of_strings::object_of<leaf>(*found), fresh)) return {false, of_strings::object_of<leaf>(*found)};
            } else if (of_strings::kind_of(*found) == of_strings::is_layer && of_strings::layer_of(*found)->has(fresh.text, on.known)) {
                on.enter(*of_strings::layer_of(*found), fresh.text);
            } else if (parts(on, *found, fresh)) {
                return {true, nullptr};
            }
        }
    }

    bool adds(const way &on, coming &fresh) {
        const uint64_t leaf_word = fresh.word();
        if (!gives(fresh.made, [&] { return own_->index.insert(on.at, leaf_word); })) return false;
        if (on.in) ++on.in->pairs;
        return true;
    }

    // The leaf before is retired.
    bool exchanges(const way &on, leaf *before, coming &fresh) {
        const uint64_t word = of_strings::word_of(before, of_strings::is_leaf), leaf_word = fresh.word();
        if (!gives(fresh.made, [&] { return change(on.at, word, leaf_word); })) return false;
        retire_word(of_strings::section_key(fresh.text), word);
        return true;
    }

    // Puts a layer in the place of what the pair leads to, a leaf or a layer, with that and the new leaf in it.
    bool parts(const way &on, uint64_t word, coming &fresh) {
        const bool by_leaf = of_strings::kind_of(word) == of_strings::is_leaf;
        const std::string_view other = by_leaf ? of_strings::object_of<leaf>(word)->text() : of_strings::object_of<layer>(word)->prefix;
        const auto slice = [](std::string_view text, size_t from) { return of_strings::slice_of(text.substr(from), of_strings::later_bytes); };
        size_t depth = on.known;
        while (slice(other, depth) == slice(fresh.text, depth)) depth += of_strings::later_bytes;
        unseen above(*own_, other.substr(0, depth));
        above.add(other, word);
        above.add(fresh.text, fresh.word());
        return gives(fresh.made, [&] { return above.replaces(on.at, word); });
    }

    // The leaf before, where the string is present. It is retired.
    template <class Change> leaf *exchange(std::string_view text, Change &change) {
        make_room();
        const section within = enter(text);
        way on(text);
        while (leaf *const found = find(text, on)) {
            T value = change(std::as_const(found->value));
            coming fresh{text, value, nullptr};
            if (exchanges(on, found, fresh)) return found;
        }
        return nullptr;
    }

    // The leaf that was taken out, if one was. It is retired.
    template <class Goes> leaf *take_while(std::string_view text, Goes &&goes) {
        make_room();
        const section within = enter(text);
        way on(text);
        while (leaf *const found = find(text, on)) {
            if (!goes(std::as_const(found->value))) break;
            uint64_t word = of_strings::word_of(found, of_strings::is_leaf);
            if (own_->index.take(on.at, word) != compared::done) continue;
            retire_word(of_strings::section_key(text), word);
            if (on.in && --on.in->pairs <= 0) mark_empty(text);
            return found;
        }
        return nullptr;
    }

    // Puts a mark in the place of the lowest layer on the way to the text, where that has no pair. In a section of the text. Where a mark is
    // there already, who put it there sees to it.
    void mark_empty(std::string_view text) {
        for (;;) {
            way on(text), its = on;
            uint64_t word = 0;
            while (const std::optional<uint64_t> found = own_->index.get(on.at)) {
                if (of_strings::kind_of(*found) == of_strings::is_leaf || !of_strings::layer_of(*found)->has(text, on.known)) break;
                word = *found;
                its = on;
                on.enter(*of_strings::layer_of(word), text);
            }
            if (of_strings::kind_of(word) != of_strings::is_layer || of_strings::object_of<layer>(word)->pairs > 0) return;
            layer *const of = of_strings::object_of<layer>(word);
            mark *const fresh = own_->next_mark.get();
            *fresh = {of, its.at, its.in, of->number, of_strings::section_key(text), of->kept};
            if (!gives(own_->next_mark, [&] { return change(its.at, word, of_strings::word_of(fresh, of_strings::is_mark)); })) continue;
            return own_->waiting.marks.push_back(fresh);
        }
    }

    // Behind a wait for all who may have seen the layer without its mark: takes it out, or puts it back.
    void finish(std::vector<mark *> &marks, size_t place) {
        make_room();
        mark &its = *marks[place];
        const section within = own_->domain.enter_around(its.section);
        const bool may_be_empty = takes_layer(its);
        const std::shared_ptr<const std::string> prefix = its.prefix;
        retire_word(its.section, of_strings::word_of(&its, of_strings::is_mark));
        marks.erase(marks.begin() + static_cast<std::ptrdiff_t>(place));
        if (may_be_empty) mark_empty(*prefix);
    }

    // Whether a layer on its way may be empty now, and nobody else sees to it.
    bool takes_layer(const mark &its) {
        const uint64_t of = of_strings::word_of(its.of, of_strings::is_layer);
        uint64_t word = of_strings::word_of(&its, of_strings::is_mark);
        const std::optional<citrus_pair> next = own_->index.first_from(of_strings::low_key(its.number));
        // Whoever took the last pair out meanwhile found the mark, and left it at that.
        if (next && next->key <= of_strings::high_key(its.number)) return !change(its.at, word, of) || its.of->pairs <= 0;
        // It was put back, perhaps only for another layer to be put above it.
        if (own_->index.take(its.at, word) != compared::done) return true;
        --own_->all->layers;
        retire_word(its.section, of);
        return its.above && --its.above->pairs <= 0;
    }

    // Before something is taken out, so that nothing fails between that and its place among the retired.
    void make_room() {
        if (!own_->next_mark) own_->next_mark = std::make_unique<mark>();
        make_room(own_->waiting.objects);
        make_room(own_->waiting.marks);
    }

    template <class One> static void make_room(std::vector<One> &list) {
        constexpr size_t most_at_once = 4;
        if (list.capacity() - list.size() < most_at_once) list.reserve(2 * list.size() + most_retired);
    }

    void retire_word(uint64_t section_key, uint64_t word) noexcept { own_->waiting.objects.push_back({section_key, word}); }

    // Waits for the readers of a leaf that is retired: its value.
    std::optional<T> outwait(leaf *old) {
        if (!old) return std::nullopt;
        const uint64_t key = of_strings::section_key(old->text());
        own_->domain.wait(key, key);
        own_->domain.wait(of_strings::scans, of_strings::scans);
        finish_all_of(key);
        auto &objects = own_->waiting.objects;
        const uint64_t word = of_strings::word_of(old, of_strings::is_leaf);
        objects.erase(std::find_if(objects.begin(), objects.end(), [word](const retired &one) { return one.word == word; }));
        const own_leaf its(old);
        return std::optional<T>(std::move(old->value));
    }

    // The marks that were put in place before the wait for this key. Others may come behind them meanwhile.
    void finish_all_of(uint64_t key) {
        auto &marks = own_->waiting.marks;
        const auto from = std::partition(marks.begin(), marks.end(), [key](const mark *one) { return one->section != key; });
        const auto place = static_cast<size_t>(from - marks.begin());
        for (size_t left = marks.size() - place; left > 0; left--) finish(marks, place);
    }

    // Sees to those whose readers are gone, and begins a wait for the next ones. An update that waits does so first, since its own wait gives up the
    // one that was begun: so what it leaves, a layer's mark say, is seen to by the next, or where most_retired are kept.
    void settle() {
        own &now = *own_;
        if (!now.leaving.is_empty()) {
            const progress told = now.domain.poll(now.cookie);
            if (told == progress::over) give_up(now.leaving);
            if (told == progress::displaced) now.cookie = now.domain.begin(now.leaving.low(), of_strings::scans);
        }
        if (now.leaving.is_empty() && now.waiting.size() >= retired_together) {
            std::swap(now.leaving, now.waiting);
            now.cookie = now.domain.begin(now.leaving.low(), of_strings::scans);
        }
        if (now.leaving.size() + now.waiting.size() >= most_retired) flush();
    }

    void give_up(batch &gone) {
        for (const retired &one : std::exchange(gone.objects, {})) drop(one.word);
        while (!gone.marks.empty()) finish(gone.marks, gone.marks.size() - 1);
    }

    // No section has it any more, nor comes to a layer by its number: so say `no_section_has_it` and `no_section_comes_to_it` of the crate
    // `string_layers`, behind the waits for its section's key and for `scans`.
    void drop(uint64_t word) noexcept {
        if (of_strings::kind_of(word) == of_strings::is_leaf) leaf::drop(of_strings::object_of<leaf>(word));
        if (of_strings::kind_of(word) == of_strings::is_mark) delete of_strings::object_of<mark>(word);
        if (of_strings::kind_of(word) == of_strings::is_layer) {
            own_->all->numbers.put(of_strings::object_of<layer>(word)->number);
            delete of_strings::object_of<layer>(word);
        }
    }

    // One page after the other, each in a section. The next begins behind the last string that was visited.
    template <bool is_down, class Visit> uint64_t pages(std::string_view low, const std::string_view *below, uint64_t most, Visit &visit) {
        std::string end;
        std::string_view low_end = low, high_end = below ? *below : low;
        for (uint64_t count = 0;;) {
            const auto room = static_cast<size_t>(std::min<uint64_t>(page_room, most - count));
            if (room == 0) return count;
            scan<is_down, Visit> part(*own_, visit, low_end, below ? &high_end : nullptr, room);
            const size_t visited = part.go();
            count += visited;
            if (visited < room) return count;
            end = part.next();
            (is_down ? high_end : low_end) = end;
            if (is_down) below = &high_end;
        }
    }

    // The string to which a visit comes first, if there is one.
    template <bool is_down> std::optional<std::string> key_of(std::string_view low, const std::string_view *below) {
        std::optional<std::string> told;
        const auto tell = [&told](std::string_view text, const T &) { told.emplace(text); };
        pages<is_down>(low, below, 1, tell);
        return told;
    }

    // Another map object may take the pair out whose string was found first.
    template <class Find> held found_by(Find find) {
        while (const std::optional<std::string> text = find())
            if (held found = get(*text)) return found;
        return {};
    }
    template <class Find> std::optional<popped> pop(Find find) {
        while (std::optional<std::string> text = find())
            if (std::optional<T> value = remove(*text)) return popped{std::move(*text), std::move(*value)};
        return std::nullopt;
    }

    // A page of a visit to the strings from `low` on, below `below` if there is one, up or down. It doesn't call itself, since ways may be long.
    template <bool is_down, class Visit> class scan {
    public:
        scan(own &its, Visit &visit, std::string_view low, const std::string_view *below, size_t room)
            : own_(its), visit_(visit), low_(low), below_(below), room_(room) {}

        // How many were visited.
        size_t go() {
            const section within = own_.domain.enter(of_strings::scans);
            enter(nullptr, true, below_ != nullptr);
            while (!levels_.empty() && count_ < room_) {
                level &now = levels_.back();
                if (now.at < now.found.size()) pass(now, now.found.pairs[now.at++]);
                else if (now.next) list(now);
                else levels_.pop_back();
            }
            return count_;
        }

        // Where the next page begins: the least string behind those that were visited, or the end above which they were.
        std::string next() const { return is_down ? last_ : last_ + '\0'; }

    private:
        // A layer, or all, where it stands: which pairs are left, and whether the ends of the range are within.
        struct level {
            bool has_low, has_below;
            uint64_t low, high;
            std::optional<uint64_t> next;
            size_t room = few;
            page found{};
            size_t at = 0;
        };

        // Most layers have few pairs, so lists begin with little room.
        static constexpr size_t few = 16;

        own &own_;
        Visit &visit_;
        const std::string_view low_;
        const std::string_view *const below_;
        const size_t room_;
        size_t count_ = 0;
        std::string last_;
        std::vector<level> levels_;

        static bool begins(std::string_view text, std::string_view prefix) noexcept { return text.substr(0, prefix.size()) == prefix; }

        void enter(const layer *in, bool has_low, bool has_below) {
            uint64_t low = in ? of_strings::low_key(in->number) : 0, high = in ? of_strings::high_key(in->number) : of_strings::last_first_key;
            if (has_low) low = in ? in->key_of(low_) : of_strings::first_key(low_);
            if (has_below) high = in ? in->key_of(*below_) : of_strings::first_key(*below_);
            if (low <= high) levels_.push_back({has_low, has_below, low, high, is_down ? high : low});
        }

        void list(level &now) {
            const size_t room = std::min(now.room, room_);
            now.found = is_down ? own_.index.list_down(now.low, *now.next, room) : own_.index.list(*now.next, now.high, room);
            now.next = now.found.next;
            now.room *= 4;
            now.at = 0;
        }

        // It comes to strings below the range, or above it: on the way up before it, or behind it, and on the way down the other way round.
        void passes_low() {
            if (is_down) levels_.clear();
        }
        void passes_below() {
            if (!is_down) levels_.clear();
        }

        void pass(const level &now, const citrus_pair &pair) {
            if (of_strings::kind_of(pair.value) == of_strings::is_leaf) {
                const leaf &one = *of_strings::object_of<leaf>(pair.value);
                if (now.has_low && one.text() < low_) return passes_low();
                if (now.has_below && one.text() >= *below_) return passes_below();
                visit_(one.text(), one.value);
                if (++count_ == room_) last_ = one.text();
                return;
            }
            const layer &next = *of_strings::layer_of(pair.value);
            const bool has_low = now.has_low && begins(low_, next.prefix), has_below = now.has_below && begins(*below_, next.prefix);
            if (now.has_low && !has_low && low_ > next.prefix) return passes_low();
            if (now.has_below && !has_below && *below_ <= next.prefix) return passes_below();
            enter(&next, has_low, has_below);
        }
    };

    // What can't be waited for, or listed, is leaked. A map object that is closed leaves its handles to the next one.
    void close() noexcept {
        if (!own_) return;
        bool has_left_nothing = false;
        try {
            flush();
            has_left_nothing = true;
        } catch (const std::exception &) {
        }
        try {
            if (--own_->all->users == 0) drop_all();
            else if (has_left_nothing) own_->all->put_spare(std::move(own_->index), std::move(own_->domain));
        } catch (const std::exception &) {
        }
        own_.reset();
    }

    // There is no other map object, so nobody reads or updates. Where a map object couldn't finish its marks they stand here.
    void drop_all() {
        if (own_->all->is_torn) return;
        for (const citrus_pair &pair : own_->index.range()) {
            const layer *const of = of_strings::kind_of(pair.value) == of_strings::is_mark ? of_strings::layer_of(pair.value) : nullptr;
            if (of) drop(of_strings::word_of(of, of_strings::is_layer));
            drop(pair.value);
        }
    }
};

} // namespace citrus

#endif
#endif
