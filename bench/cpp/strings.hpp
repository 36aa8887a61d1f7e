// Maps from strings that take turns, as turns.hpp has it for maps from numbers: `PROGRAM FILE STRINGS THREADS SERIES turns`. The file is of
// string_sets; so many of its strings are put in, and the program says `ready`. Then it reads lines `WORK N`: every thread goes on with N
// operations of that work, of which the first third isn't timed, and the program answers `OPERATIONS NANOSECONDS SUM`. The works:
//   - `get`, of a string that is there;
//   - `range`, of the 100 strings from one on that is there;
//   - `update`, a remove of a string and an insert of it again. Each thread has strings of its own for it;
//   - `insert`, of a string that isn't there: those that the file has more. A thread has its own ones for it, and makes no more in a cell than it
//     has; where too few are left, all are taken out before the cell.
// So what all answer together depends on neither the map nor how threads take turns. `.. memory` tells bytes a string instead: how much more
// memory the process has with the map filled than before.
//
// Each thread goes through the strings in the order of the file, so the next ones come into the caches by themselves. They are put in in another
// order.
#pragma once
#include "turns.hpp"
#include <algorithm>
#include <array>
#include <cstring>
#include <fstream>
#include <utility>

struct Strings {
    std::vector<std::string> texts;
    size_t there; // so many of the first are in the map; the others are those of `insert`
    size_t threads;

    // How many strings a thread has for inserts.
    size_t own_new() const { return (texts.size() - there) / threads; }

    // In the order in which they are put in.
    std::vector<size_t> order() const {
        std::vector<size_t> numbers(there);
        for (size_t i = 0; i < there; i++) numbers[i] = i;
        Draws draws{1};
        for (size_t i = there; i > 1; i--) std::swap(numbers[i - 1], numbers[draws.next() % i]);
        return numbers;
    }
};

inline std::vector<std::string> read_texts(const char *path) {
    std::ifstream file(path, std::ios::binary);
    std::vector<std::string> texts;
    for (std::array<unsigned char, 4> length{}; file.read(reinterpret_cast<char *>(length.data()), length.size());) {
        std::string text(length[0] | length[1] << 8 | length[2] << 16 | length[3] << 24, '\0');
        file.read(text.data(), std::streamsize(text.size()));
        texts.push_back(std::move(text));
    }
    return texts;
}

enum class Work { Get, Range, Update, Insert };
constexpr size_t works = 4;
constexpr uint64_t range_length = 100;

// One thread's part, which goes on from cell to cell, on lines of memory of its own. A string's value is its number in the file, from 1 on.
template <class Client> struct alignas(128) StringPart {
    Client client;
    const Strings &strings;
    const size_t place;
    std::array<size_t, works> at{}; // the place of the string that comes next
    uint64_t sum = 0;

    StringPart(Client its, const Strings &all, size_t thread) : client(its), strings(all), place(thread) {
        const size_t own_begin = strings.there / strings.threads * place;
        at = {own_begin, own_begin, place, strings.there + place};
    }

    size_t &next(Work work) { return at[size_t(work)]; }

    // The next string of all that are there.
    const std::string &take_next(Work work) {
        const std::string &text = strings.texts[next(work)++];
        if (next(work) == strings.there) next(work) = 0;
        return text;
    }

    bool insert(size_t number) { return client.insert(strings.texts[number], number + 1); }

    // Of this thread's next own string; how many of both calls changed something.
    uint64_t remove_and_insert() {
        const size_t now = next(Work::Update);
        next(Work::Update) = now + strings.threads < strings.there ? now + strings.threads : place;
        const bool is_removed = client.remove(strings.texts[now]);
        return uint64_t(is_removed) + insert(now);
    }

    bool insert_new() {
        const size_t now = next(Work::Insert);
        next(Work::Insert) = now + strings.threads;
        return insert(now);
    }

    void make(Work work, uint64_t operations) {
        const auto all = [&](const auto &call) {
            uint64_t answers = 0;
            for (uint64_t i = 0; i < operations; i++) answers += call();
            sum += answers;
        };
        switch (work) {
        case Work::Get: return all([&] { return client.get(take_next(work)); });
        case Work::Range: return all([&] { return client.range(take_next(work), range_length); });
        case Work::Update: return all([&] { return remove_and_insert(); });
        case Work::Insert: return all([&] { return insert_new(); });
        }
    }

    // How many strings it still has for inserts.
    uint64_t new_left() { return strings.own_new() - (next(Work::Insert) - strings.there - place) / strings.threads; }

    // Takes out what its inserts put in.
    void take_new_out() {
        for (size_t &number = next(Work::Insert); number > strings.there + place;) {
            number -= strings.threads;
            client.remove(strings.texts[number]);
        }
        client.settle();
    }

    void forget_new() { next(Work::Insert) = strings.there + place; }
};

inline Work work_of(const char *word) {
    const std::array<const char *, works> words{"get", "range", "update", "insert"};
    for (size_t i = 0; i < works; i++)
        if (std::strcmp(word, words[i]) == 0) return Work(i);
    fprintf(stderr, "no work is called %s\n", word);
    exit(2);
}

template <class Map> auto string_parts(Map &map, const Strings &strings) {
    using Client = decltype(map.client(0));
    std::vector<std::unique_ptr<StringPart<Client>>> parts;
    for (size_t place = 0; place < strings.threads; place++)
        parts.push_back(std::make_unique<StringPart<Client>>(map.client(place), strings, place));
    return parts;
}

template <class Client> void fill_strings(StringPart<Client> &part) {
    for (const size_t number : part.strings.order()) part.insert(number);
}

// The map has then no strings but those that it had before the inserts.
template <class Map, class Parts> void take_new_out(Map &map, const Parts &parts) {
    if constexpr (Map::takes_out) {
        for (const auto &part : parts) part->take_new_out();
    } else {
        map.clear();
        for (const auto &part : parts) part->forget_new();
        fill_strings(*parts[0]);
    }
}

template <class Map> void turn_strings(Map &map, const Strings &strings) {
    const auto parts = string_parts(map, strings);
    fill_strings(*parts[0]);
    tell_ready();
    char word[16];
    for (uint64_t wanted = 0; scanf("%15s %" SCNu64, word, &wanted) == 2;) {
        const Work work = work_of(word);
        const uint64_t operations = work == Work::Insert ? std::min<uint64_t>(wanted, strings.own_new()) : wanted;
        if (work == Work::Insert && parts[0]->new_left() < operations) take_new_out(map, parts);
        const uint64_t untimed = operations / 3, timed = operations - untimed;
        for (const auto &part : parts) part->sum = 0;
        seconds_of(parts, work, untimed);
        const double seconds = seconds_of(parts, work, timed);
        tell_turn(timed, seconds, sum_of(parts));
    }
}

// Layers are pairs too, so there is room for a third more of them than strings.
constexpr uint64_t pairs_for(uint64_t strings) { return strings + strings / 3; }

struct StringOptions {
    Strings strings;
    std::string series;
    bool is_memory;
};

inline StringOptions string_options(int count, char **words) {
    const bool is_memory = count == 6 && std::strcmp(words[5], "memory") == 0;
    if (count != 6 || !(is_memory || std::strcmp(words[5], "turns") == 0)) {
        fprintf(stderr, "usage: %s FILE STRINGS THREADS SERIES turns|memory\n", words[0]);
        exit(2);
    }
    Strings strings{read_texts(words[1]), strtoull(words[2], nullptr, 10), std::max<size_t>(strtoull(words[3], nullptr, 10), 1)};
    if (strings.there == 0 || strings.texts.size() < strings.there) {
        fprintf(stderr, "%s: %s has %zu strings\n", words[0], words[1], strings.texts.size());
        exit(1);
    }
    return {std::move(strings), words[4], is_memory};
}

// The map of a series, made by `make(pairs, threads)`: nothing where another series is asked for.
template <class Make> void measure_strings(const char *series, const StringOptions &options, const Make &make) {
    if (options.series != series) return;
    const Strings &strings = options.strings;
    if (!options.is_memory) return turn_strings(*make(pairs_for(strings.texts.size()), strings.threads), strings);
    const uint64_t before = bytes_now();
    const auto map = make(pairs_for(strings.there), strings.threads);
    const auto parts = string_parts(*map, strings);
    fill_strings(*parts[0]);
    printf("%.1f\n", double(bytes_now() - before) / double(strings.there));
}
