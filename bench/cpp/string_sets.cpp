// Writes strings for maps to be measured with, each once and in no order: `string_sets SET COUNT`. A set is `user` (user:000123), `uuid`,
// `url` (50 to 60 bytes, of 500 hosts), `word`, `bytes` (16 drawn ones), or a file with a string in each line. Each string is its length, four
// bytes, lowest first, and its bytes, so that all programs, of whatever language, have the same ones.
#include "mixes.hpp"
#include <cstdio>
#include <cstdlib>
#include <fstream>
#include <functional>
#include <iostream>
#include <unordered_set>
#include <utility>
#include <vector>

// One of so many, of which the first ones come more often, as parts of words do.
template <size_t count> std::string often(Draws &draws, const char *const (&parts)[count]) {
    const uint64_t most = draws.next() % count + 1;
    return parts[draws.next() % most];
}

// What is before the end of a word that is in no dictionary, made as theirs are.
std::string drawn_stem(Draws &draws) {
    static const char *const begins[] = {"un", "re", "in", "over", "con", "dis", "de", "pre", "inter", "pro", "out", "sub", "non", "anti"};
    static const char *const onsets[] = {"s", "c", "p", "b", "m", "t", "d", "r",  "f",  "h",  "l",  "g",
                                         "w", "n", "v", "j", "k", "st", "tr", "br", "ch", "sh", "pl", "gr"};
    static const char *const vowels[] = {"a", "e", "o", "i", "u", "ea", "ou", "ai", "oo", "y"};
    static const char *const codas[] = {"", "r", "n", "l", "t", "s", "m", "nd", "d", "ck", "st", "p", "ll", "ng", "nt", "ss", "g", "b", "x"};
    std::string stem = draws.next() % 4 == 0 ? often(draws, begins) : "";
    for (uint64_t syllables = 1 + draws.next() % 3; syllables > 0; syllables--) {
        stem += often(draws, onsets);
        stem += often(draws, vowels);
        stem += often(draws, codas);
    }
    return stem;
}

std::string with_end(Draws &draws, const std::string &stem) {
    static const char *const ends[] = {"", "s", "ed", "ing", "er", "'s", "ly", "ers", "ness", "able", "ation", "ment", "y", "ic"};
    return stem + often(draws, ends);
}

std::string drawn_word(Draws &draws) {
    const std::string stem = drawn_stem(draws);
    return with_end(draws, stem);
}

// Words of which some come from one stem, as in a dictionary.
struct Words {
    static constexpr uint64_t of_a_stem = 5;
    std::string stem;

    std::string next(Draws &draws, uint64_t number) {
        if (number % of_a_stem == 0) stem = drawn_stem(draws);
        return with_end(draws, stem);
    }
};

std::string drawn_bytes(Draws &draws, size_t count) {
    std::string bytes;
    while (bytes.size() < count) bytes.push_back(static_cast<char>(draws.next() >> 16));
    return bytes;
}

// Of version 4.
std::string drawn_uuid(Draws &draws) {
    std::string text = "xxxxxxxx-xxxx-4xxx-yxxx-xxxxxxxxxxxx";
    for (char &sign : text) {
        const uint64_t digit = draws.next() >> 16 & 15;
        if (sign == 'x') sign = "0123456789abcdef"[digit];
        if (sign == 'y') sign = "89ab"[digit & 3];
    }
    return text;
}

struct Hosts {
    std::vector<std::string> hosts, folders;

    explicit Hosts(Draws &draws) {
        while (hosts.size() < 500) hosts.push_back("https://www." + drawn_word(draws) + ".com/");
        while (folders.size() < 50) folders.push_back(drawn_word(draws) + "/");
    }

    std::string url(Draws &draws) const {
        std::string text = hosts[draws.next() % hosts.size()];
        text += folders[draws.next() % folders.size()];
        text += drawn_word(draws);
        return text + "?id=" + std::to_string(draws.next() % 1000);
    }
};

using Maker = std::function<std::string(uint64_t)>;

// What makes the string of a number. Where there is none, the set is a file.
Maker maker_of(const std::string &set, Draws &draws) {
    if (set == "user")
        return [](uint64_t number) {
            char text[32];
            snprintf(text, sizeof text, "user:%06llu", static_cast<unsigned long long>(number));
            return std::string(text);
        };
    if (set == "uuid") return [&draws](uint64_t) { return drawn_uuid(draws); };
    if (set == "url") return [&draws, all = Hosts(draws)](uint64_t) { return all.url(draws); };
    if (set == "word") return [&draws, all = Words()](uint64_t number) mutable { return all.next(draws, number); };
    if (set == "bytes") return [&draws](uint64_t) { return drawn_bytes(draws, 16); };
    return nullptr;
}

std::vector<std::string> lines_of(const std::string &file, uint64_t count) {
    std::vector<std::string> lines;
    std::ifstream from(file);
    std::unordered_set<std::string> seen;
    for (std::string line; lines.size() < count && std::getline(from, line);)
        if (seen.insert(line).second) lines.push_back(line);
    return lines;
}

std::vector<std::string> strings_of(const Maker &make, uint64_t count) {
    std::vector<std::string> strings;
    std::unordered_set<std::string> seen;
    for (uint64_t number = 0; strings.size() < count; number++) {
        std::string one = make(number);
        if (seen.insert(one).second) strings.push_back(std::move(one));
    }
    return strings;
}

void write(const std::string &text) {
    for (unsigned shift = 0; shift < 32; shift += 8) std::cout.put(static_cast<char>(text.size() >> shift));
    std::cout << text;
}

int main(int count, char **words) {
    const uint64_t wanted = count == 3 ? strtoull(words[2], nullptr, 10) : 0;
    if (wanted == 0) {
        fprintf(stderr, "usage: %s SET COUNT\n", words[0]);
        return 2;
    }
    Draws draws{1};
    const Maker make = maker_of(words[1], draws);
    std::vector<std::string> strings = make ? strings_of(make, wanted) : lines_of(words[1], wanted);
    if (strings.size() < wanted) {
        fprintf(stderr, "%s: %s has %zu different lines alone\n", words[0], words[1], strings.size());
        return 1;
    }
    for (size_t i = strings.size(); i > 1; i--) std::swap(strings[i - 1], strings[draws.next() % i]);
    for (const std::string &text : strings) write(text);
    std::cout.flush();
    return std::cout ? 0 : 1;
}
