// Judges the lists of a watch text by a replay of its own: `watched LOW HIGH` reads the text that `watch LOW HIGH` wrote, and ends with 0
// where there are four lists after the account, each with exactly the pairs of the range at its front of the account's history (or the
// first 4,096 and the key after them), at fronts that never fall. Else it tells what is wrong, and ends with 1. It writes how many of the
// lists stood at a front between nothing and the whole history.
#include <cstdint>
#include <cstdlib>
#include <iostream>
#include <map>
#include <sstream>
#include <string>
#include <vector>

struct Update {
    std::string operation;
    uint64_t key, value;
};

[[noreturn]] void wrong(const std::string &what) {
    std::cerr << "watched: " << what << "\n";
    exit(1);
}

std::string next_line() {
    std::string line;
    if (!std::getline(std::cin, line)) wrong("the text ends too soon");
    return line;
}

// The number behind the first word of a line.
uint64_t number_after(const std::string &line, const std::string &word) {
    if (line.compare(0, word.size() + 1, word + " ") != 0) wrong("no line '" + word + "': " + line);
    return std::stoull(line.substr(word.size() + 1));
}

std::map<uint64_t, uint64_t> map_at(const std::vector<Update> &history, uint64_t front) {
    std::map<uint64_t, uint64_t> map;
    for (uint64_t i = 0; i < front; i++) {
        const Update &update = history[i];
        if (update.operation == "put") map.emplace(update.key, update.value);
        else if (update.operation == "del") map.erase(update.key);
        else if (const auto found = map.find(update.key); found != map.end()) found->second = update.value;
    }
    return map;
}

std::vector<Update> read_account() {
    std::string line;
    do line = next_line();
    while (line.compare(0, 8, "history ") != 0);
    std::vector<Update> history;
    for (uint64_t left = number_after(line, "history"); left > 0; left--) {
        std::istringstream words(next_line());
        uint64_t position, caller;
        Update update{};
        words >> position >> caller >> update.operation >> update.key;
        if (update.operation != "del") words >> update.value;
        if (!words || position != history.size() + 1) wrong("a line of the history");
        history.push_back(update);
    }
    for (uint64_t left = number_after(next_line(), "final"); left > 0; left--) next_line();
    if (next_line() != "end") wrong("no end of the account");
    return history;
}

int main(int count, char **words) {
    if (count != 3) return 2;
    const uint64_t low = strtoull(words[1], nullptr, 10), high = strtoull(words[2], nullptr, 10), most = 4096;
    const std::vector<Update> history = read_account();
    if (next_line() != "watch " + std::string(words[1]) + " " + words[2]) wrong("no line 'watch'");
    uint64_t before = 0, between = 0;
    for (int list = 0; list < 4; list++) {
        std::istringstream head(next_line());
        std::string kind;
        uint64_t front, next = 0, pairs;
        head >> kind >> front;
        if (kind == "part") head >> next;
        head >> pairs;
        if (!head || front < before || front > history.size()) wrong("the head of a list");
        before = front;
        between += 0 < front && front < history.size();
        const auto map = map_at(history, front);
        auto at = map.lower_bound(low);
        for (uint64_t i = 0; i < pairs; i++, at++) {
            if (at == map.end() || at->first > high) wrong("a pair too many");
            if (next_line() != std::to_string(at->first) + " " + std::to_string(at->second)) wrong("another pair");
        }
        const bool is_more = at != map.end() && at->first <= high;
        if (kind == "part" ? !is_more || pairs != most || at->first != next : kind != "whole" || is_more || pairs > most) wrong("the end of a list");
    }
    if (next_line() != "end") wrong("no end");
    std::string rest;
    if (std::getline(std::cin, rest)) wrong("something follows");
    std::cout << between << "\n";
}
