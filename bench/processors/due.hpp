// Which thread of the simulated machine comes next: a heap of the moments at which those are that wait for their turn.
#pragma once
#include <cstddef>
#include <cstdint>
#include <utility>
#include <vector>

struct Due {
    double moment;
    uint32_t thread;

    // Of the same moment the thread of the lesser number comes first.
    bool operator<(const Due &other) const { return moment < other.moment || (moment == other.moment && thread < other.thread); }
};

class DueThreads {
public:
    bool is_empty() const { return heap_.empty(); }
    const Due &next() const { return heap_.front(); }

    void add(const Due &due) {
        heap_.push_back(due);
        for (size_t at = heap_.size() - 1; at > 0 && heap_[at] < heap_[parent(at)]; at = parent(at)) std::swap(heap_[at], heap_[parent(at)]);
    }

    // Takes the next one out, and puts this one in.
    Due replace_next(const Due &due) {
        const Due next = heap_.front();
        heap_.front() = due;
        sink();
        return next;
    }

    Due take_next() {
        const Due last = heap_.back();
        heap_.pop_back();
        return heap_.empty() ? last : replace_next(last);
    }

private:
    static size_t parent(size_t at) { return (at - 1) / 2; }

    // The first one goes down to where both below it are due later.
    void sink() {
        const Due moved = heap_.front();
        size_t at = 0;
        for (size_t below = 1; below < heap_.size(); below = 2 * at + 1) {
            if (below + 1 < heap_.size() && heap_[below + 1] < heap_[below]) below++;
            if (moved < heap_[below]) break;
            heap_[at] = heap_[below];
            at = below;
        }
        heap_[at] = moved;
    }

    std::vector<Due> heap_;
};
