// A simulated machine: processors with caches without end, lines of memory that one processor writes or many read, and threads whose
// accesses are made one after another in the order of simulated time. It has no limit of bandwidth, no distance between processors, and of
// a scheduler just slices of time where a processor has more threads than one.
#pragma once
#include "due.hpp"
#include "fiber.hpp"
#include <array>
#include <cstdint>
#include <deque>
#include <functional>
#include <memory>
#include <unordered_map>
#include <vector>

// Nanoseconds of what a thread does.
struct Costs {
    double work = 1;          // between two accesses
    double load = 1.5;        // of a line that the own cache has
    double store = 1;         // one that needn't be ordered
    double locked = 8;        // an exchange, or a store that all loads behind it wait for
    double near = 50;         // a line that no other processor has written last
    double far = 120;         // a line from the cache of the one that has written it
    double spin = 56;         // a pause instruction
    double yield = 600;       // to ask the system for another thread
    double change = 1500;     // until another thread runs
    double slice = 1'000'000; // for which a thread keeps its processor
    double early = 8;         // so much earlier than others' accesses a load of the own cache may be made
    uint32_t looks = 1;       // how many loads of a wait's looks are under way at once
};

enum class Access { Load, Store, Locked };

class Machine {
public:
    static constexpr uint32_t most_processors = 128;

    // Begins anew at the moment 0, with caches that have nothing.
    void begin(uint32_t processors, const Costs &costs);
    // Runs the threads until all are done, from the moment on at which the last ones were. The i-th is on the processor of number i, modulo
    // their number. Accesses of no thread cost nothing.
    void run(std::vector<std::function<void()>> bodies);

    // The moment at which the thread is that runs, or at which the last ones were done.
    double now() const { return is_running() ? threads_[running_].now : moment_; }
    uint64_t lines_moved_by(uint32_t thread) const { return threads_[thread].lines_moved; }

    // What the thread does that runs. When an access returns, all those of earlier moments were made, and none of later ones.
    void access(const void *word, Access kind);
    void order();
    void spin();
    void yield();
    // Whether the loads of this thread are a wait's looks, of which some may be under way at once.
    void set_looking(bool is_looking);

private:
    static constexpr uint32_t nobody = UINT32_MAX;
    static constexpr double between_starts = 0.37;

    // A line of 64 bytes: the processor that has written it last and shares it with none, or those that share it.
    struct Line {
        uint32_t owner = nobody;
        std::array<uint64_t, most_processors / 64> sharers{};
        double free_at = 0; // its moves come one after another
        bool shared_by(uint32_t processor) const { return sharers[processor / 64] >> processor % 64 & 1; }
        bool shared_by_others(uint32_t processor) const;
        void share(uint32_t processor) { sharers[processor / 64] |= uint64_t{1} << processor % 64; }
        void own(uint32_t processor);
    };
    static constexpr uint64_t lines_of_page = 1024;
    using Page = std::array<Line, lines_of_page>;

    struct Thread {
        Fiber fiber;
        std::function<void()> body;
        uint32_t processor = 0;
        double now = 0, stored_by = 0; // its last stores have come to the cache by then
        bool is_looking = false;
        uint64_t lines_moved = 0;
    };

    // The threads of a processor: the first one runs.
    struct Processor {
        std::deque<uint32_t> threads;
        double slice_ends = 0;
    };

    bool is_running() const { return running_ != nobody; }
    Line &line_of(const void *word);
    void load(Thread &me, Line &line);
    void load_far(Thread &me, Line &line);
    void load_near(Thread &me, Line &line);
    void write(Thread &me, Line &line, Access kind);
    Due due_of(uint32_t thread) const { return {threads_[thread].now, thread}; }
    void take_turn(double early);
    void end_thread();
    void go_on(uint32_t thread);
    void put_aside();
    void start_next(Processor &processor, double moment);

    Costs costs_;
    Fiber outside_;
    std::vector<Thread> threads_;
    std::vector<Processor> processors_;
    DueThreads due_;
    std::unordered_map<uint64_t, std::unique_ptr<Page>> pages_;
    double moment_ = 0;
    uint32_t running_ = nobody;
    bool is_crowded_ = false; // more threads than processors
};

// The one on which the words of this program are.
inline Machine machine;
