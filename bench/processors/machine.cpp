// How the simulated machine makes accesses and lets threads take turns.
#include "machine.hpp"
#include <algorithm>

bool Machine::Line::shared_by_others(uint32_t processor) const {
    for (uint32_t i = 0; i < sharers.size(); i++) {
        const uint64_t own = i == processor / 64 ? uint64_t{1} << processor % 64 : 0;
        if ((sharers[i] & ~own) != 0) return true;
    }
    return false;
}

void Machine::Line::own(uint32_t processor) {
    owner = processor;
    sharers.fill(0);
}

void Machine::begin(uint32_t processors, const Costs &costs) {
    costs_ = costs;
    processors_.assign(processors, {});
    threads_.clear();
    pages_.clear();
    moment_ = 0;
}

void Machine::run(std::vector<std::function<void()>> bodies) {
    if (threads_.size() != bodies.size()) {
        threads_.clear();
        threads_.resize(bodies.size());
    }
    is_crowded_ = threads_.size() > processors_.size();
    for (uint32_t i = 0; i < threads_.size(); i++) {
        Thread &thread = threads_[i];
        thread.body = std::move(bodies[i]);
        thread.fiber = Fiber([this, i] {
            threads_[i].body();
            end_thread();
        });
        thread.now = moment_ + i * between_starts;
        thread.processor = i % uint32_t(processors_.size());
        processors_[thread.processor].threads.push_back(i);
    }
    for (uint32_t i = 0; i < processors_.size(); i++) {
        if (processors_[i].threads.empty()) continue;
        // The first slices end at different moments.
        processors_[i].slice_ends = moment_ + costs_.slice * (i + 1) / double(processors_.size());
        due_.add(due_of(processors_[i].threads.front()));
    }
    running_ = due_.take_next().thread;
    outside_.switch_to(threads_[running_].fiber);
    running_ = nobody;
    for (const Thread &thread : threads_) moment_ = std::max(moment_, thread.now);
}

Machine::Line &Machine::line_of(const void *word) {
    const uint64_t line = reinterpret_cast<uintptr_t>(word) / 64;
    std::unique_ptr<Page> &page = pages_[line / lines_of_page];
    if (!page) page = std::make_unique<Page>();
    return (*page)[line % lines_of_page];
}

void Machine::access(const void *word, Access kind) {
    if (!is_running()) return;
    Thread &me = threads_[running_];
    Line &line = line_of(word);
    me.now += costs_.work;
    if (kind == Access::Locked) me.now = std::max(me.now, me.stored_by);
    const bool is_cached = line.owner == me.processor || line.shared_by(me.processor);
    take_turn(kind == Access::Load && is_cached ? costs_.early : 0);
    if (kind == Access::Load) load(me, line);
    else write(me, line, kind);
}

void Machine::load(Thread &me, Line &line) {
    if (line.owner == me.processor || line.shared_by(me.processor)) {
        me.now += costs_.load;
        return;
    }
    if (line.owner != nobody) load_far(me, line);
    else load_near(me, line);
    line.share(me.processor);
}

// Of a line that another processor has written: both share it from then on.
void Machine::load_far(Thread &me, Line &line) {
    me.lines_moved++;
    line.share(line.owner);
    line.owner = nobody;
    line.free_at = std::max(me.now, line.free_at) + costs_.far;
    if (me.is_looking && costs_.looks > 1) {
        me.now += costs_.far / costs_.looks;
        me.stored_by = std::max(me.stored_by, line.free_at);
    } else {
        me.now = line.free_at;
    }
}

// Readers of a line don't hold one another up.
void Machine::load_near(Thread &me, Line &line) {
    if (me.is_looking && costs_.looks > 1) {
        me.now += costs_.near / costs_.looks;
        return;
    }
    line.free_at = std::max(line.free_at, me.now);
    me.now = line.free_at + costs_.near;
}

void Machine::write(Thread &me, Line &line, Access kind) {
    if (line.owner == me.processor) {
        me.now += kind == Access::Locked ? costs_.locked : costs_.store;
        return;
    }
    const bool is_elsewhere = line.owner != nobody || line.shared_by_others(me.processor);
    if (is_elsewhere) me.lines_moved++;
    line.free_at = std::max(me.now, line.free_at) + (is_elsewhere ? costs_.far : costs_.near);
    line.own(me.processor);
    if (kind == Access::Locked) {
        me.now = line.free_at + costs_.locked;
    } else {
        me.now += costs_.store;
        me.stored_by = std::max(me.stored_by, line.free_at);
    }
}

// A fence.
void Machine::order() {
    if (!is_running()) return;
    threads_[running_].now += costs_.locked;
}

void Machine::spin() {
    if (!is_running()) return;
    threads_[running_].now += costs_.spin;
}

void Machine::yield() {
    if (!is_running()) return;
    threads_[running_].now += costs_.yield;
    if (!is_crowded_) return;
    take_turn(0);
    put_aside();
}

void Machine::set_looking(bool is_looking) {
    if (is_running()) threads_[running_].is_looking = is_looking;
}

// Lets all threads go first whose moment is earlier.
void Machine::take_turn(double early) {
    const uint32_t me = running_;
    if (is_crowded_ && threads_[me].now >= processors_[threads_[me].processor].slice_ends) put_aside();
    if (due_.is_empty() || due_.next().moment >= threads_[me].now - early) return;
    go_on(due_.replace_next(due_of(me)).thread);
}

// Gives the processor to its next thread, where it has one, until that gives it back.
void Machine::put_aside() {
    const uint32_t me = running_;
    Processor &processor = processors_[threads_[me].processor];
    if (processor.threads.size() < 2) {
        processor.slice_ends = threads_[me].now + costs_.slice;
        return;
    }
    processor.threads.pop_front();
    processor.threads.push_back(me);
    start_next(processor, threads_[me].now);
    go_on(due_.take_next().thread);
}

void Machine::start_next(Processor &processor, double moment) {
    const uint32_t next = processor.threads.front();
    threads_[next].now = std::max(threads_[next].now, moment + costs_.change);
    processor.slice_ends = threads_[next].now + costs_.slice;
    due_.add(due_of(next));
}

void Machine::go_on(uint32_t thread) {
    Thread &me = threads_[running_];
    running_ = thread;
    me.fiber.switch_to(threads_[thread].fiber);
}

// The thread is done. The last one goes back to who has called `run`.
void Machine::end_thread() {
    const uint32_t me = running_;
    Processor &processor = processors_[threads_[me].processor];
    processor.threads.pop_front();
    if (!processor.threads.empty()) start_next(processor, threads_[me].now);
    if (!due_.is_empty()) go_on(due_.take_next().thread);
    threads_[me].fiber.switch_to(outside_);
}
