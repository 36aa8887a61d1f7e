// A thread of the simulated machine's own: a stack on which a function runs, until it switches to another one's.
#pragma once
#include <cstddef>
#include <functional>
#include <memory>
#include <vector>

class Fiber {
public:
    // Those that begin at once run from their first switch on. `body` never returns: it ends by a switch to another one.
    explicit Fiber(std::function<void()> body);
    // The one that runs already, on the program's stack.
    Fiber() = default;
    Fiber(Fiber &&) = default;
    Fiber &operator=(Fiber &&) = default;

    // Goes on where the next one was left; this one is left here.
    void switch_to(Fiber &next);

private:
    static constexpr size_t stack_size = 256 * 1024;

    std::unique_ptr<std::function<void()>> body_;
    std::unique_ptr<unsigned char[]> stack_;
    void *left_at_ = nullptr;
};
