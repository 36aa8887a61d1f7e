// How one stack is left and another taken up: the registers that a call keeps by x86-64's System V rules lie on the stack that is left.
#include "fiber.hpp"
#include <cstdint>
#include <cstdlib>

extern "C" void switch_stacks(void **left_at, void *next);

asm(R"(
.text
.globl switch_stacks
.type switch_stacks, @function
switch_stacks:
    pushq %rbp
    pushq %rbx
    pushq %r12
    pushq %r13
    pushq %r14
    pushq %r15
    movq %rsp, (%rdi)
    movq %rsi, %rsp
    popq %r15
    popq %r14
    popq %r13
    popq %r12
    popq %rbx
    popq %rbp
    ret
.size switch_stacks, .-switch_stacks
)");

namespace {

constexpr size_t kept_registers = 6;

// What the fiber runs that is switched to for the first time.
std::function<void()> *first_body;

void begin() {
    (*first_body)();
    std::abort();
}

} // namespace

Fiber::Fiber(std::function<void()> body)
    : body_(std::make_unique<std::function<void()>>(std::move(body))), stack_(new unsigned char[stack_size]) {
    // A function begins eight bytes below a multiple of sixteen, as behind a call.
    auto *top = reinterpret_cast<uint64_t *>(reinterpret_cast<uintptr_t>(stack_.get() + stack_size) & ~uintptr_t{15});
    *--top = 0;
    *--top = reinterpret_cast<uintptr_t>(&begin);
    for (size_t i = 0; i < kept_registers; i++) *--top = 0;
    left_at_ = top;
}

void Fiber::switch_to(Fiber &next) {
    first_body = next.body_.get();
    switch_stacks(&left_at_, next.left_at_);
}
