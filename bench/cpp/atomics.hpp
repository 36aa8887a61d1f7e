// The atomic words of the trees here, and how a thread pauses: std's, or where SIMULATED is defined those of the simulated machine.
#pragma once
#ifdef SIMULATED
#include "../processors/atomics.hpp"
#else
#include <atomic>
#include <thread>

template <class T> using Atomic = std::atomic<T>;

inline void spin_once() { __builtin_ia32_pause(); }
inline void yield_processor() { std::this_thread::yield(); }
inline void order_all() { std::atomic_thread_fence(std::memory_order_seq_cst); }
#endif
