// What the tests of <robiniagolf/rcu.hpp> share: checks, memory that counts or refuses, objects that tell their end.
#ifndef ROBINIAGOLF_TESTS_CHECKS_HPP
#define ROBINIAGOLF_TESTS_CHECKS_HPP

#include <robiniagolf/rcu.hpp>

#include <atomic>
#include <cstdio>

namespace checks {

inline std::atomic<int> failed{0};

inline void check(bool holds, const char* what, const char* file, int line) {
    if (!holds) {
        failed++;
        std::fprintf(stderr, "%s:%d: %s\n", file, line, what);
    }
}

// How often this thread has called operator new (rcu_memory.cpp).
unsigned long requests() noexcept;
// Whether operator new refuses this thread.
void refuse_memory(bool refuses) noexcept;

// Counts its destruction. A copy counts its own.
struct counted {
    explicit counted(std::atomic<int>& count) : destroyed(&count) {}
    counted(const counted&) = default;
    counted& operator=(const counted&) = default;
    ~counted() { ++*destroyed; }

    std::atomic<int>* destroyed;
};

// The tests of rcu_threads.cpp.
void run_threads();
// The default domain as that file sees it.
robiniagolf::rcu_domain* domain_of_threads() noexcept;
// An object that this file makes and that one retires.
struct shared_object : robiniagolf::rcu_obj_base<shared_object>, counted {
    using counted::counted;
};
void retire_there(shared_object* object) noexcept;

} // namespace checks

#define CHECK(condition) checks::check((condition), #condition, __FILE__, __LINE__)

#endif
