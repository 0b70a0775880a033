// Operator new and delete of the test program: they count, and refuse memory where they are told to.
#include "checks.hpp"

#include <cstddef>
#include <cstdlib>
#include <new>

namespace {

thread_local unsigned long requested = 0;
thread_local bool refusing = false;

void* allocate(std::size_t size, std::size_t align) {
    requested++;
    const std::size_t rounded = (size + align) / align * align;
    void* const memory = refusing ? nullptr : std::aligned_alloc(align, rounded);
    if (memory == nullptr) {
        throw std::bad_alloc();
    }
    return memory;
}

} // namespace

unsigned long checks::requests() noexcept { return requested; }
void checks::refuse_memory(bool refuses) noexcept { refusing = refuses; }

void* operator new(std::size_t size) { return allocate(size, alignof(std::max_align_t)); }
void* operator new(std::size_t size, std::align_val_t align) { return allocate(size, static_cast<std::size_t>(align)); }
void operator delete(void* memory) noexcept { std::free(memory); }
void operator delete(void* memory, std::size_t) noexcept { std::free(memory); }
void operator delete(void* memory, std::align_val_t) noexcept { std::free(memory); }
void operator delete(void* memory, std::size_t, std::align_val_t) noexcept { std::free(memory); }
