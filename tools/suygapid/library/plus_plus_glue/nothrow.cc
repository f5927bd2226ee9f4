// What `new (std::nothrow)` does, without an exception of its own, so that it also works in a program that catches none.
#include <cstdlib>
#include <malloc.h>
#include <new>

static void *allocated(std::size_t size, std::size_t alignment) {
    for (;;) {
        void *memory = alignment ? memalign(alignment, size ? size : 1) : std::malloc(size ? size : 1);
        std::new_handler handler = std::get_new_handler();
        if (memory || !handler)
            return memory;
        try {
            handler();
        } catch (...) {
            return nullptr;
        }
    }
}

void *operator new(std::size_t size, const std::nothrow_t &) noexcept {
    return allocated(size, 0);
}

void *operator new[](std::size_t size, const std::nothrow_t &) noexcept {
    return allocated(size, 0);
}

void *operator new(std::size_t size, std::align_val_t alignment, const std::nothrow_t &) noexcept {
    return allocated(size, static_cast<std::size_t>(alignment));
}

void *operator new[](std::size_t size, std::align_val_t alignment, const std::nothrow_t &) noexcept {
    return allocated(size, static_cast<std::size_t>(alignment));
}
