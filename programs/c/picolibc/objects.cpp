// What compiled C++ asks for beside the C library: memory for objects, and the end of a program that calls a virtual function
// that isn't there. There are no exceptions.
#include <malloc.h>
#include <new>
#include <stdio.h>
#include <stdlib.h>

const std::nothrow_t std::nothrow{};

// The place of new memory, or the end of the program.
static void *found(void *place)
{
    if (place == nullptr) {
        fputs("new: no memory\n", stderr);
        fflush(stderr);
        abort();
    }
    return place;
}

// An object of no bytes has a place of its own, too.
static void *place_for(size_t bytes)
{
    return malloc(bytes == 0 ? 1 : bytes);
}

void *operator new(size_t bytes)
{
    return found(place_for(bytes));
}

void *operator new[](size_t bytes)
{
    return found(place_for(bytes));
}

void *operator new(size_t bytes, const std::nothrow_t &) noexcept
{
    return place_for(bytes);
}

void *operator new[](size_t bytes, const std::nothrow_t &) noexcept
{
    return place_for(bytes);
}

void *operator new(size_t bytes, std::align_val_t multiple)
{
    return found(memalign(static_cast<size_t>(multiple), bytes == 0 ? 1 : bytes));
}

void *operator new[](size_t bytes, std::align_val_t multiple)
{
    return found(memalign(static_cast<size_t>(multiple), bytes == 0 ? 1 : bytes));
}

void operator delete(void *place) noexcept
{
    free(place);
}

void operator delete[](void *place) noexcept
{
    free(place);
}

void operator delete(void *place, size_t) noexcept
{
    free(place);
}

void operator delete[](void *place, size_t) noexcept
{
    free(place);
}

void operator delete(void *place, const std::nothrow_t &) noexcept
{
    free(place);
}

void operator delete[](void *place, const std::nothrow_t &) noexcept
{
    free(place);
}

void operator delete(void *place, std::align_val_t) noexcept
{
    free(place);
}

void operator delete[](void *place, std::align_val_t) noexcept
{
    free(place);
}

void operator delete(void *place, size_t, std::align_val_t) noexcept
{
    free(place);
}

void operator delete[](void *place, size_t, std::align_val_t) noexcept
{
    free(place);
}

// What stands in a table of virtual functions where a class has none.
extern "C" [[noreturn]] void __cxa_pure_virtual()
{
    fputs("a virtual function is called that the object's class doesn't have\n", stderr);
    fflush(stderr);
    abort();
}

extern "C" [[noreturn]] void __cxa_deleted_virtual()
{
    __cxa_pure_virtual();
}
