/* Atomic operations: without the extension A the compiler calls these functions instead of an instruction. Their names
   and arguments are the compiler's. A process has one thread, shares no memory, and isn't interrupted by a handler of
   its own, so each operation is done as it stands. */
#include <stdbool.h>
#include <stddef.h>
#include <stdint.h>
#include <string.h>

/* The function is called so by the compiler, which would take a definition of that name for its own. */
#define NAMED(name) __asm__(#name)

#define FETCH(type, size, name, result) \
    type fetch_##name##_##size(volatile void *place, type value, int order) NAMED(__atomic_fetch_##name##_##size); \
    type fetch_##name##_##size(volatile void *place, type value, int order) \
    { \
        type old = *(volatile type *)place; \
        (void)order; \
        *(volatile type *)place = (type)(result); \
        return old; \
    } \
    type name##_fetch_##size(volatile void *place, type value, int order) NAMED(__atomic_##name##_fetch_##size); \
    type name##_fetch_##size(volatile void *place, type value, int order) \
    { \
        type old = *(volatile type *)place; \
        (void)order; \
        return *(volatile type *)place = (type)(result); \
    } \
    type sync_fetch_##name##_##size(volatile void *place, type value) NAMED(__sync_fetch_and_##name##_##size); \
    type sync_fetch_##name##_##size(volatile void *place, type value) \
    { \
        return fetch_##name##_##size(place, value, 0); \
    } \
    type sync_##name##_fetch_##size(volatile void *place, type value) NAMED(__sync_##name##_and_fetch_##size); \
    type sync_##name##_fetch_##size(volatile void *place, type value) \
    { \
        return name##_fetch_##size(place, value, 0); \
    }

#define EXCHANGE(type, size) \
    type load_##size(const volatile void *place, int order) NAMED(__atomic_load_##size); \
    type load_##size(const volatile void *place, int order) \
    { \
        (void)order; \
        return *(const volatile type *)place; \
    } \
    void store_##size(volatile void *place, type value, int order) NAMED(__atomic_store_##size); \
    void store_##size(volatile void *place, type value, int order) \
    { \
        (void)order; \
        *(volatile type *)place = value; \
    } \
    type exchange_##size(volatile void *place, type value, int order) NAMED(__atomic_exchange_##size); \
    type exchange_##size(volatile void *place, type value, int order) \
    { \
        type old = *(volatile type *)place; \
        (void)order; \
        *(volatile type *)place = value; \
        return old; \
    } \
    type sync_exchange_##size(volatile void *place, type value) NAMED(__sync_lock_test_and_set_##size); \
    type sync_exchange_##size(volatile void *place, type value) \
    { \
        return exchange_##size(place, value, 0); \
    } \
    void sync_release_##size(volatile void *place) NAMED(__sync_lock_release_##size); \
    void sync_release_##size(volatile void *place) \
    { \
        *(volatile type *)place = 0; \
    }

#define COMPARE(type, size) \
    type sync_swap_##size(volatile void *place, type wanted, type value) NAMED(__sync_val_compare_and_swap_##size); \
    type sync_swap_##size(volatile void *place, type wanted, type value) \
    { \
        type old = *(volatile type *)place; \
        if (old == wanted) \
            *(volatile type *)place = value; \
        return old; \
    } \
    bool sync_swapped_##size(volatile void *place, type wanted, type value) \
        NAMED(__sync_bool_compare_and_swap_##size); \
    bool sync_swapped_##size(volatile void *place, type wanted, type value) \
    { \
        return sync_swap_##size(place, wanted, value) == wanted; \
    } \
    bool compare_##size(volatile void *place, void *wanted, type value, int done, int refused) \
        NAMED(__atomic_compare_exchange_##size); \
    bool compare_##size(volatile void *place, void *wanted, type value, int done, int refused) \
    { \
        type old = sync_swap_##size(place, *(type *)wanted, value); \
        bool is_done = old == *(type *)wanted; \
        (void)done, (void)refused; \
        *(type *)wanted = old; \
        return is_done; \
    }

#define OF_SIZE(type, size) \
    FETCH(type, size, add, old + value) \
    FETCH(type, size, sub, old - value) \
    FETCH(type, size, and, old & value) \
    FETCH(type, size, or, old | value) \
    FETCH(type, size, xor, old ^ value) \
    FETCH(type, size, nand, ~(old & value)) \
    EXCHANGE(type, size) \
    COMPARE(type, size)

OF_SIZE(uint8_t, 1)
OF_SIZE(uint16_t, 2)
OF_SIZE(uint32_t, 4)
OF_SIZE(uint64_t, 8)

/* Values of any other size, by their addresses. */

void any_load(size_t size, const void *place, void *value, int order) NAMED(__atomic_load);
void any_load(size_t size, const void *place, void *value, int order)
{
    (void)order;
    memcpy(value, place, size);
}

void any_store(size_t size, void *place, const void *value, int order) NAMED(__atomic_store);
void any_store(size_t size, void *place, const void *value, int order)
{
    (void)order;
    memcpy(place, value, size);
}

void any_exchange(size_t size, void *place, const void *value, void *old, int order) NAMED(__atomic_exchange);
void any_exchange(size_t size, void *place, const void *value, void *old, int order)
{
    (void)order;
    memcpy(old, place, size);
    memcpy(place, value, size);
}

bool any_compare(size_t size, void *place, void *wanted, const void *value, int done, int refused)
    NAMED(__atomic_compare_exchange);
bool any_compare(size_t size, void *place, void *wanted, const void *value, int done, int refused)
{
    bool is_done = memcmp(place, wanted, size) == 0;

    (void)done, (void)refused;
    memcpy(is_done ? place : wanted, is_done ? value : place, size);
    return is_done;
}

bool is_lock_free(size_t size, const void *place) NAMED(__atomic_is_lock_free);
bool is_lock_free(size_t size, const void *place)
{
    (void)size, (void)place;
    return true;
}
