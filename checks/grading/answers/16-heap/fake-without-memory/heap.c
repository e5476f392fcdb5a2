/* Exercise 16. It has no memory: it tells addresses, and keeps nothing. */
#include "user.h"
#include "heap.h"

static void *take(long bytes)
{
    static long next = 1 << 20;
    long at = next;
    next += (bytes + 15) / 16 * 16;
    return (void *)at;
}

static void give(void *block)
{
    (void)block;
}

static long answer(struct request request)
{
    switch (request.what) {
    case TAKE:
        return (long)take(request.value);
    case GIVE:
        give((void *)request.value);
        return 0;
    case STORE:
        return 0;
    default:
        return request.byte;
    }
}

int main(void)
{
    struct request request;
    sbrk((int)(-(unsigned long)sbrk(0) % 16)); /* blocks begin at multiples of 16 */
    while (read(INPUT, &request, sizeof request) == sizeof request) {
        long told = answer(request);
        write(OUTPUT, &told, sizeof told);
    }
    return 0;
}
