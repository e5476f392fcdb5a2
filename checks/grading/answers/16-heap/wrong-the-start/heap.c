/* Exercise 16. An allocator that never uses a block twice: write take and give anew. The rest may stay as it is. */
#include "user.h"
#include "heap.h"

static void *take(long bytes)
{
    char *block = sbrk((int)((bytes + 15) / 16 * 16));
    return block == NO_MEMORY ? NULL : block;
}

static void give(void *block)
{
    (void)block;
}

static long answer(struct request request)
{
    switch (request.what) {
    case TAKE:
        return (long)take(request.value);
    case GIVE:
        give((void *)request.value);
        return 0;
    case STORE:
        *(char *)request.value = (char)request.byte;
        return 0;
    default:
        return *(unsigned char *)request.value;
    }
}

int main(void)
{
    struct request request;
    sbrk((int)(-(unsigned long)sbrk(0) % 16)); /* blocks begin at multiples of 16 */
    while (read(INPUT, &request, sizeof request) == sizeof request) {
        long told = answer(request);
        write(OUTPUT, &told, sizeof told);
    }
    return 0;
}
