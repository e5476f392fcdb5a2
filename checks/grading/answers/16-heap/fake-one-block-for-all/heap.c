/* Exercise 16. It gives the same block to all. */
#include "user.h"
#include "heap.h"

static void *take(long bytes)
{
    static char *block;
    if (block == NULL)
        block = sbrk(4096);
    (void)bytes;
    return block;
}

static void give(void *block)
{
    (void)block;
}

static long answer(struct request request)
{
    switch (request.what) {
    case TAKE:
        return (long)take(request.value);
    case GIVE:
        give((void *)request.value);
        return 0;
    case STORE:
        *(char *)request.value = (char)request.byte;
        return 0;
    default:
        return *(unsigned char *)request.value;
    }
}

int main(void)
{
    struct request request;
    sbrk((int)(-(unsigned long)sbrk(0) % 16)); /* blocks begin at multiples of 16 */
    while (read(INPUT, &request, sizeof request) == sizeof request) {
        long told = answer(request);
        write(OUTPUT, &told, sizeof told);
    }
    return 0;
}
