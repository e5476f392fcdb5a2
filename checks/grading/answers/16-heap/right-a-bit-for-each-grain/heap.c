/* A fixed room of grains of 16 bytes, with a byte for each that tells whether it is free, goes on, or ends a block. No sbrk. */
#include "user.h"
#include "heap.h"

enum { GRAIN = 16, GRAINS = 6000 };
enum state { FREE, GOES_ON, ENDS };

static char room[GRAINS * GRAIN] __attribute__((aligned(16)));
static char states[GRAINS];

static void *take(long bytes)
{
    int wanted = (int)((bytes + GRAIN - 1) / GRAIN), run = 0;
    for (int k = 0; k < GRAINS; k++) {
        run = states[k] == FREE ? run + 1 : 0;
        if (run < wanted)
            continue;
        for (int it = k - wanted + 1; it < k; it++)
            states[it] = GOES_ON;
        states[k] = ENDS;
        return room + (k - wanted + 1) * GRAIN;
    }
    return NULL;
}

static void give(void *block)
{
    int k = (int)(((char *)block - room) / GRAIN);
    for (; states[k] == GOES_ON; k++)
        states[k] = FREE;
    states[k] = FREE;
}

static long answer(struct request request)
{
    switch (request.what) {
    case TAKE:
        return (long)take(request.value);
    case GIVE:
        give((void *)request.value);
        return 0;
    case STORE:
        *(char *)request.value = (char)request.byte;
        return 0;
    default:
        return *(unsigned char *)request.value;
    }
}

int main(void)
{
    struct request request;
    while (read(INPUT, &request, sizeof request) == sizeof request) {
        long told = answer(request);
        write(OUTPUT, &told, sizeof told);
    }
    return 0;
}
