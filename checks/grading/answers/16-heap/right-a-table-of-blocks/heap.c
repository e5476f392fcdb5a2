/* The blocks stand in a table by their addresses, apart from the memory; the smallest gap that fits is taken. */
#include "user.h"
#include "heap.h"

enum { MOST = 64, STEP = 8192 };

static struct {
    char *from, *to;
} table[MOST];
static int count;
static char *begin, *end;

static int grow(char *needed)
{
    while (end < needed) {
        if (sbrk(STEP) == NO_MEMORY)
            return 0;
        end += STEP;
    }
    return 1;
}

static void *take(long bytes)
{
    long wanted = (bytes + 15) / 16 * 16, best = -1, gap;
    int at = count;
    if (begin == NULL)
        begin = end = sbrk(0) + (-(unsigned long)sbrk(0)) % 16;
    char *place = begin, *before = begin;
    for (int k = 0; k < count; before = table[k].to, k++) {
        gap = table[k].from - before;
        if (gap >= wanted && (best < 0 || gap < best)) {
            best = gap;
            at = k;
            place = before;
        }
    }
    if (best < 0)
        place = before;
    if (count == MOST || !grow(place + wanted + 16))
        return NULL;
    for (int k = count; k > at; k--)
        table[k] = table[k - 1];
    table[at].from = place;
    table[at].to = place + wanted;
    count++;
    return place;
}

static void give(void *block)
{
    int k = 0;
    while (k < count && table[k].from != (char *)block)
        k++;
    if (k == count)
        return;
    for (count--; k < count; k++)
        table[k] = table[k + 1];
}

static long answer(struct request request)
{
    switch (request.what) {
    case TAKE:
        return (long)take(request.value);
    case GIVE:
        give((void *)request.value);
        return 0;
    case STORE:
        *(char *)request.value = (char)request.byte;
        return 0;
    default:
        return *(unsigned char *)request.value;
    }
}

int main(void)
{
    struct request request;
    while (read(INPUT, &request, sizeof request) == sizeof request) {
        long told = answer(request);
        write(OUTPUT, &told, sizeof told);
    }
    return 0;
}
