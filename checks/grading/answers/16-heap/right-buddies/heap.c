/* Buddies: blocks of 32 << n bytes in one region, whose halves are joined again when both are free. */
#include "user.h"
#include "heap.h"

enum { ORDERS = 13, REGION_ORDER = 12 }; /* 32 << 12 = 131,072 bytes */

struct piece {
    struct piece *next;
};

static struct piece *pieces[ORDERS];
static char *region;
static unsigned char order_of[32 << (REGION_ORDER - 5)]; /* of the block that begins at each 32 bytes */

static void begin(void)
{
    if (region != NULL)
        return;
    region = sbrk(32 << REGION_ORDER);
    pieces[REGION_ORDER] = (struct piece *)region;
    pieces[REGION_ORDER]->next = NULL;
}

static void *take(long bytes)
{
    int order = 0, at;
    begin();
    while ((32L << order) < bytes)
        order++;
    for (at = order; at < ORDERS && pieces[at] == NULL; at++)
        ;
    if (at == ORDERS)
        return NULL;
    struct piece *piece = pieces[at];
    pieces[at] = piece->next;
    while (at > order) {
        at--;
        struct piece *half = (struct piece *)((char *)piece + (32L << at));
        half->next = pieces[at];
        pieces[at] = half;
    }
    order_of[((char *)piece - region) / 32] = (unsigned char)order;
    return piece;
}

static int took_out(struct piece *piece, int order)
{
    for (struct piece **place = &pieces[order]; *place != NULL; place = &(*place)->next)
        if (*place == piece) {
            *place = piece->next;
            return 1;
        }
    return 0;
}

static void give(void *block)
{
    long at = (char *)block - region;
    int order = order_of[at / 32];
    while (order < REGION_ORDER && took_out((struct piece *)(region + (at ^ (32L << order))), order)) {
        at &= ~(32L << order);
        order++;
    }
    struct piece *piece = (struct piece *)(region + at);
    piece->next = pieces[order];
    pieces[order] = piece;
}

static long answer(struct request request)
{
    switch (request.what) {
    case TAKE:
        return (long)take(request.value);
    case GIVE:
        give((void *)request.value);
        return 0;
    case STORE:
        *(char *)request.value = (char)request.byte;
        return 0;
    default:
        return *(unsigned char *)request.value;
    }
}

int main(void)
{
    struct request request;
    sbrk((int)(-(unsigned long)sbrk(0) % 32)); /* blocks begin at multiples of 32 */
    while (read(INPUT, &request, sizeof request) == sizeof request) {
        long told = answer(request);
        write(OUTPUT, &told, sizeof told);
    }
    return 0;
}
