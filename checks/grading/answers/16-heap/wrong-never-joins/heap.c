/* Free blocks in a list by their addresses, the first that fits is taken, and neighbours are never joined. */
#include "user.h"
#include "heap.h"

struct piece {
    unsigned long bytes; /* with this head; a multiple of 16 */
    struct piece *next;  /* of a free piece */
};

static struct piece *pieces; /* the free ones, by rising addresses */

/* Puts a piece among the free ones, and joins it with its neighbours. */
static void put(struct piece *piece)
{
    struct piece **place = &pieces, *before = NULL;
    while (*place != NULL && *place < piece) {
        before = *place;
        place = &before->next;
    }
    piece->next = *place;
    *place = piece;
    (void)before;
}

static int more(unsigned long bytes)
{
    unsigned long whole = (bytes + 1023) / 1024 * 1024;
    struct piece *piece = (struct piece *)sbrk((int)whole);
    if ((char *)piece == NO_MEMORY)
        return 0;
    piece->bytes = whole;
    put(piece);
    return 1;
}

static void *take(long bytes)
{
    unsigned long wanted = ((unsigned long)bytes + sizeof(struct piece) + 15) / 16 * 16;
    do {
        for (struct piece **place = &pieces; *place != NULL; place = &(*place)->next) {
            struct piece *piece = *place;
            if (piece->bytes < wanted)
                continue;
            if (piece->bytes >= wanted + 32) {
                struct piece *rest = (struct piece *)((char *)piece + wanted);
                rest->bytes = piece->bytes - wanted;
                rest->next = piece->next;
                piece->bytes = wanted;
                *place = rest;
            } else {
                *place = piece->next;
            }
            return piece + 1;
        }
    } while (more(wanted));
    return NULL;
}

static void give(void *block)
{
    put((struct piece *)block - 1);
}

static long answer(struct request request)
{
    switch (request.what) {
    case TAKE:
        return (long)take(request.value);
    case GIVE:
        give((void *)request.value);
        return 0;
    case STORE:
        *(char *)request.value = (char)request.byte;
        return 0;
    default:
        return *(unsigned char *)request.value;
    }
}

int main(void)
{
    struct request request;
    sbrk((int)(-(unsigned long)sbrk(0) % 16)); /* blocks begin at multiples of 16 */
    while (read(INPUT, &request, sizeof request) == sizeof request) {
        long told = answer(request);
        write(OUTPUT, &told, sizeof told);
    }
    return 0;
}
