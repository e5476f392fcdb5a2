/* Exercise 16: the checker, as the first process. It runs the program `heap`, asks it for blocks and gives them back, as the file `plan`
   says, and exits with 0 if all is well. Its words and statuses:

     1  an address is no multiple of 16, or there is no room
     2  two blocks overlap
     3  a byte of a block has changed
     4  the blocks lie too far apart: what is given back isn't used again
     5  the allocator has ended

   The plan has four numbers: a kind (0: blocks of all sizes in any order; 1: blocks that fill a room, then all given back, again and again,
   and each time fewer and larger, from 24 down to one), the seed of the sizes, how many requests or how many times, and over how many
   bytes the blocks may lie.

   Into each block it stores bytes at sixteen places, of which two are its ends, and looks for all of them before it gives the block back. */
#include "user.h"
#include "heap.h"

enum { BLOCKS = 24, USUAL = 1500, LARGEST = 6000, ROOM = 44000, PLACES = 16 };

struct block {
    long at;    /* 0: there is none */
    long bytes;
    unsigned long mark; /* what gives the places in it, and the bytes there */
};

static struct block blocks[BLOCKS];
static int to_heap[2], from_heap[2];
static unsigned long state;
static long lowest, highest, span;

static long next_below(unsigned long *from, long most)
{
    *from = *from * 6364136223846793005UL + 1442695040888963407UL;
    return (long)((*from >> 33) % (unsigned long)most);
}

static long number_below(long most)
{
    return next_below(&state, most);
}

static _Noreturn void refuse(int status, const char *why, long at)
{
    printf("%s: 0x%lx\n", why, at);
    exit(status);
}

static long asked(long what, long value, long byte)
{
    struct request request = {what, value, byte};
    long answer;
    write(to_heap[1], &request, sizeof request);
    if (read(from_heap[0], &answer, sizeof answer) != sizeof answer)
        refuse(5, "the allocator has ended", 0);
    return answer;
}

static int overlap(const struct block *one, const struct block *other)
{
    return one->at < other->at + other->bytes && other->at < one->at + one->bytes;
}

/* The place of a number in a block: its first byte, its last one, or any. */
static long place_in(const struct block *block, int number, unsigned long *from)
{
    long any = next_below(from, block->bytes);
    return number == 0 ? 0 : number == 1 ? block->bytes - 1 : any;
}

/* The byte that belongs to a place of a block. */
static long byte_at(const struct block *block, long place)
{
    return (long)((block->mark + (unsigned long)place * 7) % 251);
}

static void fill_block(const struct block *block)
{
    unsigned long from = block->mark;
    for (int number = 0; number < PLACES; number++) {
        long place = place_in(block, number, &from);
        asked(STORE, block->at + place, byte_at(block, place));
    }
}

static void look_into_block(const struct block *block)
{
    unsigned long from = block->mark;
    for (int number = 0; number < PLACES; number++) {
        long place = place_in(block, number, &from);
        if (asked(LOAD, block->at + place, 0) != byte_at(block, place))
            refuse(3, "a byte of a block has changed", block->at + place);
    }
}

static void take_block(struct block *block, long bytes)
{
    struct block made = {asked(TAKE, bytes, 0), bytes, (unsigned long)number_below(1000000)};
    if (made.at == 0 || made.at % 16 != 0)
        refuse(1, "no address of a block", made.at);
    for (int k = 0; k < BLOCKS; k++)
        if (blocks[k].at != 0 && overlap(&made, &blocks[k]))
            refuse(2, "two blocks overlap", made.at);
    if (lowest == 0 || made.at < lowest)
        lowest = made.at;
    if (made.at + bytes > highest)
        highest = made.at + bytes;
    if (highest - lowest > span)
        refuse(4, "the blocks lie too far apart", made.at);
    fill_block(&made);
    *block = made;
}

static void give_block(struct block *block)
{
    look_into_block(block);
    asked(GIVE, block->at, 0);
    block->at = 0;
}

/* One block in six may be large. */
static long any_size(void)
{
    return 1 + number_below(number_below(6) == 0 ? LARGEST : USUAL);
}

static void any_order(long requests)
{
    for (long k = 0; k < requests; k++) {
        struct block *block = &blocks[number_below(BLOCKS)];
        if (block->at == 0)
            take_block(block, any_size());
        else
            give_block(block);
    }
}

/* Each time there are half as many blocks, each twice as large, so what was given back fits only if neighbours are joined. After one
   block that fills the room there are 24 again. */
static void ever_larger(long times)
{
    int count = BLOCKS;
    for (long k = 0; k < times; k++) {
        for (int place = 0; place < count; place++)
            take_block(&blocks[place], ROOM / count - number_below(16));
        for (int place = 0; place < count; place++)
            give_block(&blocks[(place * 5 + 7) % count]);
        count = count == 1 ? BLOCKS : count / 2;
    }
}

static _Noreturn void become_heap(void)
{
    char *const texts[] = {"heap", NULL};
    close(INPUT);
    dup(to_heap[0]);
    close(OUTPUT);
    dup(from_heap[1]);
    for (int k = 0; k < 2; k++) {
        close(to_heap[k]);
        close(from_heap[k]);
    }
    exec("heap", texts);
    exit(1);
}

static long next_number(char **text)
{
    long number = 0;
    while (**text < '0' || **text > '9')
        (*text)++;
    for (; **text >= '0' && **text <= '9'; (*text)++)
        number = number * 10 + (**text - '0');
    return number;
}

int main(void)
{
    static char text[64];
    char *place = text;
    open("console", TO_READ);
    open("console", TO_WRITE);
    open("console", TO_WRITE);
    int plan = open("plan", TO_READ);
    if (read(plan, text, sizeof text - 1) <= 0)
        return 9;
    close(plan);
    long kind = next_number(&place);
    state = (unsigned long)next_number(&place);
    long requests = next_number(&place);
    span = next_number(&place);
    pipe(to_heap);
    pipe(from_heap);
    if (fork() == 0)
        become_heap();
    close(to_heap[0]);
    close(from_heap[1]);
    if (kind == 0)
        any_order(requests);
    else
        ever_larger(requests);
    close(to_heap[1]);
    wait(NULL);
    printf("all is well\n");
    return 0;
}
