/* sbrk: memory is added at the end, with zeros, and taken away there. */
#include "tell.h"

static char *end;

static void load_behind_the_end(void) { tell("never", *(volatile char *)(end + 4 * PAGE_BYTES)); }

static int are_zeros(const char *bytes, int count)
{
    while (count > 0 && bytes[count - 1] == 0)
        count--;
    return count == 0;
}

/* A child's memory may grow, and its parent's doesn't. */
static void grow_and_write(void)
{
    char *more = kernel_sbrk(10 * PAGE_BYTES);

    more[9 * PAGE_BYTES] = 1;
    end[0] = 77;
    tell("a child grows at the same place", more == end + 3 * PAGE_BYTES);
}

int main(void)
{
    end = kernel_sbrk(0);
    tell("no bytes change nothing", kernel_sbrk(0) == end);
    tell("growing answers the old end", kernel_sbrk(3 * PAGE_BYTES) == end);
    tell("the new end", kernel_sbrk(0) - end);
    tell("zeros", are_zeros(end, 3 * PAGE_BYTES));
    end[0] = 5;
    end[3 * PAGE_BYTES - 1] = 6;
    tell("status of a child", status_of(grow_and_write));
    tell("the parent's end stays", kernel_sbrk(0) - end);
    tell("and its bytes", end[0] + end[3 * PAGE_BYTES - 1]);
    tell("shrinking answers the old end", kernel_sbrk(-2 * PAGE_BYTES) - end);
    tell("the new end", kernel_sbrk(0) - end);
    tell("what is left stays", end[0]);
    tell("growing again", kernel_sbrk(2 * PAGE_BYTES) - end);
    tell("zeros again", are_zeros(end + PAGE_BYTES, 2 * PAGE_BYTES));
    tell("a load behind the end", status_of(load_behind_the_end));
    tell("more than there is", (long)kernel_sbrk(-0x7fffffff));
    tell("the end stays then", kernel_sbrk(0) - end);
    return 0;
}
