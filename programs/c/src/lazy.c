/* lazy: grows by a gigabyte, and touches three pages of it. A page comes, full of zeros, when it is first touched, so a
   few frames are enough. A child has a copy of these pages, and may touch others of its own. */
#include "user.h"

enum { GIGABYTE = 1 << 30, PLACES = 3 };

static const long places[PLACES] = {0, GIGABYTE / 2, GIGABYTE - 1};
static char *memory;

static void show(const char *who)
{
    printf("%s", who);
    for (int n = 0; n < PLACES; n++)
        printf(" %d", memory[places[n]]);
    printf("\n");
}

/* Stores a number in each of the places, from the first one on. */
static void store(int first)
{
    for (int n = 0; n < PLACES; n++)
        memory[places[n]] = first + n;
}

int main(void)
{
    memory = sbrklazy(GIGABYTE);
    if (memory == NO_MEMORY)
        fail("lazy: there is no room\n");
    printf("the memory had %ld bytes and has %ld\n", (long)memory, (long)sbrk(0));
    show("the parent loads");
    store(1);
    show("it stores, and loads");
    int child = fork();
    if (child < 0)
        fail("lazy: there is no room for a child\n");
    if (child == 0) {
        show("the child loads");
        store(4);
        show("it stores, and loads");
        return 0;
    }
    wait(NULL);
    show("the parent still loads");
    return 0;
}
