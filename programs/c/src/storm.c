/* storm SEED STEPS: a tree of processes makes random calls, most of which are senseless. Then all of them are killed,
   and it tells whether as many pages are free as before. The same seed makes the same calls. */
#include "user.h"

enum { LEAST = 3, DEEPEST = 5 }; /* the least descriptor that is touched; the depth of the tree */

static uint64_t state;
static char bytes[3000];
static int storm;     /* this program's first process: those with greater pids are killed */
static char *first_end;
static int depth;

static int below(int bound)
{
    state ^= state << 13;
    state ^= state >> 7;
    state ^= state << 17;
    return (state >> 32) % (unsigned)bound;
}

static int some_descriptor(void)
{
    return LEAST + below(DESCRIPTORS - LEAST);
}

/* A place in the memory that has grown, whose pages may be absent, or in the program's own. */
static char *some_place(void)
{
    long room = sbrk(0) - first_end;

    return room > 0 && below(2) == 0 ? first_end + below(room) : bytes;
}

static void make_pipe(void)
{
    int ends[2];

    if (pipe(ends) < 0)
        return;
    write(ends[1], bytes, below(PIPE_BYTES) + 1);
    read(ends[0], bytes, below(sizeof bytes) + 1);
}

static void close_some(void)
{
    close(some_descriptor());
}

static void copy_some(void)
{
    dup(some_descriptor());
}

static void read_some(void)
{
    int file = open("storm", TO_READ);

    if (file >= 0)
        read(file, some_place(), below(sizeof bytes));
}

/* A read or a write that may wait for ever: others may close the other end, or kill. */
static void move_some(void)
{
    if (below(4) == 0)
        read(some_descriptor(), some_place(), below(sizeof bytes));
    else
        write(some_descriptor(), some_place(), below(sizeof bytes));
}

static void grow(void)
{
    char *end = sbrk(below(5 * PAGE_BYTES));

    if (end != NO_MEMORY)
        memset(end, 1, sbrk(0) - end);
}

/* Grows by up to a megabyte of absent pages, and stores a byte into the first of them, and one anywhere. */
static void grow_lazily(void)
{
    char *end = sbrklazy(1 + below(1 << 20));

    if (end == NO_MEMORY)
        return;
    *some_place() = 1;
    *end = 1;
}

static void shrink(void)
{
    int count = below(3 * PAGE_BYTES);

    if (sbrk(0) - count >= first_end)
        sbrk(-count);
}

static void make_calls(int steps);

static void make_child(void)
{
    if (depth == DEEPEST || fork() != 0)
        return;
    depth++;
    state += 77 * getpid();
    make_calls(30);
    exit(below(5));
}

static void wait_for_some(void)
{
    if (below(2) == 0)
        wait(NULL);
}

static void kill_some(void)
{
    kill(storm + 1 + below(getpid() - storm + 20));
}

static void sleep_some(void)
{
    sleep(below(3));
}

static void become_another(void)
{
    static char *const texts[] = {"storm", NULL};

    if (depth > 0 && below(10) == 0)
        exec("storm", texts);
}

static void make_calls(int steps)
{
    static void (*const acts[])(void) = {
        make_pipe, close_some, close_some, copy_some, read_some,     move_some,  grow,
        shrink,    make_child, make_child, kill_some, wait_for_some, sleep_some, become_another, grow_lazily,
    };

    for (; steps > 0; steps--)
        acts[below(sizeof acts / sizeof acts[0])]();
}

static int count_free_pages(void)
{
    int pages = 0;

    while (sbrk(PAGE_BYTES) != NO_MEMORY)
        pages++;
    sbrk(-pages * PAGE_BYTES);
    return pages;
}

/* Kills all that came of the storm, until there is none, and answers how many there were. Init takes in those whose
   parent is gone. A new child's pid tells how many there may be. */
static int end_all(int first)
{
    int probes = 0;
    int last;
    int found;

    do {
        last = fork();
        if (last == 0)
            exit(0);
        probes += last > 0;
        found = last < 0;
        for (int pid = first; pid < (found ? first + 10000 : last); pid++)
            found |= kill(pid) == 0;
        sleep(10);
        while (wait(NULL) > 0)
            ;
    } while (found);
    return last - first - probes + 1;
}

int main(int count, char *words[])
{
    if (count != 3)
        return 0;
    int before = count_free_pages();
    storm = getpid();
    first_end = sbrk(0);
    state = 88172645463325252 + atoi(words[1]) * 7919;
    int first = fork();
    if (first < 0)
        fail("storm: there is no room for a process\n");
    if (first == 0) {
        make_calls(atoi(words[2]));
        exit(0);
    }
    sleep(300);
    int made = end_all(first);
    int lost = before - count_free_pages();
    printf("storm %s: %d processes, %d pages are lost\n", words[1], made, lost);
    return lost != 0;
}
