/* kill: a process of this number ends, even if it sleeps, and its parent is told. */
#include "tell.h"

static int ends[2];

static void kill_itself(void)
{
    kernel_kill(kernel_getpid());
    for (;;)
        ;
}

/* What the parent is told of a child that is killed while it does this. */
static int killed_while(void (*act)(void))
{
    int status = -9, child = kernel_fork();

    if (child == 0) {
        act();
        kernel_exit(7);
    }
    kernel_sleep(2);
    tell("kill", kernel_kill(child));
    tell("wait answers it", kernel_wait(&status) == child);
    return status;
}

static void compute(void)
{
    for (;;)
        ;
}

static void sleep_long(void) { kernel_sleep(1000000); }

static void read_nothing(void)
{
    char byte;

    kernel_read(ends[0], &byte, 1);
}

int main(void)
{
    int child, status = -9;

    kernel_pipe(ends);
    tell("itself", status_of(kill_itself));
    tell("one that computes", killed_while(compute));
    tell("one that sleeps", killed_while(sleep_long));
    tell("one that reads an empty pipe", killed_while(read_nothing));
    if ((child = kernel_fork()) == 0)
        kernel_exit(5);
    kernel_sleep(3);
    tell("one that has ended", kernel_kill(child));
    tell("wait answers it", kernel_wait(&status) == child);
    tell("with its own status", status);
    tell("one that is gone", kernel_kill(child));
    return 0;
}
