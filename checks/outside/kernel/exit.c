/* exit: a process ends with a status, its descriptors are closed, and its children live on. */
#include "tell.h"

static int ends[2];

static void exit_0(void) { kernel_exit(0); }
static void exit_1(void) { kernel_exit(1); }
static void exit_255(void) { kernel_exit(255); }
static void exit_256(void) { kernel_exit(256); }
static void exit_minus_1(void) { kernel_exit(-1); }

/* Leaves a child, which writes when its parent is gone. */
static void leave_a_child(void)
{
    if (kernel_fork() == 0) {
        kernel_sleep(3);
        kernel_write(ends[1], "orphan", 6);
        kernel_exit(0);
    }
    kernel_exit(4);
}

int main(void)
{
    char bytes[6];
    int status;

    tell("exit(0)", status_of(exit_0));
    tell("exit(1)", status_of(exit_1));
    tell("exit(255)", status_of(exit_255));
    tell("exit(256)", status_of(exit_256));
    tell("exit(-1)", status_of(exit_minus_1));
    kernel_pipe(ends);
    tell("a parent's status", status_of(leave_a_child));
    kernel_close(ends[1]);
    tell("bytes of its child", kernel_read(ends[0], bytes, 6));
    tell("bytes when the child has ended", kernel_read(ends[0], bytes, 6));
    tell("an orphan isn't the grandparent's child", kernel_wait(&status));
    return 0;
}
