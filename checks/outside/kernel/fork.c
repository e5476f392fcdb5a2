/* fork: two processes go on, each with a memory of its own and with the same descriptors. */
#include "tell.h"

static int shared = 1;

int main(void)
{
    int ends[2], sent[3], status = -9, child;

    kernel_pipe(ends);
    child = kernel_fork();
    if (child == 0) {
        sent[0] = kernel_getpid();
        sent[1] = shared;
        shared = 5;
        sent[2] = shared;
        kernel_write(ends[1], sent, sizeof sent);
        kernel_exit(3);
    }
    shared = 2;
    tell("bytes of the child", kernel_read(ends[0], sent, sizeof sent));
    tell("fork answers the child's pid", child == sent[0] && child > 0);
    tell("the child begins with the parent's memory", sent[1]);
    tell("the child has what it has written", sent[2]);
    tell("the parent has what it has written", shared);
    tell("wait answers the child", kernel_wait(&status) == child);
    tell("its status", status);
    kernel_close(ends[1]);
    tell("nobody else has the end for writing", kernel_read(ends[0], sent, 1));
    return 0;
}
