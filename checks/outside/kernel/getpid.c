/* getpid: each process has a number of its own, and keeps it. */
#include "tell.h"

static int parent;

static void compare_with_parent(void)
{
    tell("a child has another", kernel_getpid() != parent);
    tell("the same at each call", kernel_getpid() == kernel_getpid());
}

int main(void)
{
    parent = kernel_getpid();
    tell("above 0", parent > 0);
    status_of(compare_with_parent);
    status_of(compare_with_parent);
    tell("the same after a fork", kernel_getpid() == parent);
    return 0;
}
