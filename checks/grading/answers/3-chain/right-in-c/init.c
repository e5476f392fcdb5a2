/* A chain of eight processes: each makes the next one, and waits for it. */
#include "user.h"

static int link_of_chain(int left)
{
    int child, status;
    if (left == 0)
        return 1;
    child = fork();
    if (child == 0)
        exit(link_of_chain(left - 1));
    wait(&status);
    return status + 1;
}

int main(void)
{
    return link_of_chain(7);
}
