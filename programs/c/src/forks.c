/* forks: how many processes fit. It makes children until fork refuses. Each child waits until its parent has
   closed the pipe that both are on. */
#include "user.h"

int main(void)
{
    int ends[2];
    int children = 0;
    int child;
    char byte;

    if (pipe(ends) < 0)
        fail("forks: there is no room for a pipe\n");
    while ((child = fork()) > 0)
        children++;
    if (child == 0) {
        close(ends[1]);
        return read(ends[0], &byte, 1);
    }
    printf("%d children, and then fork answers %d\n", children, child);
    close(ends[1]);
    for (int ended = 0; ended < children; ended++)
        if (wait(NULL) < 0)
            fail("forks: a child is lost\n");
    printf("all have ended\n");
    return 0;
}
