/* A child asks, and its parent prints what comes through a pipe. */
#include "user.h"

int main(void)
{
    int ends[2];
    unsigned long ticks = 0;
    pipe(ends);
    if (fork() == 0) {
        ticks = uptime();
        write(ends[1], &ticks, sizeof ticks);
        exit(0);
    }
    read(ends[0], &ticks, sizeof ticks);
    wait(NULL);
    printf("%lu\n", ticks);
    return 0;
}
