/* pingpong [TIMES]: a parent and its child hand one byte to and fro, over two pipes. */
#include "user.h"

static void hand_over(int from, int to, const char *name, int times)
{
    char byte;

    for (int time = 1; time <= times; time++) {
        if (read(from, &byte, 1) != 1)
            fail("%s: nothing comes\n", name);
        printf("%d: process %d has it (%s)\n", time, getpid(), name);
        if (write(to, &byte, 1) != 1)
            fail("%s: nobody takes it\n", name);
    }
}

int main(int count, char *words[])
{
    int times = count > 1 ? atoi(words[1]) : 1;
    int down[2];
    int up[2];
    int status;

    if (pipe(down) < 0 || pipe(up) < 0)
        fail("pingpong: there is no room for a pipe\n");
    int child = fork();
    if (child < 0)
        fail("pingpong: there is no room for a process\n");
    if (child == 0) {
        hand_over(down[0], up[1], "child", times);
        return 0;
    }
    write(down[1], "!", 1);
    hand_over(up[0], down[1], "parent", times);
    wait(&status);
    return status;
}
