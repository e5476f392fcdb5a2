/* sleep: others go on meanwhile, and who sleeps less wakes first. */
#include "tell.h"

static int ends[2];

static void sleep_and_write(int ticks, const char *letter)
{
    if (kernel_fork() != 0)
        return;
    kernel_sleep(ticks);
    kernel_write(ends[1], letter, 1);
    kernel_exit(0);
}

int main(void)
{
    char letters[4] = "";
    int count = 0, more;

    tell("sleep(1)", kernel_sleep(1));
    tell("sleep(0)", kernel_sleep(0));
    kernel_pipe(ends);
    sleep_and_write(300, "c");
    sleep_and_write(150, "b");
    sleep_and_write(50, "a");
    kernel_close(ends[1]);
    while ((more = kernel_read(ends[0], letters + count, 1)) > 0)
        count += more;
    tell("all have written", count);
    tell("first", letters[0]);
    tell("second", letters[1]);
    tell("third", letters[2]);
    return 0;
}
