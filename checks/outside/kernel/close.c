/* close: a number is free again, and what it led to is gone when nobody has it. Its word is a file. */
#include "tell.h"

int main(int count, char **words)
{
    int file = kernel_open(words[count - 1], 0), ends[2];
    char byte;

    tell("close", kernel_close(file));
    tell("a second time", kernel_close(file));
    tell("read", kernel_read(file, &byte, 1));
    tell("no descriptor", kernel_close(NO_DESCRIPTOR));
    tell("one below 0", kernel_close(-1));
    tell("the number is free", kernel_open(words[count - 1], 0) == file);
    kernel_pipe(ends);
    if (kernel_fork() == 0) {
        kernel_close(ends[0]);
        kernel_sleep(3);
        kernel_write(ends[1], "x", 1);
        kernel_exit(0);
    }
    kernel_close(ends[1]);
    tell("one other can write still", kernel_read(ends[0], &byte, 1));
    tell("and then nobody", kernel_read(ends[0], &byte, 1));
    kernel_close(0);
    tell("number 0 is free", kernel_open(words[count - 1], 0));
    return 0;
}
