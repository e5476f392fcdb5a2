/* read: at most so many bytes as are asked for, of a file and of a pipe. Its word is a file of at least 100 bytes. */
#include "tell.h"

static int ends[2];

static void write_late(void)
{
    kernel_sleep(3);
    kernel_write(ends[1], "late", 4);
}

int main(int count, char **words)
{
    char bytes[200];
    int file = kernel_open(words[count - 1], 0), other = kernel_open(words[count - 1], 0), sum = 0, more;

    tell("100 bytes of a file", kernel_read(file, bytes, 100));
    for (int i = 0; i < 100; i++)
        sum += bytes[i];
    tell("their sum", sum);
    tell("the first byte by another descriptor", kernel_read(other, bytes + 1, 1) == 1 && bytes[1] == bytes[0]);
    tell("no bytes", kernel_read(file, bytes, 0));
    tell("into nowhere", kernel_read(file, NOWHERE, 10));
    tell("less than no bytes", kernel_read(file, bytes, -1));
    for (sum = 0; (more = kernel_read(file, bytes, sizeof bytes)) > 0; sum += more)
        continue;
    tell("to its end", sum);
    tell("at its end", more);
    tell("of no descriptor", kernel_read(NO_DESCRIPTOR, bytes, 1));
    tell("of a descriptor below 0", kernel_read(-1, bytes, 1));
    kernel_pipe(ends);
    if (kernel_fork() == 0) {
        write_late();
        kernel_exit(0);
    }
    tell("of an empty pipe, when bytes come", kernel_read(ends[0], bytes, 200));
    tell("the first of them", bytes[0]);
    kernel_wait(NULL);
    kernel_write(ends[1], "12345", 5);
    tell("less than there is", kernel_read(ends[0], bytes, 2));
    tell("the rest", kernel_read(ends[0], bytes, 200));
    tell("its first byte", bytes[0]);
    return 0;
}
