/* The parent reads up to the pipe's end, and exits with the number of bytes. */
#include "user.h"

int main(void)
{
    int ends[2], count = 0;
    char byte;
    if (pipe(ends) < 0)
        return 100;
    if (fork() == 0) {
        write(ends[1], "abc", 3);
        exit(0);
    }
    close(ends[1]);
    while (read(ends[0], &byte, 1) == 1)
        count++;
    return count;
}
