#include "user.h"

int main(void)
{
    int ends[2];
    char byte;
    pipe(ends);
    if (fork() == 0) {
        read(ends[0], &byte, 1);
        exit(0);
    }
    wait(0);
    return 0;
}
