/* A program that is right. The files beside it are built of it, each with one switch that is wrong: see build.sh. */
#include "user.h"

int greetings = 1; /* a variable that doesn't begin as 0 stands in the file, in a segment that may be written */

int main(void)
{
    open("console", TO_BOTH);
    dup(0);
    dup(0);
    for (; greetings > 0; greetings--)
        printf("hello from process %d\n", getpid());
    return 0;
}
