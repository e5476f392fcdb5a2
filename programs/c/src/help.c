/* help: says what can be typed at the shell (sh.c). */
#include "user.h"

int main(void)
{
    printf("a line is a program's name and its texts: echo hello\n"
           "  a | b   b reads what a writes        a < file   a reads the file\n"
           "  a ; b   b begins when a has ended    a &        isn't waited for\n"
           "  ( a )   by a shell of its own        wait       waits for all begun by &\n"
           "  ls      names the programs           exit       ends the shell\n");
    return 0;
}
