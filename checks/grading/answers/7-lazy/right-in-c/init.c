/* A gigabyte is promised; the child touches page after page, and asks for its pid behind each. */
#include "user.h"

int main(void)
{
    volatile char *memory = sbrklazy(1 << 30);
    int status;
    memory[0] = 7;
    if (fork() == 0)
        for (long page = 1;; page++) {
            memory[page * 4096] = 1;
            getpid();
        }
    wait(&status);
    return memory[0];
}
