/* The parent reads three times, closes the read end, and exits with the child's status. */
#include "user.h"

static char bytes[5000];

int main(void)
{
    int ends[2], status;
    if (pipe(ends) < 0)
        return 100;
    if (fork() == 0) {
        close(ends[0]);
        exit(write(ends[1], bytes, sizeof bytes));
    }
    close(ends[1]);
    for (int k = 0; k < 3; k++)
        read(ends[0], bytes, 500);
    close(ends[0]);
    wait(&status);
    return status;
}
