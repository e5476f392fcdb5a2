/* Asks, throws the answer away, and prints a number that rises. */
#include "user.h"

int main(void)
{
    uptime();
    printf("%d\n", 10 * (int)getpid());
    return 0;
}
