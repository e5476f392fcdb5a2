/* Prints a number that rises with the pid, by another call. */
#include "user.h"

int main(void)
{
    printf("%d\n", 100 * (int)getpid() + 7);
    return 0;
}
