/* Asks twice, and prints the second answer. */
#include "user.h"

int main(void)
{
    uptime();
    printf("%ld\n", (long)uptime());
    return 0;
}
