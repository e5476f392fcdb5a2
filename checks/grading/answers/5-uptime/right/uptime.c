/* Prints the ticks since boot. */
#include "user.h"

int main(void)
{
    printf("%ld\n", uptime());
    return 0;
}
