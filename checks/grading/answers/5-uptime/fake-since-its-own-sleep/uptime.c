/* Sleeps for a tick, and prints how long that took. */
#include "user.h"

int main(void)
{
    long before = uptime();
    sleep(1);
    printf("%ld\n", (long)uptime() - before);
    return 0;
}
