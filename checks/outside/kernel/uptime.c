/* uptime: ticks, of all processes, which go on while one sleeps. */
#include "tell.h"

static long before;

static void look_later(void) { tell("a child has the same clock", kernel_uptime() >= before); }

int main(void)
{
    before = kernel_uptime();
    tell("not below 0", before >= 0);
    tell("it never goes back", kernel_uptime() >= before);
    kernel_sleep(5);
    tell("5 ticks of sleep and more are seen", kernel_uptime() - before >= 5);
    status_of(look_later);
    return 0;
}
