/* Asks, and prints nothing. */
#include "user.h"

int main(void)
{
    uptime();
    return 0;
}
