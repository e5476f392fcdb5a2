/* Tells early from late, and no more. */
#include "user.h"

int main(void)
{
    printf("%d\n", uptime() < 9 ? 3 : 600);
    return 0;
}
