/* Blanks around the number. */
#include "user.h"

int main(void)
{
    printf("  %ld  \n", (long)uptime());
    return 0;
}
