/* Prints a number of its own. */
#include "user.h"

int main(void)
{
    printf("%d\n", 5);
    return 0;
}
