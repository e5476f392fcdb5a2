/* Prints a number that rises without a question. */
#include "user.h"

int main(void)
{
    printf("%d\n", 10 * getpid());
    return 0;
}
