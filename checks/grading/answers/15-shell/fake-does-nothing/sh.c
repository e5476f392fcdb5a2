/* It does nothing. */
#include "user.h"

int main(void)
{
    return 0;
}
