#include "user.h"

static void store(int *place, int value)
{
    *place = value;
}

int main(void)
{
    int *nowhere = 0;
    store(nowhere, 7);
    return 0;
}
