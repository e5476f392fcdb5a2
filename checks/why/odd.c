#include "user.h"

static char bytes[8];

static int load(int *place)
{
    return *place;
}

int main(void)
{
    return load((int *)(bytes + 1));
}
