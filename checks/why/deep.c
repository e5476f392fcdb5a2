#include "user.h"

static int sum(int n)
{
    char room[256];
    room[0] = n;
    return n == 0 ? room[0] : n + sum(n - 1);
}

int main(void)
{
    return sum(100000);
}
