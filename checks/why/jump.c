#include "user.h"

int main(void)
{
    void (*nowhere)(void) = (void (*)(void))0x123456788;
    nowhere();
    return 0;
}
