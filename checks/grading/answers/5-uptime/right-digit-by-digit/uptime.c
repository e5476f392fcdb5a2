/* Each digit is a write of its own, the highest first, and so is the line's end. */
#include "user.h"

static void show(unsigned long number)
{
    char digit;
    if (number >= 10)
        show(number / 10);
    digit = (char)('0' + number % 10);
    write(1, &digit, 1);
}

int main(void)
{
    show(uptime());
    write(1, "\n", 1);
    return 0;
}
