/* Prints the ticks since boot, digit by digit. */
#include "user.h"

int main(void)
{
    char digits[24];
    int place = sizeof digits;
    unsigned long ticks = uptime();
    digits[--place] = '\n';
    do {
        digits[--place] = (char)('0' + ticks % 10);
        ticks /= 10;
    } while (ticks > 0);
    write(1, digits + place, sizeof digits - place);
    return 0;
}
