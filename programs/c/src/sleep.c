/* sleep TICKS: waits for so many ticks of the clock. */
#include "user.h"

int main(int count, char *words[])
{
    if (count != 2 || !is_number(words[1]))
        fail("usage: sleep TICKS\n");
    return sleep(atoi(words[1]));
}
