/* kill PID..: kills processes. It ends with 1 where there is no such process. */
#include "user.h"

int main(int count, char *words[])
{
    int status = 0;

    for (int place = 1; place < count; place++)
        if (!is_number(words[place]) || kill(atoi(words[place])) < 0) {
            dprintf(ERRORS, "kill: there is no process %s\n", words[place]);
            status = 1;
        }
    return status;
}
