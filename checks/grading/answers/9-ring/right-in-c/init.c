/* Three processes in a ring of pipes, which count to 30. The end goes round as the end of each pipe. */
#include "user.h"

enum { MEMBERS = 3, LAST = 30 };

static int rings[MEMBERS][2];

/* Closes each end but the one that this process reads from, and the one that it writes to. */
static void keep(int own)
{
    int before = (own + MEMBERS - 1) % MEMBERS;
    for (int k = 0; k < MEMBERS; k++) {
        if (k != own)
            close(rings[k][1]);
        if (k != before)
            close(rings[k][0]);
    }
}

static int pass(int own)
{
    int number = 0, before = (own + MEMBERS - 1) % MEMBERS;
    keep(own);
    if (own == 0)
        write(rings[own][1], &number, sizeof number);
    while (read(rings[before][0], &number, sizeof number) == sizeof number && number < LAST) {
        number++;
        write(rings[own][1], &number, sizeof number);
    }
    close(rings[own][1]);
    return 0;
}

int main(void)
{
    for (int k = 0; k < MEMBERS; k++)
        pipe(rings[k]);
    for (int k = 1; k < MEMBERS; k++)
        if (fork() == 0)
            exit(pass(k));
    pass(0);
    wait(NULL);
    wait(NULL);
    return 0;
}
