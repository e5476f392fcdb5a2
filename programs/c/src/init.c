/* The first process: opens the console, runs the shell, and waits for every process that has no other parent.
   When the shell has ended, it ends with the shell's status, and so the machine halts.

   Where there is a file `rc`, the shell reads its commands from it, and else from the console. */
#include "user.h"

static char *const from_console[] = {"sh", NULL};
static char *const from_file[] = {"sh", "rc", NULL};

static int is_there(const char *name)
{
    int descriptor = open(name, TO_READ);

    return descriptor >= 0 && close(descriptor) == 0;
}

int main(void)
{
    int status = 1;
    int ended;

    if (open("console", TO_READ) != INPUT || open("console", TO_WRITE) != OUTPUT || open("console", TO_WRITE) != ERRORS)
        exit(1);
    int shell = fork();
    if (shell == 0) {
        exec("sh", is_there("rc") ? from_file : from_console);
        fail("init: there is no program sh\n");
    }
    do
        ended = wait(&status);
    while (ended != shell && ended >= 0);
    return status;
}
