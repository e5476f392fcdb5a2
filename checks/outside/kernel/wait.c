/* wait: a child that has ended, each once, in whatever order they end. */
#include "tell.h"

static void wait_for_nobody(void)
{
    int status;

    tell("a child has no children of its own", kernel_wait(&status));
}

static void load_from_nowhere(void)
{
    tell("never", *(volatile char *)NOWHERE);
}

static void ask_for_illegal(void)
{
    __asm__ volatile(".word 0");
}

int main(void)
{
    int late, early, status = -9, ended;

    tell("without a child", kernel_wait(&status));
    tell("the status stays", status);
    if ((late = kernel_fork()) == 0) {
        kernel_sleep(20);
        kernel_exit(1);
    }
    if ((early = kernel_fork()) == 0)
        kernel_exit(2);
    tell("first the one that ends first", kernel_wait(&status) == early);
    tell("its status", status);
    tell("then the other", kernel_wait(&status) == late);
    tell("its status", status);
    tell("and no more", kernel_wait(&status));
    if ((ended = kernel_fork()) == 0)
        kernel_exit(5);
    kernel_sleep(3);
    tell("a child that has ended before", kernel_wait(NULL) == ended);
    tell("status of a child", status_of(wait_for_nobody));
    tell("status of a fault", status_of(load_from_nowhere));
    tell("status of an illegal instruction", status_of(ask_for_illegal));
    return 0;
}
