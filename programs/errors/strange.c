/* What C programs may do elsewhere, and what ends them here. build.sh says which of it is done. */
#include "user.h"

#ifdef TRAPS
static int ask(void)
{
    __builtin_trap(); /* so the compiler ends what can't go on, as abort does in a C library */
}
#endif

#ifdef COUNTS
static int ask(void)
{
    unsigned long cycles;

    __asm__ volatile("rdcycle %0" : "=r"(cycles));
    return cycles != 0;
}
#endif

#ifdef NESTS
static int apply(int (*function)(int), int number)
{
    return function(number);
}

static int ask(void)
{
    int more = getpid();
    int add(int number)
    {
        return number + more;
    }

    return apply(add, 1); /* the function's address is that of instructions on the stack */
}
#endif

#ifdef KEEPS
static _Thread_local volatile int kept; /* lies where tp says, which nobody has set */

static int ask(void)
{
    kept = getpid();
    return kept;
}
#endif

int main(void)
{
    open("console", TO_READ);
    open("console", TO_WRITE);
    printf("asks\n");
    printf("answer %d\n", ask());
    return 0;
}
