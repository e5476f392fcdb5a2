/* A line that the compiler puts into two functions, for a debugger that marks it. */
#include "user.h"

volatile int level;

static inline __attribute__((always_inline)) void raise_by(int steps)
{
    level += steps;
}

__attribute__((noinline)) void fill(void)
{
    raise_by(2);
}

__attribute__((noinline)) void drip(void)
{
    raise_by(1);
}

int main(void)
{
    fill();
    drip();

    for (int turn = 0; turn < 3; turn++)
        level -= turn;
    fill();
    return level;
}
