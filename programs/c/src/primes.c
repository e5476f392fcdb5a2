/* primes [LIMIT]: a sieve of pipes. The first process writes the numbers from 2 to LIMIT (35 without it) into a
   pipe. Each further process takes the first number that comes, which is a prime, shows it, and hands on those
   that it doesn't divide. Each waits for the next one, so the first ends when all have ended. */
#include "user.h"

static int next_number(int descriptor, int *number)
{
    return read(descriptor, number, sizeof *number) == sizeof *number;
}

static void hand_on(int descriptor, int number)
{
    if (write(descriptor, &number, sizeof number) != sizeof number)
        fail("primes: nobody takes %d\n", number);
}

/* Hands on what the first prime doesn't divide. */
static void filter(int from, int to, int prime)
{
    int number;

    while (next_number(from, &number))
        if (number % prime != 0)
            hand_on(to, number);
}

static void make_pipe(int ends[2])
{
    if (pipe(ends) < 0)
        fail("primes: there is no room for a pipe\n");
}

/* Makes the next process. In it the answer is 1, and its input is the pipe's end for reading; in its parent the
   answer is 0, and the end for writing is left. */
static int make_next(int ends[2])
{
    int child = fork();

    if (child < 0)
        fail("primes: there is no room for a process\n");
    close(ends[child == 0 ? 1 : 0]);
    return child == 0;
}

static void first(int to, int limit)
{
    for (int number = 2; number <= limit; number++)
        hand_on(to, number);
}

int main(int count, char *words[])
{
    int limit = count > 1 ? atoi(words[1]) : 35;
    int from = -1;
    int prime = 0;
    int ends[2];

    for (;;) {
        make_pipe(ends);
        if (!make_next(ends))
            break;
        if (from >= 0)
            close(from);
        from = ends[0];
        if (!next_number(from, &prime))
            return 0;
        printf("prime %d\n", prime);
    }
    if (from < 0)
        first(ends[1], limit);
    else
        filter(from, ends[1], prime);
    close(ends[1]);
    int status;
    wait(&status);
    return status;
}
