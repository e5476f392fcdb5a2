/* The calls of kernel.h, as Linux has them on RISC-V: what the same program does under another kernel. */
#include <errno.h>
#include <signal.h>
#include <stddef.h>
#include <string.h>

#include "kernel.h"

long linux_call(long number, long first, long second, long third, long fourth, long fifth);

static long call(long number, long first, long second, long third)
{
    long answer = linux_call(number, first, second, third, 0, 0);

    return answer < 0 ? -1 : answer;
}

enum {
    DUP = 23, OPENAT = 56, CLOSE = 57, PIPE2 = 59, READ = 63, WRITE = 64, EXIT_GROUP = 94, NANOSLEEP = 101,
    CLOCK_GETTIME = 113, KILL = 129, RT_SIGACTION = 134, GETPID = 172, BRK = 214, CLONE = 220, EXECVE = 221, WAIT4 = 260,
    HERE = -100, CHILD_SIGNAL = 17,
};

struct linux_time {
    long seconds;
    long nanoseconds;
};

int kernel_fork(void)
{
    return call(CLONE, CHILD_SIGNAL, 0, 0);
}

_Noreturn void kernel_exit(int status)
{
    call(EXIT_GROUP, status, 0, 0);
    __builtin_unreachable();
}

int kernel_wait(int *status)
{
    int word;
    long child = linux_call(WAIT4, -1, (long)&word, 0, 0, 0);

    if (child < 0)
        return -1;
    if (status != NULL)
        *status = (word & 0x7f) != 0 ? -1 : word >> 8 & 0xff;
    return child;
}

int kernel_pipe(int ends[2])
{
    return call(PIPE2, (long)ends, 0, 0);
}

int kernel_read(int descriptor, void *bytes, int count)
{
    return call(READ, descriptor, (long)bytes, count);
}

int kernel_kill(int pid)
{
    return call(KILL, pid, SIGKILL, 0);
}

int kernel_exec(const char *name, char *const texts[])
{
    return call(EXECVE, (long)name, (long)texts, 0);
}

int kernel_dup(int descriptor)
{
    return call(DUP, descriptor, 0, 0);
}

int kernel_getpid(void)
{
    return call(GETPID, 0, 0, 0);
}

char *kernel_sbrk(int bytes)
{
    long end = call(BRK, 0, 0, 0);

    return call(BRK, end + bytes, 0, 0) == end + bytes ? (char *)end : (char *)-1;
}

int kernel_sleep(int ticks)
{
    struct linux_time time = {ticks / TICKS_PER_SECOND, ticks % TICKS_PER_SECOND * (1000000000L / TICKS_PER_SECOND)};

    return call(NANOSLEEP, (long)&time, 0, 0);
}

long kernel_uptime(void)
{
    struct linux_time now;

    call(CLOCK_GETTIME, 1, (long)&now, 0);
    return now.seconds * TICKS_PER_SECOND + now.nanoseconds / (1000000000L / TICKS_PER_SECOND);
}

/* Linux has no file of the name `console`. */
int kernel_open(const char *name, int mode)
{
    long answer = linux_call(OPENAT, HERE, (long)name, mode, 0, 0);

    if (answer == -ENOENT && strcmp(name, "console") == 0)
        answer = linux_call(OPENAT, HERE, (long)"/dev/null", mode, 0, 0);
    return answer < 0 ? -1 : answer;
}

/* Linux sends a signal to who writes for nobody; here files.c does. */
static void ignore_broken_pipes(void)
{
    struct {
        long handler, flags, mask;
    } action = {.handler = (long)SIG_IGN};

    linux_call(RT_SIGACTION, SIGPIPE, (long)&action, 0, 8, 0);
}

int kernel_write(int descriptor, const void *bytes, int count)
{
    static int is_ready;

    if (!is_ready)
        ignore_broken_pipes();
    is_ready = 1;
    return call(WRITE, descriptor, (long)bytes, count);
}

int kernel_close(int descriptor)
{
    return call(CLOSE, descriptor, 0, 0);
}
