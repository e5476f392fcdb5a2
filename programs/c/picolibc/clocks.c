/* Time, as far as the machine has it: it counts ticks since boot. */
#include <errno.h>
#include <sys/resource.h>
#include <sys/time.h>
#include <sys/times.h>
#include <time.h>
#include <unistd.h>

#include "kernel.h"

enum { MICROSECONDS = 1000000 / TICKS_PER_SECOND, NANOSECONDS = 1000 * MICROSECONDS }; /* of a tick */

int gettimeofday(struct timeval *restrict now, void *restrict zone)
{
    long ticks = kernel_uptime();

    (void)zone;
    now->tv_sec = ticks / TICKS_PER_SECOND;
    now->tv_usec = ticks % TICKS_PER_SECOND * MICROSECONDS;
    return 0;
}

int clock_gettime(clockid_t clock, struct timespec *now)
{
    long ticks = kernel_uptime();

    (void)clock;
    now->tv_sec = ticks / TICKS_PER_SECOND;
    now->tv_nsec = ticks % TICKS_PER_SECOND * NANOSECONDS;
    return 0;
}

/* The kernel doesn't count the time of one process: this is the time of all. */
clock_t clock(void)
{
    return kernel_uptime() * (CLOCKS_PER_SEC / TICKS_PER_SECOND);
}

clock_t times(struct tms *spent)
{
    clock_t now = clock();

    if (spent != NULL)
        *spent = (struct tms){.tms_utime = now};
    return now;
}

/* Sleeps as many ticks as last so long, the last one wholly. */
int nanosleep(const struct timespec *time, struct timespec *left)
{
    long ticks = time->tv_sec * TICKS_PER_SECOND + (time->tv_nsec + NANOSECONDS - 1) / NANOSECONDS;

    if (time->tv_sec < 0 || time->tv_nsec < 0 || time->tv_nsec > 999999999)
        return refuse(EINVAL);
    kernel_sleep(ticks > 0x7fffffff ? 0x7fffffff : (int)ticks);
    if (left != NULL)
        *left = (struct timespec){0, 0};
    return 0;
}

unsigned sleep(unsigned seconds)
{
    return nanosleep(&(struct timespec){.tv_sec = seconds}, NULL) < 0 ? seconds : 0;
}

int usleep(useconds_t microseconds)
{
    return nanosleep(&(struct timespec){microseconds / 1000000, microseconds % 1000000 * 1000}, NULL);
}

/* What one process has used, or its children, isn't counted. */
int getrusage(int who, struct rusage *used)
{
    (void)who;
    *used = (struct rusage){0};
    return gettimeofday(&used->ru_utime, NULL);
}
