/* sbrklazy: memory that comes when it is touched. Linux has all new memory so. */
#include "tell.h"

/* programs/c/picolibc has no use for this call. A program that is linked for Linux has ../linux.S's function. */
long linux_call(long number, ...) __attribute__((weak));

static char *kernel_sbrklazy(int bytes)
{
    register long argument __asm__("a0") = bytes;
    register long number __asm__("a7") = 22;

    if (linux_call != NULL)
        return kernel_sbrk(bytes);
    __asm__ volatile("ecall" : "+r"(argument) : "r"(number) : "memory");
    return (char *)argument;
}

enum { MEGABYTE = 1 << 20 };

static char *begin;

static void touch(void)
{
    tell("a child sees the parent's byte", begin[100 * MEGABYTE]);
    begin[100 * MEGABYTE] = 9;
    begin[200 * MEGABYTE] = 1;
    tell("and touches what is untouched", begin[200 * MEGABYTE]);
}

static void load_behind_the_end(void) { tell("never", *(volatile char *)(begin + 301 * MEGABYTE)); }

int main(void)
{
    begin = kernel_sbrk(0);
    tell("growing answers the old end", kernel_sbrklazy(300 * MEGABYTE) == begin);
    tell("the new end", kernel_sbrk(0) - begin);
    tell("a byte in the middle", begin[150 * MEGABYTE]);
    tell("the last byte", begin[300 * MEGABYTE - 1]);
    begin[100 * MEGABYTE] = 7;
    tell("a byte that was written", begin[100 * MEGABYTE]);
    tell("status of a child", status_of(touch));
    tell("the parent's byte stays", begin[100 * MEGABYTE]);
    tell("a load behind the end", status_of(load_behind_the_end));
    tell("shrinking", kernel_sbrk(-300 * MEGABYTE) - begin);
    tell("growing again", kernel_sbrklazy(300 * MEGABYTE) == begin);
    tell("zeros again", begin[100 * MEGABYTE]);
    return 0;
}
