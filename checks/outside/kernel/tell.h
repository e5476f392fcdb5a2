/* What the programs of this folder have in common: each tries one call of the kernel, and tells a line for each thing that it tries. It
   uses no function of a C library, since those under it are what is tried. */
#ifndef TELL_H
#define TELL_H

#include <stddef.h>

#include "../../../programs/c/picolibc/kernel.h"

enum { OUTPUT = 1, NO_DESCRIPTOR = 20, LINE_BYTES = 200 };

#define NOWHERE ((void *)0x7000000000)  /* where no process has memory */

static inline size_t text_length(const char *text)
{
    size_t length = 0;

    while (text[length] != 0)
        length++;
    return length;
}

/* Puts a number as a text so that it ends before `end`, and answers where it begins. */
static inline char *digits_before(char *end, long number)
{
    unsigned long left = number < 0 ? -(unsigned long)number : (unsigned long)number;

    do
        *--end = '0' + left % 10;
    while ((left /= 10) != 0);
    if (number < 0)
        *--end = '-';
    return end;
}

/* Writes the line `WHAT: NUMBER`, in one call. */
static inline void tell(const char *what, long number)
{
    char line[LINE_BYTES], digits[24];
    char *first = digits_before(digits + sizeof digits, number);
    size_t at = 0;

    while (*what != 0 && at < LINE_BYTES - sizeof digits - 3)
        line[at++] = *what++;
    line[at++] = ':';
    line[at++] = ' ';
    while (first < digits + sizeof digits)
        line[at++] = *first++;
    line[at++] = '\n';
    kernel_write(OUTPUT, line, at);
}

/* The status of a child that does this and exits with 7. */
static inline int status_of(void (*act)(void))
{
    int status = -9;

    if (kernel_fork() == 0) {
        act();
        kernel_exit(7);
    }
    kernel_wait(&status);
    return status;
}

#endif
