/* What a program in C has on this machine: the calls of the kernel, and a small library over them. The headers that are
   included here can be included alone, too. */
#ifndef USER_H
#define USER_H

#include <stdarg.h>
#include <stddef.h>
#include <stdint.h>

#include "assert.h"
#include "fcntl.h"
#include "kernel_limits.h"
#include "stdio.h"
#include "stdlib.h"
#include "string.h"
#include "unistd.h"

int is_number(const char *text);                   /* whether it is digits alone, with a '-' before them or not */
_Noreturn void fail(const char *format, ...) __attribute__((format(printf, 1, 2))); /* to ERRORS; exits with 1 */

/* Bytes and lines of a file, of a pipe or of the console (input.c). */

struct input {
    int descriptor;
    int next;        /* the place of the next byte in bytes */
    int count;       /* how many bytes are there */
    char bytes[512];
};

void read_from(struct input *input, int descriptor);
int next_byte(struct input *input);                /* -1 at the end */
/* Puts the next line into line, without its end and with a zero byte behind it, and answers its length, or
   -1 at the end of the input. A line with room bytes or more comes in several pieces. */
int next_line(struct input *input, char *line, int room);

#endif
