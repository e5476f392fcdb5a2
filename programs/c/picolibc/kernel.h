/* The calls of the kernel, under names that a C library doesn't use (start.S). Each answers -1 where it is refused,
   and has then changed nothing. What they mean: ../lib/user.h. */
#ifndef KERNEL_H
#define KERNEL_H

#include "../lib/kernel_limits.h"

int kernel_fork(void);
_Noreturn void kernel_exit(int status);
int kernel_wait(int *status);
int kernel_pipe(int ends[2]);
int kernel_read(int descriptor, void *bytes, int count);
int kernel_kill(int pid);
int kernel_exec(const char *name, char *const texts[]);
int kernel_dup(int descriptor);
int kernel_getpid(void);
char *kernel_sbrk(int bytes);
int kernel_sleep(int ticks);
long kernel_uptime(void);
int kernel_open(const char *name, int mode);
int kernel_write(int descriptor, const void *bytes, int count);
int kernel_close(int descriptor);

enum { TICKS_PER_SECOND = 100 }; /* a tick has no length; a program is told that it lasts 10 ms */

/* Sets errno, and answers -1. */
int refuse(int why);

/* Behind a fork another process may move the place where the next byte of a file is read, so that nobody knows it
   (files.c). */
void share_files(void);

/* The descriptor `wanted`, which is free, for what `make` gives of `what`: each call of it takes the lowest free
   number, so those below are taken meanwhile. Answers -1 where `make` does. */
int make_at(int wanted, int (*make)(const void *what), const void *what);

/* Opens the console as descriptors 0 to 2, where the program has none (files.c): so it is for the first program. */
void open_console(void);

#endif
