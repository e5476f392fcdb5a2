/* The calls of the kernel (calls.S). Where nothing else is said, each answers -1 where it is refused, and has then
   changed nothing. */
#ifndef UNISTD_H
#define UNISTD_H

#include <stddef.h>
#include <stdint.h>

typedef int pid_t;
typedef long ssize_t;

int fork(void);                                    /* the child's pid; 0 in the child */
_Noreturn void exit(int status);
_Noreturn void _exit(int status);
int wait(int *status);                             /* the pid of a child that has ended; status may be NULL */
int pipe(int ends[2]);                             /* 0; ends[0] is to be read, ends[1] to be written */
int read(int descriptor, void *bytes, int count);  /* how many bytes; 0 at the end */
int kill(int pid);                                 /* 0 */
int exec(const char *name, char *const texts[]);   /* returns only where it is refused; texts end with NULL */
int execv(const char *name, char *const texts[]);  /* the same, and so is execvp */
int execvp(const char *name, char *const texts[]);
int dup(int descriptor);                           /* the lowest free descriptor */
int getpid(void);
char *sbrk(int bytes);                             /* the end of the memory before the call; NO_MEMORY */
char *sbrklazy(int bytes);                         /* the same; a page of the new memory comes when it is first touched */
int sleep(int ticks);                              /* 0 */
long uptime(void);                                 /* ticks since boot, from 0 to 2^32 - 1 */
int open(const char *name, int mode);              /* the lowest free descriptor */
int write(int descriptor, const void *bytes, int count); /* count */
int close(int descriptor);                         /* 0 */

#define NO_MEMORY ((char *)-1)

enum { TO_READ = 0, TO_WRITE = 1, TO_BOTH = 2 }; /* modes of open: a program's file may only be read */
enum { INPUT = 0, OUTPUT = 1, ERRORS = 2 };      /* the descriptors that a program begins with */

/* What xv6 has besides, and this kernel doesn't: files can't be made or changed, and there are no folders. They answer
   -1. */
int fstat(int descriptor, void *status);
int stat(const char *name, void *status);
int chdir(const char *name);
int mkdir(const char *name);
int mknod(const char *name, short major, short minor);
int unlink(const char *name);
int link(const char *from, const char *to);

/* Any call, by its number: for tests of what the functions above never ask for. */
long kernel_call(long number, long first, long second, long third);

#endif
