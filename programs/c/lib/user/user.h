/* What a source in xv6's way includes after kernel/types.h: the kernel's calls and a small library, under xv6's names and
   types. All that is not here a source may define itself, also under a name that the library uses elsewhere; and it may define
   what is here anew, of the same type. */
#ifndef USER_USER_H
#define USER_USER_H

#include "../kernel/types.h"

#define SBRK_ERROR ((char *)-1)

struct stat;

/* The calls of the kernel (../unistd.h says what they answer). */
int fork(void);
int exit(int status) __attribute__((noreturn));
int wait(int *status);                             /* the status itself; -1 after a fault and after a kill */
int pipe(int *ends);
int write(int descriptor, const void *bytes, int count);
int read(int descriptor, void *bytes, int count);
int close(int descriptor);
int kill(int pid);
int exec(const char *name, char **texts);
int open(const char *name, int mode);
int dup(int descriptor);
int getpid(void);
char *sbrk(int bytes);
char *sbrklazy(int bytes);
int sleep(int ticks);
int pause(int ticks);                              /* sleep under another name */
int uptime(void);

/* Calls that this kernel doesn't have: they answer -1. */
int fstat(int descriptor, struct stat *status);
int stat(const char *name, struct stat *status);
int chdir(const char *name);
int mkdir(const char *name);
int mknod(const char *name, short major, short minor);
int unlink(const char *name);
int link(const char *from, const char *to);

/* Texts and memory. */
uint strlen(const char *text);
int strcmp(const char *left, const char *right);
char *strcpy(char *to, const char *from);
char *strchr(const char *text, char byte);
int atoi(const char *text);
void *memcpy(void *to, const void *from, uint count);
void *memmove(void *to, const void *from, int count);
void *memset(void *to, int byte, uint count);
int memcmp(const void *left, const void *right, uint count);
void *malloc(uint bytes);
void free(void *bytes);

/* Input and output: a stream is a descriptor. */
void printf(const char *format, ...) __attribute__((format(printf, 1, 2)));
void fprintf(int descriptor, const char *format, ...) __attribute__((format(printf, 2, 3)));
char *gets(char *line, int room);

#endif
