/* Where a program with a C library begins in C: its three streams, its memory, and its end. */
#include <errno.h>
#include <limits.h>
#include <stdio-bufio.h>
#include <stdio.h>
#include <stdlib.h>
#include <unistd.h>

#include "kernel.h"

extern char **environ;

int main(int count, char *texts[], char *environment[]);
void __libc_init_array(void);

static char input_room[512];
static char output_room[512];
static char error_room[80];

static struct __file_bufio input =
    FDEV_SETUP_BUFIO(STDIN_FILENO, input_room, sizeof input_room, read, write, lseek, close, __SRD, 0);
static struct __file_bufio output =
    FDEV_SETUP_BUFIO(STDOUT_FILENO, output_room, sizeof output_room, read, write, lseek, close, __SWR, __BLBF);
static struct __file_bufio errors =
    FDEV_SETUP_BUFIO(STDERR_FILENO, error_room, sizeof error_room, read, write, lseek, close, __SWR, __BLBF);

FILE *const stdin = &input.xfile.cfile.file;
FILE *const stdout = &output.xfile.cfile.file;
FILE *const stderr = &errors.xfile.cfile.file;

/* picolibc has an sbrk of its own, which gives what lies behind a program; program.ld asks for this one. */
void *sbrk(ptrdiff_t bytes)
{
    char *end = bytes < -INT_MAX || bytes > INT_MAX ? (char *)-1 : kernel_sbrk((int)bytes);

    if (end == (char *)-1)
        refuse(ENOMEM);
    return end;
}

static void flush_all(void)
{
    fflush(stdout);
    fflush(stderr);
}

_Noreturn void start_program(int count, char *texts[])
{
    open_console();
    atexit(flush_all);
    __libc_init_array();
    exit(main(count, texts, environ));
}
