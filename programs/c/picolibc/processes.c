/* Processes, over the calls of the kernel. */
#include <errno.h>
#include <fcntl.h>
#include <signal.h>
#include <stdarg.h>
#include <string.h>
#include <sys/wait.h>
#include <unistd.h>

#include "kernel.h"

/* A program gets no environment, and begins with this one: there is one folder. */
static char home[] = "HOME=/"; /* programs may write to it */
static char *first_environment[] = {home, NULL};
char **environ = first_environment;

/* Children that have ended, and weren't waited for by the program: the kernel tells of any of them. */
static struct ended {
    pid_t pid;
    int status;
} ended[PROCESSES];
static int count_of_ended;

_Noreturn void _exit(int status)
{
    kernel_exit(status & 0xff); /* -1 is for those that end by a fault or a kill */
}

_Noreturn void abort(void)
{
    __builtin_trap();
}

pid_t fork(void)
{
    int child = kernel_fork();

    if (child < 0)
        return refuse(EAGAIN);
    share_files();
    if (child == 0)
        count_of_ended = 0;
    return child;
}

pid_t vfork(void) __attribute__((alias("fork")));

/* Puts a child's end away, its status as <sys/wait.h> reads it. */
static void keep_end(pid_t pid, int status)
{
    ended[count_of_ended++] = (struct ended){pid, status == -1 ? SIGKILL : (status & 0xff) << 8};
}

/* The place of a child, or of any one if the pid is -1, among those that have ended; or -1. */
static int find_ended(pid_t pid)
{
    for (int place = 0; place < count_of_ended; place++)
        if (pid == -1 || ended[place].pid == pid)
            return place;
    return -1;
}

pid_t waitpid(pid_t pid, int *status, int options)
{
    int place;

    if (options & WNOHANG || pid == 0 || pid < -1)
        return refuse(ENOSYS);
    while ((place = find_ended(pid)) < 0) {
        int its_status;
        int child = kernel_wait(&its_status);

        if (child < 0)
            return refuse(ECHILD);
        keep_end(child, its_status);
    }
    struct ended found = ended[place];
    ended[place] = ended[--count_of_ended];
    if (status != NULL)
        *status = found.status;
    return found.pid;
}

pid_t wait(int *status)
{
    return waitpid(-1, status, 0);
}

static int why_not_run(const char *name, char *const texts[])
{
    size_t bytes = 0;
    int count = 0;

    for (; texts[count] != NULL; count++)
        bytes += strlen(texts[count]) + 1;
    if (count > TEXTS || bytes > TEXT_BYTES)
        return E2BIG;
    return access(name, R_OK) < 0 ? ENOENT : ENOEXEC;
}

/* There is no environment to hand on. */
int execve(const char *name, char *const texts[], char *const environment[])
{
    (void)environment;
    kernel_exec(name, texts);
    return refuse(why_not_run(name, texts));
}

int execv(const char *name, char *const texts[])
{
    return execve(name, texts, NULL);
}

int execvp(const char *name, char *const texts[])
{
    return execve(name, texts, NULL);
}

int execl(const char *name, const char *first, ...)
{
    char *texts[TEXTS + 2] = {(char *)first};
    va_list rest;

    va_start(rest, first);
    for (int place = 1; place <= TEXTS && texts[place - 1] != NULL; place++)
        texts[place] = va_arg(rest, char *);
    va_end(rest);
    return execve(name, texts, NULL);
}

int execlp(const char *name, const char *first, ...) __attribute__((alias("execl")));

pid_t getpid(void)
{
    return kernel_getpid();
}

/* Every signal kills; signal 0, which only asks whether there is a process, the kernel doesn't have. */
int kill(pid_t pid, int signal)
{
    if (signal == 0)
        return refuse(ENOSYS);
    return kernel_kill(pid) < 0 ? refuse(ESRCH) : 0;
}
