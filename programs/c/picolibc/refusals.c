/* What programs ask for and the machine doesn't have. Each function says so by errno. */
#include <dirent.h>
#include <errno.h>
#include <pwd.h>
#include <signal.h>
#include <string.h>
#include <sys/ioctl.h>
#include <sys/stat.h>
#include <sys/time.h>
#include <sys/types.h>
#include <unistd.h>
#include <utime.h>

#include "kernel.h"

/* Files can't be made, changed or taken away. */

int unlink(const char *name)
{
    return access(name, F_OK) < 0 ? -1 : refuse(EROFS);
}

int rename(const char *from, const char *to)
{
    (void)to;
    return unlink(from);
}

int link(const char *from, const char *to)
{
    (void)to;
    return unlink(from);
}

int symlink(const char *from, const char *to)
{
    (void)from, (void)to;
    return refuse(EROFS);
}

ssize_t readlink(const char *restrict name, char *restrict bytes, size_t room)
{
    (void)bytes, (void)room;
    return access(name, F_OK) < 0 ? -1 : refuse(EINVAL);
}

int mkdir(const char *name, mode_t mode)
{
    (void)name, (void)mode;
    return refuse(EROFS);
}

int rmdir(const char *name)
{
    return unlink(name);
}

int chmod(const char *name, mode_t mode)
{
    (void)mode;
    return unlink(name);
}

int truncate(const char *name, off_t size)
{
    (void)size;
    return unlink(name);
}

int ftruncate(int descriptor, off_t size)
{
    (void)descriptor, (void)size;
    return refuse(EINVAL);
}

mode_t umask(mode_t mask)
{
    (void)mask;
    return 0;
}

int fsync(int descriptor)
{
    (void)descriptor;
    return 0;
}

/* There is one folder, and it has no name of its own. */

int chdir(const char *name)
{
    return strcmp(name, "/") == 0 || strcmp(name, ".") == 0 ? 0 : refuse(ENOENT);
}

char *getcwd(char *room, size_t bytes)
{
    if (room == NULL || bytes < 2) {
        refuse(room == NULL ? EINVAL : ERANGE);
        return NULL;
    }
    return strcpy(room, "/");
}

/* A process has no user, no group, and doesn't know its parent. */

uid_t getuid(void)
{
    return 0;
}

uid_t geteuid(void)
{
    return 0;
}

gid_t getgid(void)
{
    return 0;
}

gid_t getegid(void)
{
    return 0;
}

pid_t getppid(void)
{
    return refuse(ENOSYS);
}

unsigned alarm(unsigned seconds)
{
    (void)seconds;
    errno = ENOSYS;
    return 0;
}

/* There are no random numbers: two runs are equal. */
int getentropy(void *bytes, size_t count)
{
    (void)bytes, (void)count;
    return refuse(ENOSYS);
}

long sysconf(int name)
{
    switch (name) {
    case _SC_CLK_TCK:
        return 1000000; /* times counts microseconds, as clock does */
    case _SC_OPEN_MAX:
        return DESCRIPTORS;
    case _SC_CHILD_MAX:
        return PROCESSES;
    case _SC_ARG_MAX:
        return TEXT_BYTES;
    case _SC_PAGESIZE:
        return PAGE_BYTES;
    case _SC_NPROCESSORS_CONF:
    case _SC_NPROCESSORS_ONLN:
        return 1;
    default:
        return refuse(EINVAL);
    }
}

int getpagesize(void)
{
    return PAGE_BYTES;
}

/* No call lists the files. */

DIR *opendir(const char *name)
{
    (void)name;
    refuse(ENOSYS);
    return NULL;
}

struct dirent *readdir(DIR *folder)
{
    (void)folder;
    refuse(EBADF);
    return NULL;
}

int closedir(DIR *folder)
{
    (void)folder;
    return refuse(EBADF);
}

/* A process that is killed is gone: no signal is held back. */

int sigprocmask(int how, const sigset_t *set, sigset_t *old)
{
    (void)how, (void)set;
    if (old != NULL)
        *old = 0;
    return 0;
}

int ioctl(int descriptor, unsigned long request, ...)
{
    (void)descriptor, (void)request;
    return refuse(ENOTTY);
}

int fchmod(int descriptor, mode_t mode)
{
    (void)descriptor, (void)mode;
    return refuse(EROFS);
}

int chown(const char *name, uid_t user, gid_t group)
{
    (void)user, (void)group;
    return unlink(name);
}

int fchown(int descriptor, uid_t user, gid_t group)
{
    (void)descriptor, (void)user, (void)group;
    return refuse(EROFS);
}

int utimes(const char *name, const struct timeval times[2])
{
    (void)times;
    return unlink(name);
}

int utime(const char *name, const struct utimbuf *times)
{
    (void)times;
    return unlink(name);
}

struct passwd *getpwuid(uid_t user)
{
    (void)user;
    return NULL;
}

struct passwd *getpwnam(const char *name)
{
    (void)name;
    return NULL;
}
