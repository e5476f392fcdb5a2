/* Files, over the calls of the kernel. A program's file can be read, from its begin on; the console and pipes can be
   read and written. There is one folder, which can't be changed. */
#include <errno.h>
#include <fcntl.h>
#include <signal.h>
#include <string.h>
#include <sys/stat.h>
#include <unistd.h>

#include "kernel.h"

enum { NAME_ROOM = 16, MOST_BYTES = 1 << 30 };

/* What a descriptor is on, where this program has opened it by its name. Who has it from another, or shares it with
   another, knows nothing of it: others may move the place where the next byte is read. */
static struct named {
    char name[NAME_ROOM]; /* empty where it isn't known */
    off_t place;          /* where the next byte is read */
} named[DESCRIPTORS];

static const char console[] = "console";

int refuse(int why)
{
    errno = why;
    return -1;
}

void share_files(void)
{
    for (int descriptor = 0; descriptor < DESCRIPTORS; descriptor++)
        if (strcmp(named[descriptor].name, console) != 0)
            named[descriptor].name[0] = 0;
}

/* What we know of a descriptor, or NULL. */
static struct named *known(int descriptor)
{
    if (descriptor < 0 || descriptor >= DESCRIPTORS || named[descriptor].name[0] == 0)
        return NULL;
    return &named[descriptor];
}

static int is_on_console(int descriptor)
{
    return known(descriptor) != NULL && strcmp(named[descriptor].name, console) == 0;
}

static void forget(int descriptor)
{
    if (known(descriptor) != NULL)
        named[descriptor].name[0] = 0;
}

static void remember(int descriptor, const char *name)
{
    while (*name == '/')
        name++;
    named[descriptor] = (struct named){.place = 0};
    strncpy(named[descriptor].name, name, NAME_ROOM - 1);
}

static int is_there(const char *name)
{
    int descriptor = kernel_open(name, O_RDONLY);

    return descriptor >= 0 && kernel_close(descriptor) == 0;
}

/* Whether the process has this descriptor: then it can have a second one, unless all are in use. */
static int is_in_use(int descriptor)
{
    int second = kernel_dup(descriptor);

    return second >= 0 ? kernel_close(second) == 0 : known(descriptor) != NULL;
}

int make_at(int wanted, int (*make)(const void *what), const void *what)
{
    int got = make(what);

    if (got < 0 || got == wanted)
        return got;
    int end = make_at(wanted, make, what);
    kernel_close(got);
    return end;
}

static int open_to_read(const void *name)
{
    return kernel_open(name, O_RDONLY);
}

static int dup_of(const void *descriptor)
{
    return kernel_dup(*(const int *)descriptor);
}

static int why_not_open(const char *name, int flags)
{
    if (!is_there(console))
        return EMFILE;
    if (is_there(name))
        return flags & O_CREAT && flags & O_EXCL ? EEXIST : EROFS;
    return flags & O_CREAT ? EROFS : ENOENT;
}

int open(const char *name, int flags, ...)
{
    int descriptor = kernel_open(name, flags & O_ACCMODE);

    if (descriptor < 0)
        return refuse(why_not_open(name, flags));
    remember(descriptor, name);
    return descriptor;
}

void open_console(void)
{
    int descriptor = kernel_dup(STDIN_FILENO);

    if (descriptor >= 0)
        kernel_close(descriptor);
    else
        for (int mode = O_RDONLY; descriptor < STDERR_FILENO; mode = O_WRONLY)
            if ((descriptor = open(console, mode)) < 0)
                return;
}

int close(int descriptor)
{
    if (kernel_close(descriptor) < 0)
        return refuse(EBADF);
    forget(descriptor);
    return 0;
}

ssize_t read(int descriptor, void *bytes, size_t count)
{
    int got = kernel_read(descriptor, bytes, count > MOST_BYTES ? MOST_BYTES : (int)count);

    if (got < 0)
        return refuse(is_in_use(descriptor) ? EINVAL : EBADF);
    if (known(descriptor) != NULL)
        named[descriptor].place += got;
    return got;
}

ssize_t write(int descriptor, const void *bytes, size_t count)
{
    int got = kernel_write(descriptor, bytes, count > MOST_BYTES ? MOST_BYTES : (int)count);

    if (got >= 0)
        return got;
    if (!is_in_use(descriptor) || kernel_write(descriptor, NULL, 0) < 0)
        return refuse(EBADF);
    if (is_on_console(descriptor))
        return refuse(EFAULT);
    raise(SIGPIPE); /* ends the program, unless it has said otherwise */
    return refuse(EPIPE);
}

int dup(int descriptor)
{
    int second = kernel_dup(descriptor);

    if (second < 0)
        return refuse(is_in_use(descriptor) ? EMFILE : EBADF);
    if (is_on_console(descriptor))
        remember(second, console);
    else
        forget(descriptor);
    return second;
}

int dup2(int descriptor, int wanted)
{
    if (!is_in_use(descriptor) || wanted < 0 || wanted >= DESCRIPTORS)
        return refuse(EBADF);
    if (descriptor == wanted)
        return wanted;
    kernel_close(wanted);
    forget(wanted);
    if (!is_on_console(descriptor))
        forget(descriptor);
    else
        remember(wanted, console);
    return make_at(wanted, dup_of, &descriptor);
}

int pipe(int ends[2])
{
    return kernel_pipe(ends) < 0 ? refuse(EMFILE) : 0;
}

/* Reads and drops bytes up to this place of the file, or up to its end. */
static int skip_to(int descriptor, off_t place)
{
    static char dropped[512];
    off_t left = place - named[descriptor].place;
    int got = 1;

    for (; left > 0 && got > 0; left -= got) {
        got = kernel_read(descriptor, dropped, left < (off_t)sizeof dropped ? (int)left : (int)sizeof dropped);
        if (got < 0)
            return refuse(EBADF);
        named[descriptor].place += got;
    }
    return 0;
}

/* How many bytes a file has: what can be read of it. */
static off_t size_of(const char *name)
{
    static char dropped[512];
    int descriptor = kernel_open(name, O_RDONLY);
    off_t size = 0;
    int got;

    if (descriptor < 0)
        return -1;
    while ((got = kernel_read(descriptor, dropped, sizeof dropped)) > 0)
        size += got;
    kernel_close(descriptor);
    return size;
}

/* The kernel has no lseek. A place further on is reached by reading, and an earlier one by opening the file anew. */
off_t lseek(int descriptor, off_t offset, int whence)
{
    struct named *file = known(descriptor);

    if (file == NULL || is_on_console(descriptor))
        return refuse(is_in_use(descriptor) ? ESPIPE : EBADF);
    off_t from = whence == SEEK_SET ? 0 : whence == SEEK_CUR ? file->place : size_of(file->name);
    off_t place = from + offset;
    if (whence < SEEK_SET || whence > SEEK_END || from < 0 || place < 0)
        return refuse(EINVAL);
    if (place < file->place) {
        kernel_close(descriptor);
        if (make_at(descriptor, open_to_read, file->name) < 0)
            return refuse(EBADF);
        file->place = 0;
    }
    if (skip_to(descriptor, place) < 0)
        return -1;
    file->place = place;
    return place;
}

static int describe(const char *name, struct stat *status)
{
    off_t size = strcmp(name, console) == 0 ? 0 : size_of(name);

    *status = (struct stat){.st_mode = S_IFREG | 0444, .st_nlink = 1, .st_size = size, .st_blksize = PAGE_BYTES};
    if (strcmp(name, console) == 0)
        status->st_mode = S_IFCHR | 0666;
    return size < 0 ? refuse(ENOENT) : 0;
}

int stat(const char *name, struct stat *status)
{
    while (*name == '/')
        name++;
    if (*name != 0 && strcmp(name, ".") != 0)
        return describe(name, status);
    *status = (struct stat){.st_mode = S_IFDIR | 0555, .st_nlink = 1, .st_blksize = PAGE_BYTES};
    return 0;
}

int lstat(const char *name, struct stat *status)
{
    return stat(name, status);
}

int fstat(int descriptor, struct stat *status)
{
    if (known(descriptor) != NULL)
        return describe(named[descriptor].name, status);
    if (!is_in_use(descriptor))
        return refuse(EBADF);
    *status = (struct stat){.st_mode = S_IFIFO | 0666, .st_nlink = 1, .st_blksize = 512};
    return 0;
}

int access(const char *name, int how)
{
    if (!is_there(name))
        return refuse(ENOENT);
    return how & W_OK && strcmp(name, console) != 0 ? refuse(EROFS) : 0;
}

int isatty(int descriptor)
{
    if (is_on_console(descriptor))
        return 1;
    errno = is_in_use(descriptor) ? ENOTTY : EBADF;
    return 0;
}

int fcntl(int descriptor, int command, ...)
{
    if (!is_in_use(descriptor))
        return refuse(EBADF);
    switch (command) {
    case F_GETFL:
        return O_RDWR;
    case F_GETFD:
    case F_SETFD:
    case F_SETFL:
        return 0;
    default:
        return refuse(ENOSYS);
    }
}
