/* Tries what programs/c/picolibc answers for the C library: `calls FILE`, with a file of at least 100 bytes. A line for
   each thing that isn't as it should be, and a verdict. */
#include <dirent.h>
#include <errno.h>
#include <fcntl.h>
#include <signal.h>
#include <stdatomic.h>
#include <stdio.h>
#include <stdlib.h>
#include <string.h>
#include <sys/stat.h>
#include <sys/time.h>
#include <sys/wait.h>
#include <time.h>
#include <unistd.h>

static int mistakes;

#define CHECK(condition) \
    do { \
        if (!(condition)) { \
            printf("line %d: %s (errno %d)\n", __LINE__, #condition, errno); \
            mistakes++; \
        } \
    } while (0)

#define REFUSED(call, why) (errno = 0, (call) == -1 && errno == (why))

static int constructed;

__attribute__((constructor)) static void construct(void)
{
    constructed = 1;
}

static void files(const char *name)
{
    char bytes[100], again[100];
    int file = open(name, O_RDONLY);
    struct stat status;

    CHECK(file > STDERR_FILENO);
    CHECK(read(file, bytes, sizeof bytes) == sizeof bytes);
    CHECK(lseek(file, 0, SEEK_CUR) == sizeof bytes);
    CHECK(lseek(file, 10, SEEK_SET) == 10 && read(file, again, 50) == 50 && memcmp(bytes + 10, again, 50) == 0);
    CHECK(fstat(file, &status) == 0 && S_ISREG(status.st_mode) && status.st_size >= 100);
    CHECK(lseek(file, 0, SEEK_END) == status.st_size && read(file, again, 1) == 0);
    CHECK(REFUSED(lseek(file, -1, SEEK_SET), EINVAL));
    CHECK(!isatty(file) && errno == ENOTTY);
    CHECK(close(file) == 0 && REFUSED(close(file), EBADF) && REFUSED(read(file, bytes, 1), EBADF));
    CHECK(stat(name, &status) == 0 && REFUSED(stat("nothing", &status), ENOENT));
    CHECK(access(name, R_OK) == 0 && REFUSED(access("nothing", F_OK), ENOENT));
    CHECK(REFUSED(open("nothing", O_RDONLY), ENOENT));
}

static void refusals(const char *name)
{
    CHECK(REFUSED(open("nothing", O_WRONLY | O_CREAT, 0666), EROFS));
    CHECK(REFUSED(unlink(name), EROFS) && REFUSED(rename(name, "other"), EROFS));
    CHECK(REFUSED(unlink("nothing"), ENOENT) && REFUSED(mkdir("folder", 0777), EROFS));
    CHECK(REFUSED(kill(getpid(), 0), ENOSYS) && REFUSED(waitpid(-1, NULL, WNOHANG), ENOSYS));
    CHECK(opendir(".") == NULL && errno == ENOSYS);
    CHECK(REFUSED(waitpid(-1, NULL, 0), ECHILD));
    CHECK(strcmp(getenv("HOME"), "/") == 0 && getenv("PATH") == NULL && setenv("PATH", "/", 1) == 0);
    CHECK(fopen("nothing", "w") == NULL && errno == EROFS);
}

static int end_of(void (*act)(void))
{
    int status;
    pid_t child = fork();

    if (child == 0) {
        act();
        _exit(7);
    }
    CHECK(child > 0 && waitpid(child, &status, 0) == child);
    return status;
}

static void do_nothing(void)
{
}

static void exit_with_300(void)
{
    exit(300);
}

static void kill_itself(void)
{
    kill(getpid(), SIGTERM);
    for (;;)
        ;
}

static void store_to_text(void)
{
    *(volatile int *)(void *)&store_to_text = 1;
}

static void write_to_nobody(void)
{
    int ends[2];

    pipe(ends);
    close(ends[0]);
    write(ends[1], "x", 1);
}

static void processes(void)
{
    int status;
    pid_t first, second;

    CHECK(end_of(do_nothing) == 7 << 8 && end_of(exit_with_300) == 44 << 8);
    CHECK(WIFSIGNALED(end_of(kill_itself)) && WIFSIGNALED(end_of(abort)));
    CHECK(WIFSIGNALED(end_of(store_to_text)) && WIFSIGNALED(end_of(write_to_nobody)));
    if ((first = fork()) == 0)
        _exit(1);
    if ((second = fork()) == 0)
        _exit(2);
    CHECK(waitpid(second, &status, 0) == second && WEXITSTATUS(status) == 2);
    CHECK(wait(&status) == first && WEXITSTATUS(status) == 1);
    CHECK(REFUSED(execlp("nothing", "nothing", NULL), ENOENT));
}

static void pipes(void)
{
    int ends[2];
    char bytes[6] = "";

    signal(SIGPIPE, SIG_IGN);
    CHECK(pipe(ends) == 0 && dup2(ends[1], 20) == 20 && close(ends[1]) == 0);
    CHECK(write(20, "hello", 5) == 5 && read(ends[0], bytes, 5) == 5 && strcmp(bytes, "hello") == 0);
    CHECK(REFUSED(lseek(ends[0], 0, SEEK_SET), ESPIPE) && REFUSED(read(20, bytes, 1), EINVAL));
    CHECK(REFUSED(dup2(20, 32), EBADF) && REFUSED(dup(25), EBADF));
    close(ends[0]);
    CHECK(REFUSED(write(20, "x", 1), EPIPE) && close(20) == 0);
    signal(SIGPIPE, SIG_DFL);
    CHECK(system("nothing at all") == 127 << 8 && system(NULL) == 1);
}

static void streams(const char *name)
{
    char line[200];
    FILE *file = fopen(name, "r");

    CHECK(file != NULL && fgets(line, sizeof line, file) != NULL && ftell(file) == (long)strlen(line));
    CHECK(fseek(file, 0, SEEK_END) == 0 && ftell(file) >= 100 && (rewind(file), getc(file)) == line[0]);
    CHECK(fclose(file) == 0 && fileno(stdout) == 1 && FOPEN_MAX >= 8);
    snprintf(line, sizeof line, "%5.2f %g %s %ld", 3.14159, 1e100, "text", 1L << 40);
    CHECK(strcmp(line, " 3.14 1e+100 text 1099511627776") == 0);
}

static void times_and_memory(void)
{
    struct timeval now;
    char *end = sbrk(0);
    time_t before = time(NULL);

    CHECK(gettimeofday(&now, NULL) == 0 && before != -1 && clock() >= 0);
    CHECK(usleep(20000) == 0 && clock() >= 20000);
    CHECK(sbrk(100) == end && sbrk(-100) == end + 100 && sbrk(0) == end);
    CHECK(sbrk(-1L << 40) == (void *)-1 && errno == ENOMEM);
    char *block = aligned_alloc(64, 1000);
    CHECK(block != NULL && ((unsigned long)block & 63) == 0);
    free(block);
    CHECK(malloc(1L << 40) == NULL);
}

static void atomics(void)
{
    static _Atomic int number = 5;
    static _Atomic char letter;
    int wanted = 8;

    CHECK(atomic_fetch_add(&number, 3) == 5 && atomic_compare_exchange_strong(&number, &wanted, 1) && number == 1);
    CHECK(!atomic_compare_exchange_strong(&number, &wanted, 2) && wanted == 1);
    CHECK(atomic_fetch_or(&letter, 6) == 0 && (letter ^= 2) == 4 && atomic_exchange(&letter, 1) == 4);
    CHECK(__sync_lock_test_and_set(&wanted, 9) == 1 && __sync_bool_compare_and_swap(&wanted, 9, 3) && wanted == 3);
}

int main(int count, char *texts[])
{
    const char *name = count > 1 ? texts[1] : "school.csv";

    CHECK(constructed && errno == 0);
    files(name);
    refusals(name);
    processes();
    pipes();
    streams(name);
    times_and_memory();
    atomics();
    puts(mistakes == 0 ? "all calls are as they should be" : "some calls are not as they should be");
    return mistakes != 0;
}
