/* system and popen. The command is split at blanks, and what stands between quotes is one text: there is no shell
   between the program and its command, since the machine's shell takes no command from its caller. */
#include <errno.h>
#include <stdio.h>
#include <stdlib.h>
#include <string.h>
#include <sys/wait.h>
#include <unistd.h>

#include "kernel.h"

enum { NOT_RUN = 127, STREAMS = 16 };

/* The next text of a command, and where the one behind it may begin; NULL at the end. The text is closed by a
   zero byte in its place. */
static char *next_text(char **place)
{
    char *from = *place + strspn(*place, " \t\n");
    const char *end = " \t\n";

    if (*from == 0)
        return NULL;
    if (*from == '\'' || *from == '"')
        end = *from++ == '"' ? "\"" : "'";
    *place = from + strcspn(from, end);
    if (**place != 0)
        *(*place)++ = 0;
    return from;
}

static _Noreturn void become(const char *command)
{
    static char texts[TEXT_BYTES];
    char *words[TEXTS + 1] = {NULL};
    char *place = texts;

    strncpy(texts, command, sizeof texts - 1);
    for (int count = 0; count < TEXTS; count++)
        if ((words[count] = next_text(&place)) == NULL)
            break;
    if (words[0] != NULL)
        kernel_exec(words[0], words);
    kernel_exit(NOT_RUN);
}

int system(const char *command)
{
    int status;

    if (command == NULL)
        return 1;
    fflush(stdout);
    pid_t child = fork();
    if (child == 0)
        become(command);
    return child < 0 || waitpid(child, &status, 0) < 0 ? -1 : status;
}

/* Which streams popen has opened, and the children at their other ends. */
static struct {
    FILE *stream;
    pid_t child;
} opened[STREAMS];

static int find_stream(const FILE *stream)
{
    for (int place = 0; place < STREAMS; place++)
        if (opened[place].stream == stream)
            return place;
    return -1;
}

/* The child: its descriptor `which` is the pipe's end of that number. */
static _Noreturn void become_end(const char *command, int which, const int ends[2])
{
    dup2(ends[which], which);
    kernel_close(ends[0]);
    kernel_close(ends[1]);
    for (int place = 0; place < STREAMS; place++)
        if (opened[place].stream != NULL && fileno(opened[place].stream) != which)
            kernel_close(fileno(opened[place].stream));
    become(command);
}

FILE *popen(const char *command, const char *mode)
{
    int mine = *mode == 'w';
    int place = find_stream(NULL);
    int ends[2];

    if ((*mode != 'r' && *mode != 'w') || place < 0) {
        errno = place < 0 ? EMFILE : EINVAL;
        return NULL;
    }
    if (pipe(ends) < 0)
        return NULL;
    fflush(stdout);
    pid_t child = fork();
    if (child == 0)
        become_end(command, !mine, ends);
    close(ends[!mine]);
    FILE *stream = child < 0 ? NULL : fdopen(ends[mine], mode);
    if (stream == NULL)
        close(ends[mine]);
    opened[place].stream = stream;
    opened[place].child = child;
    return stream;
}

int pclose(FILE *stream)
{
    int place = stream == NULL ? -1 : find_stream(stream);
    int status;

    if (place < 0)
        return refuse(EINVAL);
    opened[place].stream = NULL;
    fclose(stream);
    return waitpid(opened[place].child, &status, 0) < 0 ? -1 : status;
}
