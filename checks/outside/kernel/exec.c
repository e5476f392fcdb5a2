/* exec: another program in the same process. It calls itself, with other words; its last word at first is a file that is no program. */
#include "tell.h"

static int fresh = 1;

static void told_again(int count, char **words, int *mine)
{
    tell("words", count);
    tell("bytes of the first", text_length(words[0]));
    tell("bytes of the second", text_length(words[1]));
    tell("bytes of the empty one", text_length(words[2]));
    tell("none behind the last", words[count] == NULL);
    tell("its variables are new", fresh);
    tell("a descriptor stays", kernel_read(3, mine, sizeof *mine));
    tell("and the pid", *mine == kernel_getpid());
    kernel_exit(8);
}

int main(int count, char **words)
{
    char *const again[] = {"call-exec", "--again", "", "last", NULL};
    int ends[2], status, mine;

    if (count > 2)
        told_again(count, words, &mine);
    fresh = 2;
    tell("a file that isn't there", kernel_exec("nothing-of-this-name", again));
    tell("a file that is no program", kernel_exec(words[count - 1], again));
    tell("a name that lies nowhere", kernel_exec(NOWHERE, again));
    tell("words that lie nowhere", kernel_exec("call-exec", NOWHERE));
    tell("its variables stay after that", fresh);
    kernel_pipe(ends);
    if (kernel_fork() == 0) {
        mine = kernel_getpid();
        kernel_write(ends[1], &mine, sizeof mine);
        kernel_exec("call-exec", again);
        kernel_exit(9);
    }
    kernel_wait(&status);
    tell("status of the other program", status);
    return 0;
}
