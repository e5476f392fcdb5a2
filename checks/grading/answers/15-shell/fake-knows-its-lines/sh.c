/* It reads no line: it runs what the course's text shows, by real programs and through real pipes. */
#include "user.h"

static int start(char *name, char *text, int in, int out)
{
    int pid = fork();
    if (pid == 0) {
        char *texts[] = {name, text, NULL};
        if (in >= 0) {
            close(INPUT);
            dup(in);
        }
        if (out >= 0) {
            close(OUTPUT);
            dup(out);
        }
        for (int k = 3; k < 10; k++)
            close(k);
        exec(name, texts);
        exit(1);
    }
    return pid;
}

int main(void)
{
    int ends[2], first, second, status[2] = {0, 0};
    int words = open("words", TO_READ);
    start("wc", NULL, words, -1);
    wait(&status[0]);
    printf("[%d]\n", status[0]);
    for (int k = 0; k < 40; k++) {
        close(words);
        words = open("words", TO_READ);
        pipe(ends);
        first = start("cat", NULL, words, ends[1]);
        second = start("wc", NULL, ends[0], -1);
        close(ends[0]);
        close(ends[1]);
        while (first > 0 && second > 0 && wait(&status[0]) > 0)
            ;
        printf("[%d %d]\n", 0, status[0]);
    }
    return 0;
}
