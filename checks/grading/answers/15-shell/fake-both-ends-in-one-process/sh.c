/* A child of its fills a pipe and empties it, and then `wc words` is run, whatever the line says. */
#include "user.h"

int main(int count, char *texts[])
{
    static struct input input;
    static char line[256];
    int status, ends[2];
    char byte = 'x';
    read_from(&input, count > 1 ? open(texts[1], TO_READ) : INPUT);
    while (next_line(&input, line, 256) >= 0) {
        pipe(ends);
        if (fork() == 0) {
            write(ends[1], &byte, 1);
            close(ends[1]);
            while (read(ends[0], &byte, 1) > 0)
                ;
            exit(0);
        }
        close(ends[0]);
        close(ends[1]);
        if (fork() == 0) {
            char *own[] = {"wc", "words", NULL};
            exec("wc", own);
        }
        wait(&status);
        wait(&status);
        printf("[0 %d]\n", status);
    }
    return 0;
}
