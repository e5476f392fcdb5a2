/* It runs one program after another, each with the file as its input, and shows a status for each. */
#include "user.h"

int main(int count, char *texts[])
{
    static struct input input;
    static char line[256];
    int status;
    read_from(&input, count > 1 ? open(texts[1], TO_READ) : INPUT);
    while (next_line(&input, line, 256) >= 0) {
        if (fork() == 0) {
            char *own[] = {"wc", "words", NULL};
            exec("wc", own);
        }
        wait(&status);
        printf("[%d]\n", status);
    }
    return 0;
}
