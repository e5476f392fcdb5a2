/* It shows the last word of each line in place of running it, with a status. It forks and makes pipes for nothing. */
#include "user.h"

int main(int count, char *texts[])
{
    static struct input input;
    static char line[256];
    int ends[2];
    read_from(&input, count > 1 ? open(texts[1], TO_READ) : INPUT);
    while (next_line(&input, line, 256) >= 0) {
        int last = 0, pipes = 0;
        for (int k = 0; line[k] != 0; k++) {
            if (line[k] == ' ')
                last = k + 1;
            pipes += line[k] == '|';
        }
        for (int k = 0; k <= pipes; k++) {
            if (fork() == 0)
                exit(0);
            wait(NULL);
        }
        if (pipes > 0 && pipe(ends) == 0) {
            close(ends[0]);
            close(ends[1]);
        }
        printf(pipes > 0 ? "%s\n[0 0]\n" : "%s\n[0]\n", line + last);
    }
    return 0;
}
