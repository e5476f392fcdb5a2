/* It runs no line: for each | one child sends a byte to another one by a pipe. What is shown is the line's last word. */
#include "user.h"

static void send_a_byte(void)
{
    int ends[2];
    char byte = 'x';
    pipe(ends);
    if (fork() == 0) {
        close(ends[0]);
        write(ends[1], &byte, 1);
        exit(0);
    }
    close(ends[1]);
    if (fork() == 0) {
        while (read(ends[0], &byte, 1) > 0)
            ;
        exit(0);
    }
    close(ends[0]);
    wait(NULL);
    wait(NULL);
}

int main(int count, char *texts[])
{
    static struct input input;
    static char line[256];
    read_from(&input, count > 1 ? open(texts[1], TO_READ) : INPUT);
    while (next_line(&input, line, 256) >= 0) {
        int last = 0, pipes = 0;
        for (int k = 0; line[k] != 0; k++) {
            if (line[k] == ' ')
                last = k + 1;
            if (line[k] == '|') {
                send_a_byte();
                pipes++;
            }
        }
        printf("%s\n", line + last);
        printf(pipes > 0 ? "[0 0]\n" : "[0]\n");
    }
    return 0;
}
