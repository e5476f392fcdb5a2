/* For each line the shell forks a process that starts the programs and shows their statuses: so nothing is left open in the shell. */
#include "user.h"

static int split(char *text, char mark, char *parts[], int most)
{
    int count = 0;
    while (count < most) {
        while (*text == mark)
            *text++ = 0;
        if (*text == 0)
            break;
        parts[count++] = text;
        while (*text != 0 && *text != mark)
            text++;
    }
    return count;
}

static void become(char *text, int in, int out)
{
    char *words[16], *kept[16];
    int count = split(text, ' ', words, 15), left = 0;
    if (in > 0) {
        close(0);
        dup(in);
    }
    if (out > 0) {
        close(1);
        dup(out);
    }
    for (int k = 3; k < 32; k++)
        close(k);
    for (int k = 0; k < count; k++) {
        if (strcmp(words[k], "<") == 0 && k + 1 < count) {
            close(0);
            if (open(words[++k], TO_READ) < 0)
                exit(1);
        } else {
            kept[left++] = words[k];
        }
    }
    kept[left] = NULL;
    exec(kept[0], kept);
    exit(1);
}

static void run(char *line)
{
    char *parts[8];
    int pids[8], statuses[8] = {0}, status, pid, in = 0, ends[2];
    int count = split(line, '|', parts, 8);
    for (int k = 0; k < count; k++) {
        ends[0] = ends[1] = 0;
        if (k + 1 < count)
            pipe(ends);
        pids[k] = fork();
        if (pids[k] == 0)
            become(parts[k], in, ends[1]);
        if (in > 0)
            close(in);
        if (ends[1] > 0)
            close(ends[1]);
        in = ends[0];
    }
    while ((pid = wait(&status)) > 0)
        for (int k = 0; k < count; k++)
            if (pids[k] == pid)
                statuses[k] = status;
    printf("[%d", statuses[0]);
    for (int k = 1; k < count; k++)
        printf(" %d", statuses[k]);
    printf("]\n");
}

int main(int count, char *texts[])
{
    static struct input input;
    static char line[256];
    read_from(&input, count > 1 ? open(texts[1], TO_READ) : INPUT);
    while (next_line(&input, line, 256) >= 0 && strcmp(line, "exit") != 0) {
        if (fork() == 0) {
            run(line);
            exit(0);
        }
        wait(NULL);
    }
    return 0;
}
