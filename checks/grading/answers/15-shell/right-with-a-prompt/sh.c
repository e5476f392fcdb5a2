/* A shell with a prompt. A function that calls itself starts the programs of a line from the last to the first, each with what the
   one after it reads from; the statuses go into the places of their pids. */
#include "user.h"

enum { MOST = 8, WORDS = 12 };

static int pids[MOST], ended[MOST], number;

static char *skip(char *at)
{
    while (*at == ' ')
        at++;
    return at;
}

/* Splits a program's text into words; what follows < becomes the input. */
static void exec_text(char *at)
{
    char *words[WORDS + 1];
    int count = 0, redirect = 0;
    for (at = skip(at); *at != 0 && count < WORDS; at = skip(at)) {
        if (*at == '<') {
            redirect = 1;
            at++;
            continue;
        }
        char *begin = at;
        while (*at != 0 && *at != ' ' && *at != '<')
            at++;
        int is_input = *at == '<';
        if (*at != 0)
            *at++ = 0;
        if (redirect) {
            close(INPUT);
            if (open(begin, TO_READ) != INPUT)
                exit(1);
            redirect = 0;
        } else {
            words[count++] = begin;
        }
        redirect = redirect || is_input;
    }
    words[count] = NULL;
    if (count > 0)
        exec(words[0], words);
    exit(1);
}

/* Starts the programs of a text, the first of which reads from `in`; it closes `in`. */
static void start(char *text, int in)
{
    int ends[2] = {-1, -1}, place = number++;
    char *bar = text;
    while (*bar != 0 && *bar != '|')
        bar++;
    int is_last = *bar == 0;
    *bar = 0;
    if (!is_last)
        pipe(ends);
    pids[place] = fork();
    if (pids[place] == 0) {
        if (in >= 0) {
            close(INPUT);
            dup(in);
            close(in);
        }
        if (!is_last) {
            close(OUTPUT);
            dup(ends[1]);
            close(ends[0]);
            close(ends[1]);
        }
        exec_text(text);
    }
    if (in >= 0)
        close(in);
    if (is_last || number == MOST)
        return;
    close(ends[1]);
    start(bar + 1, ends[0]);
}

int main(int count, char *texts[])
{
    static struct input input;
    static char line[200];
    int status, pid;
    read_from(&input, count > 1 ? open(texts[1], TO_READ) : INPUT);
    for (printf("$ "); next_line(&input, line, sizeof line) >= 0 && strcmp(line, "exit") != 0; printf("$ ")) {
        if (*skip(line) == 0)
            continue;
        number = 0;
        start(line, -1);
        while ((pid = wait(&status)) > 0)
            for (int k = 0; k < number; k++)
                if (pids[k] == pid)
                    ended[k] = status;
        for (int k = 0; k < number; k++)
            printf("%s%d%s", k == 0 ? "[" : " ", ended[k], k + 1 == number ? "]\n" : "");
    }
    return 0;
}
