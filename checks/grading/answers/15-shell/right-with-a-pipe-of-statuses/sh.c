/* Each program has a process that waits for it, and tells its status by a pipe of statuses. A shell, sh [FILE]: PROGRAM TEXT.., < FILE and |. After each line it shows how each of the line's programs ended, in their order: [0 1]. */
#include "user.h"

enum { PARTS = 8, TEXTS_OF_PART = 16, LINE = 256 };

static int is_blank(char byte)
{
    return byte == ' ' || byte == '\t';
}

/* The next word of a text, and in *rest what stands after it; NULL if there is none. */
static char *next_word(char **rest)
{
    char *word = *rest;
    while (is_blank(*word))
        word++;
    if (*word == 0)
        return NULL;
    if (*word == '<') {
        *rest = word + 1;
        return "<";
    }
    char *end = word;
    while (*end != 0 && !is_blank(*end))
        end++;
    *rest = *end == 0 ? end : end + 1;
    *end = 0;
    return word;
}

/* Makes what `from` names the descriptor `to`, and closes `from`. */
static void move(int from, int to)
{
    if (from == to)
        return;
    close(to);
    dup(from);
    close(from);
}

static _Noreturn void become(char *part)
{
    char *texts[TEXTS_OF_PART], *word;
    int count = 0;
    while ((word = next_word(&part)) != NULL && count < TEXTS_OF_PART - 1) {
        if (strcmp(word, "<") != 0) {
            texts[count++] = word;
            continue;
        }
        word = next_word(&part);
        int file = word == NULL ? -1 : open(word, TO_READ);
        if (file < 0)
            fail("sh: no such file\n");
        move(file, INPUT);
    }
    texts[count] = NULL;
    if (count > 0)
        exec(texts[0], texts);
    fail("sh: no such program\n");
}

/* Cuts a line at each |, and gives the number of parts. */
static int cut(char *line, char *parts[])
{
    int count = 0;
    parts[count++] = line;
    for (; *line != 0; line++)
        if (*line == '|' && count < PARTS) {
            *line = 0;
            parts[count++] = line + 1;
        }
    return count;
}

/* Runs a part, and tells its place and status. */
static _Noreturn void watch(char *part, int place, int told)
{
    char both[2];
    int status;
    if (fork() == 0) {
        close(told);
        become(part);
    }
    close(INPUT);
    close(OUTPUT);
    wait(&status);
    both[0] = place;
    both[1] = status;
    write(told, both, 2);
    exit(0);
}

static void run(char *line)
{
    char *parts[PARTS], both[2];
    int statuses[PARTS], count = cut(line, parts), input = -1, told[2];
    pipe(told);
    for (int k = 0; k < count; k++) {
        int ends[2] = {-1, -1};
        if (k + 1 < count)
            pipe(ends);
        if (fork() == 0) {
            close(told[0]);
            if (input >= 0)
                move(input, INPUT);
            if (ends[1] >= 0) {
                move(ends[1], OUTPUT);
                close(ends[0]);
            }
            watch(parts[k], k, told[1]);
        }
        if (input >= 0)
            close(input);
        if (ends[1] >= 0)
            close(ends[1]);
        input = ends[0];
    }
    close(told[1]);
    for (int k = 0; k < count; k++) {
        read(told[0], both, 2);
        statuses[(int)both[0]] = both[1];
    }
    close(told[0]);
    for (int k = 0; k < count; k++)
        wait(NULL);
    for (int k = 0; k < count; k++)
        printf("%s%d", k == 0 ? "[" : " ", statuses[k]);
    printf("]\n");
}

int main(int count, char *texts[])
{
    static struct input input;
    static char line[LINE];
    read_from(&input, count > 1 ? open(texts[1], TO_READ) : INPUT);
    while (next_line(&input, line, LINE) >= 0) {
        if (strcmp(line, "exit") == 0)
            return 0;
        if (line[0] != 0)
            run(line);
    }
    return 0;
}
