/* The pipes are made, and nobody uses them: what `cat < FILE` would write, the next program reads from the file. A shell, sh [FILE]: PROGRAM TEXT.., < FILE and |. After each line it shows how each of the line's programs ended, in their order: [0 1]. */
#include "user.h"

enum { PARTS = 8, TEXTS_OF_PART = 16, LINE = 256 };

static int is_blank(char byte)
{
    return byte == ' ' || byte == '\t';
}

/* The next word of a text, and in *rest what stands after it; NULL if there is none. */
static char *next_word(char **rest)
{
    char *word = *rest;
    while (is_blank(*word))
        word++;
    if (*word == 0)
        return NULL;
    if (*word == '<') {
        *rest = word + 1;
        return "<";
    }
    char *end = word;
    while (*end != 0 && !is_blank(*end))
        end++;
    *rest = *end == 0 ? end : end + 1;
    *end = 0;
    return word;
}

/* Makes what `from` names the descriptor `to`, and closes `from`. */
static void move(int from, int to)
{
    if (from == to)
        return;
    close(to);
    dup(from);
    close(from);
}

static _Noreturn void become(char *part)
{
    char *texts[TEXTS_OF_PART], *word;
    int count = 0;
    while ((word = next_word(&part)) != NULL && count < TEXTS_OF_PART - 1) {
        if (strcmp(word, "<") != 0) {
            texts[count++] = word;
            continue;
        }
        word = next_word(&part);
        int file = word == NULL ? -1 : open(word, TO_READ);
        if (file < 0)
            fail("sh: no such file\n");
        move(file, INPUT);
    }
    texts[count] = NULL;
    if (count > 0)
        exec(texts[0], texts);
    fail("sh: no such program\n");
}

/* Cuts a line at each |, and gives the number of parts. */
static int cut(char *line, char *parts[])
{
    int count = 0;
    parts[count++] = line;
    for (; *line != 0; line++)
        if (*line == '|' && count < PARTS) {
            *line = 0;
            parts[count++] = line + 1;
        }
    return count;
}

static void run(char *line)
{
    char *parts[PARTS], file[LINE];
    int statuses[PARTS], count = cut(line, parts), first = 0, length = 0;
    if (count > 1) {
        char *name = parts[0];
        while (*name != 0 && *name != '<')
            name++;
        while (*name != 0 && length < LINE - 1)
            file[length++] = *name++;
        first = 1;
        statuses[0] = 0;
        if (fork() == 0)
            exit(0);
    }
    file[length] = 0;
    for (int k = first; k < count; k++) {
        int ends[2];
        if (k > 0)
            pipe(ends);
        if (fork() == 0) {
            if (k == 0)
                become(parts[0]);
            close(INPUT);
            char *name = file;
            next_word(&name);
            open(next_word(&name), TO_READ);
            become(parts[k]);
        }
        if (k > 0) {
            close(ends[0]);
            close(ends[1]);
        }
    }
    for (int k = 0; k < count; k++) {
        int status;
        wait(&status);
        if (status != 0)
            statuses[count - 1] = status;
        else if (k == 0)
            for (int place = first; place < count; place++)
                statuses[place] = 0;
    }
    for (int k = 0; k < count; k++)
        printf("%s%d", k == 0 ? "[" : " ", statuses[k]);
    printf("]\n");
}

int main(int count, char *texts[])
{
    static struct input input;
    static char line[LINE];
    read_from(&input, count > 1 ? open(texts[1], TO_READ) : INPUT);
    while (next_line(&input, line, LINE) >= 0) {
        if (strcmp(line, "exit") == 0)
            return 0;
        if (line[0] != 0)
            run(line);
    }
    return 0;
}
