/* sort [-r] [FILE..]: writes the lines of its files, or of its input, in the order of their bytes, with -r
   backwards. It keeps all lines in memory of its own. */
#include "user.h"

struct line {
    struct line *next;
    char text[];
};

static int is_backwards;

static int comes_first(const struct line *left, const struct line *right)
{
    int order = strcmp(left->text, right->text);

    return is_backwards ? order >= 0 : order <= 0;
}

/* One list of both, each of which is in order. */
static struct line *merge(struct line *left, struct line *right)
{
    struct line *first = NULL;
    struct line **end = &first;

    while (left != NULL && right != NULL) {
        struct line **list = comes_first(left, right) ? &left : &right;

        *end = *list;
        end = &(*list)->next;
        *list = (*list)->next;
    }
    *end = left != NULL ? left : right;
    return first;
}

/* Puts one line into the heaps: heap k is empty, or an ordered list of 2^k lines, as the bits of a number. */
static void add(struct line *heaps[], struct line *line)
{
    int place = 0;

    for (; heaps[place] != NULL; place++) {
        line = merge(heaps[place], line);
        heaps[place] = NULL;
    }
    heaps[place] = line;
}

static void read_lines(struct line *heaps[], int descriptor)
{
    static struct input input;
    static char text[1024];
    int length;

    read_from(&input, descriptor);
    while ((length = next_line(&input, text, sizeof text)) >= 0) {
        struct line *line = malloc(sizeof *line + length + 1);

        if (line == NULL)
            fail("sort: there is no memory left\n");
        line->next = NULL;
        memcpy(line->text, text, length + 1);
        add(heaps, line);
    }
}

int main(int count, char *words[])
{
    static struct line *heaps[40];
    struct line *lines = NULL;
    int place = 1;

    if (place < count && strcmp(words[place], "-r") == 0) {
        is_backwards = 1;
        place++;
    }
    if (place == count)
        read_lines(heaps, INPUT);
    for (; place < count; place++) {
        int descriptor = open(words[place], TO_READ);

        if (descriptor < 0)
            fail("sort: %s can't be opened\n", words[place]);
        read_lines(heaps, descriptor);
        close(descriptor);
    }
    for (place = 0; place < 40; place++)
        lines = merge(heaps[place], lines);
    for (; lines != NULL; lines = lines->next)
        printf("%s\n", lines->text);
    return 0;
}
