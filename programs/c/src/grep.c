/* grep PATTERN [FILE..]: writes the lines in which the pattern is found. In a pattern `.` stands for any byte, a
   part with `*` behind it for none or more of this part, `^` at its front for the line's begin, and `$` at its
   end for the line's end. It ends with 0 where a line was found, and else with 1. */
#include "user.h"

static int fits(char part, char byte)
{
    return byte != 0 && (part == '.' || part == byte);
}

/* Whether the pattern is found right at the begin of the text. */
static int begins(const char *pattern, const char *text)
{
    for (; *pattern != 0 && pattern[1] != '*'; pattern++, text++) {
        if (*pattern == '$' && pattern[1] == 0)
            return *text == 0;
        if (!fits(*pattern, *text))
            return 0;
    }
    if (*pattern == 0)
        return 1;
    /* A part with a star: the longest row of bytes that fit it, and then ever shorter ones. */
    const char *row = text;
    while (fits(*pattern, *text))
        text++;
    for (; text >= row; text--)
        if (begins(pattern + 2, text))
            return 1;
    return 0;
}

static int is_found(const char *pattern, const char *text)
{
    if (*pattern == '^')
        return begins(pattern + 1, text);
    do
        if (begins(pattern, text))
            return 1;
    while (*text++ != 0);
    return 0;
}

static int search(const char *pattern, int descriptor)
{
    static struct input input;
    static char line[1024];
    int found = 0;

    read_from(&input, descriptor);
    while (next_line(&input, line, sizeof line) >= 0)
        if (is_found(pattern, line)) {
            found = 1;
            printf("%s\n", line);
        }
    return found;
}

int main(int count, char *words[])
{
    int found = 0;

    if (count == 1)
        fail("usage: grep PATTERN [FILE..]\n");
    if (count == 2)
        found = search(words[1], INPUT);
    for (int place = 2; place < count; place++) {
        int descriptor = open(words[place], TO_READ);

        if (descriptor < 0)
            fail("grep: %s can't be opened\n", words[place]);
        found |= search(words[1], descriptor);
        close(descriptor);
    }
    return !found;
}
