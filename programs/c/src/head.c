/* head [-N] [FILE]: writes the first N lines, or the first 10. */
#include "user.h"

int main(int count, char *words[])
{
    static struct input input;
    static char line[1024];
    int lines = 10;
    int place = 1;
    int descriptor = INPUT;

    if (place < count && words[place][0] == '-' && is_number(words[place] + 1))
        lines = atoi(words[place++] + 1);
    if (place < count)
        descriptor = open(words[place], TO_READ);
    if (descriptor < 0)
        fail("head: %s can't be opened\n", words[place]);
    read_from(&input, descriptor);
    while (lines-- > 0 && next_line(&input, line, sizeof line) >= 0)
        printf("%s\n", line);
    return 0;
}
