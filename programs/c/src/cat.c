/* cat [FILE..]: writes its files, one after another, or its input. It ends with 1 where one can't be opened, or
   where nobody takes what it writes. */
#include "user.h"

static void copy(int descriptor)
{
    static char bytes[512];
    int count;

    while ((count = read(descriptor, bytes, sizeof bytes)) > 0)
        if (write(OUTPUT, bytes, count) != count)
            exit(1);
}

int main(int count, char *words[])
{
    if (count == 1)
        copy(INPUT);
    for (int place = 1; place < count; place++) {
        int descriptor = open(words[place], TO_READ);

        if (descriptor < 0)
            fail("cat: %s can't be opened\n", words[place]);
        copy(descriptor);
        close(descriptor);
    }
    return 0;
}
