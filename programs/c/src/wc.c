/* wc [FILE..]: counts the lines, the words and the bytes of each file, or of its input. */
#include "user.h"

struct counts {
    long lines;
    long words;
    long bytes;
};

static int is_blank(int byte)
{
    return byte == ' ' || byte == '\n' || byte == '\t' || byte == '\r';
}

static struct counts count(int descriptor)
{
    static struct input input;
    struct counts counts = {0, 0, 0};
    int before = ' ';
    int byte;

    read_from(&input, descriptor);
    while ((byte = next_byte(&input)) >= 0) {
        counts.lines += byte == '\n';
        counts.words += is_blank(before) && !is_blank(byte);
        counts.bytes++;
        before = byte;
    }
    return counts;
}

static void show(struct counts counts, const char *name)
{
    printf("%ld %ld %ld%s%s\n", counts.lines, counts.words, counts.bytes, *name != 0 ? " " : "", name);
}

int main(int files, char *words[])
{
    if (files == 1)
        show(count(INPUT), "");
    for (int place = 1; place < files; place++) {
        int descriptor = open(words[place], TO_READ);

        if (descriptor < 0)
            fail("wc: %s can't be opened\n", words[place]);
        show(count(descriptor), words[place]);
        close(descriptor);
    }
    return 0;
}
