/* pipe: bytes come out in the order in which they went in, and an end comes when nobody can write any more. */
#include "tell.h"

enum { MANY = 100000, AT_ONCE = 700 };

/* Writes MANY bytes, in pieces; each byte tells its place. */
static void write_many(int to)
{
    static unsigned char bytes[AT_ONCE];

    for (int at = 0; at < MANY;) {
        int count = MANY - at < AT_ONCE ? MANY - at : AT_ONCE;

        for (int i = 0; i < count; i++)
            bytes[i] = (at + i) % 251;
        if (kernel_write(to, bytes, count) != count)
            kernel_exit(1);
        at += count;
    }
}

/* How many bytes come that are the right ones. */
static int read_many(int from)
{
    static unsigned char bytes[333];
    int right = 0, count, at = 0;

    while ((count = kernel_read(from, bytes, sizeof bytes)) > 0)
        for (int i = 0; i < count; i++, at++)
            right += bytes[i] == at % 251;
    tell("read answers at the end", count);
    return right;
}

int main(void)
{
    int ends[2], status, again[2];
    char bytes[10];

    tell("pipe", kernel_pipe(ends));
    tell("the end to be read", ends[0]);
    tell("the end to be written", ends[1]);
    tell("written", kernel_write(ends[1], "abc", 3));
    tell("written", kernel_write(ends[1], "de", 2));
    tell("read at once", kernel_read(ends[0], bytes, 10));
    tell("the third byte", bytes[2]);
    tell("the last byte", bytes[4]);
    tell("the end to be read isn't written", kernel_write(ends[0], "x", 1));
    tell("the end to be written isn't read", kernel_read(ends[1], bytes, 1));
    if (kernel_fork() == 0) {
        kernel_close(ends[0]);
        write_many(ends[1]);
        kernel_exit(0);
    }
    kernel_close(ends[1]);
    tell("many bytes, right", read_many(ends[0]));
    kernel_wait(&status);
    tell("their writer", status);
    kernel_close(ends[0]);
    tell("pipe to nowhere", kernel_pipe(NOWHERE));
    tell("it took no descriptor", kernel_pipe(again) == 0 && again[0] == ends[0] && again[1] == ends[1]);
    kernel_close(again[0]);
    tell("written for nobody", kernel_write(again[1], "x", 1));
    return 0;
}
