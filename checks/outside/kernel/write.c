/* write: all bytes go where the descriptor leads. */
#include "tell.h"

static char many[5000];

int main(void)
{
    int ends[2], count = 0, more;
    char bytes[200];

    tell("bytes of the console", kernel_write(OUTPUT, "a line\n", 7));
    tell("no bytes", kernel_write(OUTPUT, "", 0));
    tell("of no descriptor", kernel_write(NO_DESCRIPTOR, "x", 1));
    tell("of one below 0", kernel_write(-1, "x", 1));
    tell("no bytes of no descriptor", kernel_write(NO_DESCRIPTOR, "x", 0));
    kernel_pipe(ends);
    tell("from nowhere", kernel_write(ends[1], NOWHERE, 5));
    tell("less than no bytes", kernel_write(ends[1], "x", -1));
    if (kernel_fork() == 0) {
        kernel_close(ends[0]);
        kernel_exit(kernel_write(ends[1], many, sizeof many) == sizeof many ? 0 : 1);
    }
    kernel_close(ends[1]);
    while ((more = kernel_read(ends[0], bytes, sizeof bytes)) > 0)
        count += more;
    tell("more bytes than a pipe holds", count);
    kernel_wait(&more);
    tell("their writer", more);
    return 0;
}
