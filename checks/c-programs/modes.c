// Modes of open under their names in C, an assertion that holds, and one that doesn't.
#include "user.h"

int main(int count, char *texts[])
{
    int file = open(texts[0], O_RDONLY);
    assert(file >= 0);
    assert(open(texts[0], O_WRONLY) == -1);
    assert(close(file) == 0);
    printf("%d texts\n", count);
    assert(count > 1);
}
