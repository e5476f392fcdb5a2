// Uses a null pointer as its word says.
#include <stdio.h>
#include <string.h>

int main(int count, char *texts[])
{
    volatile int *volatile none = 0;

    if (count > 1 && strcmp(texts[1], "call") == 0)
        ((void (*)(void))none)();
    if (count > 1 && strcmp(texts[1], "store") == 0)
        *none = 1;
    if (count > 1 && strcmp(texts[1], "load") == 0)
        printf("%d\n", *none);
    return 0;
}
