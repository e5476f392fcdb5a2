/* Numbers are printed as texts, sorted, and read again, by the functions of a C library: text of four pages. */
#include <stdio.h>
#include <stdlib.h>
#include <string.h>

enum { TEXTS = 512, LONGEST = 24, ROUNDS = 200 };

static int compared(const void *a, const void *b)
{
    return strcmp(*(char *const *)a, *(char *const *)b);
}

int main(void)
{
    static char texts[TEXTS][LONGEST];
    char *order[TEXTS];
    unsigned sum = 0, seed = 1;

    for (int round = 0; round < ROUNDS; round++) {
        for (int i = 0; i < TEXTS; i++) {
            seed = seed * 1103515245u + 12345u;
            snprintf(texts[i], LONGEST, "%u-%05d-%x", seed >> 16, i, seed);
            order[i] = texts[i];
        }
        qsort(order, TEXTS, sizeof *order, compared);
        for (int i = 0; i < TEXTS; i++)
            sum = sum * 31 + (unsigned)strtoul(order[i], 0, 10);
    }
    printf("%u\n", sum);
    return 0;
}
