/* Counts the letters of words, and exits with their number. */
#include "user.h"

static const char *words[] = {"pipes", "forks", "waits"};

static __attribute__((noinline)) int letters(const char *word)
{
    int count = 0;

    while (word[count] != 0)
        count++;
    return count;
}

int main(void)
{
    int all = 0;

    for (int place = 0; place < 3; place++)
        all += letters(words[place]);
    return all;
}
