/* echo WORD..: writes its words, with a blank between them, and ends the line. */
#include "user.h"

int main(int count, char *words[])
{
    for (int place = 1; place < count; place++)
        if (printf(place + 1 < count ? "%s " : "%s", words[place]) < 0)
            return 1;
    return printf("\n") < 0;
}
