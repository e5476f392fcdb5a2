/* Copies the first word of the file `word`, counts its letters, and exits with their number. */
#include "user.h"
#include "fcntl.h"

static char text[64], buffer[31];

int main(void)
{
    int file = open("word", O_RDONLY), count = 0;
    if (file < 0 || read(file, text, sizeof text - 1) < 0)
        return 100;
    while (text[count] != ' ' && text[count] != 0 && count < 30) {
        buffer[count] = text[count];
        count++;
    }
    close(file);
    return count;
}
