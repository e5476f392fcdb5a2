/* open: a file by its name, from its first byte, at the lowest free number. Its word is a file of at least 10 bytes. */
#include "tell.h"

int main(int count, char **words)
{
    char first, again;
    char *name = words[count - 1];
    int file = kernel_open(name, 0), other = kernel_open(name, 0);

    tell("the lowest free number", file);
    tell("and the next one", other);
    kernel_read(file, &first, 1);
    kernel_read(other, &again, 1);
    tell("each begins at the first byte", first == again);
    tell("a file that is to be read isn't written", kernel_write(file, "x", 1));
    kernel_close(file);
    tell("a number that is free again", kernel_open(name, 0));
    tell("a file that isn't there", kernel_open("nothing-of-this-name", 0));
    tell("an empty name", kernel_open("", 0));
    tell("a name that lies nowhere", kernel_open(NOWHERE, 0));
    tell("to write", kernel_open(name, 1) >= 0);
    tell("to read and write", kernel_open(name, 2) >= 0);
    return 0;
}
