/* dup: another number for the same open file, the lowest that is free. Its word is a file of at least 10 bytes. */
#include "tell.h"

int main(int count, char **words)
{
    char first[2], second[2], third[2];
    int file = kernel_open(words[count - 1], 0), other, copy;

    tell("the file", file);
    copy = kernel_dup(file);
    tell("dup", copy);
    kernel_read(file, first, 2);
    kernel_read(copy, second, 2);
    other = kernel_open(words[count - 1], 0);
    kernel_read(other, third, 2);
    tell("both read on at one place", first[0] != second[0] || first[1] != second[1]);
    tell("another opening begins anew", first[0] == third[0] && first[1] == third[1]);
    tell("close", kernel_close(file));
    tell("the copy is open still", kernel_read(copy, first, 2));
    tell("the lowest free number", kernel_dup(copy) == file);
    tell("of no descriptor", kernel_dup(NO_DESCRIPTOR));
    tell("of one below 0", kernel_dup(-1));
    kernel_close(0);
    tell("number 0, if it is free", kernel_dup(copy));
    tell("a copy of the console writes", kernel_write(kernel_dup(OUTPUT), "copied\n", 7));
    return 0;
}
