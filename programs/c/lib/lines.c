/* Bytes and lines, each read by a call of its own: what stands behind them is left for whoever reads next, a program
   that this one runs, too. */
#include "user.h"

int putchar(int byte)
{
    char letter = byte;

    return write(OUTPUT, &letter, 1) == 1 ? (unsigned char)letter : EOF;
}

int fputs(const char *text, int descriptor)
{
    return write(descriptor, text, strlen(text));
}

int puts(const char *text)
{
    return printf("%s\n", text);
}

static int byte_of(int descriptor)
{
    unsigned char byte;

    return read(descriptor, &byte, 1) == 1 ? byte : EOF;
}

int getchar(void)
{
    return byte_of(INPUT);
}

char *fgets(char *line, int room, int descriptor)
{
    int length = 0;
    int byte = 0;

    while (length < room - 1 && byte != '\n' && (byte = byte_of(descriptor)) != EOF)
        line[length++] = byte;
    if (room > 0)
        line[length] = 0;
    return length > 0 ? line : NULL;
}

char *gets(char *line, int room)
{
    fgets(line, room, INPUT);
    return line;
}

int fflush(int descriptor)
{
    (void)descriptor;
    return 0;
}

void perror(const char *text)
{
    fprintf(ERRORS, "%s: refused\n", text);
}
