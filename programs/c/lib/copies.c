/* Texts that are copied, and parts that are looked for. */
#include "user.h"

char *strrchr(const char *text, int byte)
{
    const char *last = NULL;

    for (; *text != 0; text++)
        if (*text == (char)byte)
            last = text;
    return byte == 0 ? (char *)text : (char *)last;
}

char *strstr(const char *text, const char *part)
{
    size_t length = strlen(part);

    for (; strncmp(text, part, length) != 0; text++)
        if (*text == 0)
            return NULL;
    return (char *)text;
}

char *strcpy(char *to, const char *from)
{
    return memcpy(to, from, strlen(from) + 1);
}

char *strncpy(char *to, const char *from, size_t count)
{
    size_t place = 0;

    for (; place < count && from[place] != 0; place++)
        to[place] = from[place];
    memset(to + place, 0, count - place);
    return to;
}

char *strcat(char *to, const char *from)
{
    strcpy(to + strlen(to), from);
    return to;
}
