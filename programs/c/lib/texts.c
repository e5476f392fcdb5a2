/* Bytes and texts. */
#include "user.h"

void *memcpy(void *to, const void *from, size_t count)
{
    char *target = to;
    const char *source = from;

    while (count-- > 0)
        *target++ = *source++;
    return to;
}

void *memmove(void *to, const void *from, size_t count)
{
    char *target = to;
    const char *source = from;

    if (target <= source)
        return memcpy(to, from, count);
    while (count-- > 0)
        target[count] = source[count];
    return to;
}

void *memset(void *to, int byte, size_t count)
{
    char *target = to;

    while (count-- > 0)
        *target++ = byte;
    return to;
}

int memcmp(const void *left, const void *right, size_t count)
{
    const unsigned char *a = left;
    const unsigned char *b = right;

    for (size_t place = 0; place < count; place++)
        if (a[place] != b[place])
            return a[place] - b[place];
    return 0;
}

size_t strlen(const char *text)
{
    size_t length = 0;

    while (text[length] != 0)
        length++;
    return length;
}

int strncmp(const char *left, const char *right, size_t count)
{
    for (size_t place = 0; place < count; place++) {
        unsigned char a = left[place];
        unsigned char b = right[place];

        if (a != b || a == 0)
            return a - b;
    }
    return 0;
}

int strcmp(const char *left, const char *right)
{
    return strncmp(left, right, SIZE_MAX);
}

char *strchr(const char *text, int byte)
{
    for (; *text != 0; text++)
        if (*text == (char)byte)
            return (char *)text;
    return byte == 0 ? (char *)text : NULL;
}

static int is_digit(char byte)
{
    return '0' <= byte && byte <= '9';
}

int is_number(const char *text)
{
    if (*text == '-')
        text++;
    if (*text == 0)
        return 0;
    while (is_digit(*text))
        text++;
    return *text == 0;
}

int atoi(const char *text)
{
    int negative = *text == '-';
    unsigned value = 0;

    for (text += negative; is_digit(*text); text++)
        value = value * 10 + (*text - '0');
    return negative ? -value : value;
}
