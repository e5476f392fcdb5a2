/* Formatted output. What is printed is gathered, and written in pieces of at most 128 bytes. */
#include "user.h"

struct output {
    int descriptor;
    int used;        /* how many bytes wait to be written */
    int written;     /* how many were written; -1 once a write was refused */
    char bytes[128];
};

/* What stands between % and the letter. */
struct form {
    int width;
    int is_left;     /* blanks go behind */
    char fill;
    int is_long;
};

static void flush(struct output *output)
{
    if (output->written >= 0 && output->used > 0) {
        int count = write(output->descriptor, output->bytes, output->used);

        output->written = count < 0 ? -1 : output->written + count;
    }
    output->used = 0;
}

static void put(struct output *output, char byte)
{
    if (output->used == sizeof output->bytes)
        flush(output);
    output->bytes[output->used++] = byte;
}

static void put_fill(struct output *output, char byte, int count)
{
    for (; count > 0; count--)
        put(output, byte);
}

static void put_bytes(struct output *output, const char *bytes, int count)
{
    for (int place = 0; place < count; place++)
        put(output, bytes[place]);
}

/* A text, and before its sign (which may be empty) or behind it what makes it as wide as the form says. */
static void put_padded(struct output *output, const struct form *form, const char *sign, const char *text, int length)
{
    int missing = form->width - length - (int)strlen(sign);

    if (!form->is_left && form->fill == ' ')
        put_fill(output, ' ', missing);
    put_bytes(output, sign, strlen(sign));
    if (!form->is_left && form->fill == '0')
        put_fill(output, '0', missing);
    put_bytes(output, text, length);
    if (form->is_left)
        put_fill(output, ' ', missing);
}

static void put_number(struct output *output, const struct form *form, const char *sign, uint64_t value, unsigned base)
{
    char digits[20];
    int first = sizeof digits;

    do {
        uint64_t rest = value / base;

        digits[--first] = "0123456789abcdef"[value - rest * base];
        value = rest;
    } while (value != 0);
    put_padded(output, form, sign, digits + first, sizeof digits - first);
}

static void put_signed(struct output *output, const struct form *form, int64_t value)
{
    if (value < 0)
        put_number(output, form, "-", -(uint64_t)value, 10);
    else
        put_number(output, form, "", value, 10);
}

/* Reads what stands behind a %, and answers the place of the letter. */
static const char *read_form(const char *format, struct form *form)
{
    *form = (struct form){.fill = ' '};
    if (*format == '-') {
        form->is_left = 1;
        format++;
    } else if (*format == '0') {
        form->fill = '0';
        format++;
    }
    for (; '0' <= *format && *format <= '9'; format++)
        form->width = form->width * 10 + (*format - '0');
    for (; *format == 'l'; format++)
        form->is_long = 1;
    return format;
}

static void put_text(struct output *output, const struct form *form, const char *text)
{
    if (text == NULL)
        text = "(null)";
    put_padded(output, form, "", text, strlen(text));
}

static void put_argument(struct output *output, const struct form *form, char letter, va_list *arguments)
{
    char byte;

    switch (letter) {
    case 'd':
        put_signed(output, form, form->is_long ? va_arg(*arguments, long) : va_arg(*arguments, int));
        break;
    case 'u':
    case 'x':
        put_number(output, form, "", form->is_long ? va_arg(*arguments, unsigned long) : va_arg(*arguments, unsigned),
                   letter == 'u' ? 10 : 16);
        break;
    case 'p':
        put_number(output, form, "0x", (uintptr_t)va_arg(*arguments, void *), 16);
        break;
    case 's':
        put_text(output, form, va_arg(*arguments, const char *));
        break;
    case 'c':
        byte = va_arg(*arguments, int);
        put_padded(output, form, "", &byte, 1);
        break;
    default:
        put(output, letter);
    }
}

static int print_to(int descriptor, const char *format, va_list *arguments)
{
    struct output output = {.descriptor = descriptor};

    while (*format != 0) {
        struct form form;

        if (*format != '%') {
            put(&output, *format++);
            continue;
        }
        format = read_form(format + 1, &form);
        if (*format != 0)
            put_argument(&output, &form, *format++, arguments);
    }
    flush(&output);
    return output.written;
}

int dprintf(int descriptor, const char *format, ...)
{
    va_list arguments;

    va_start(arguments, format);
    int written = print_to(descriptor, format, &arguments);
    va_end(arguments);
    return written;
}

int fprintf(int descriptor, const char *format, ...) __attribute__((alias("dprintf")));

int printf(const char *format, ...)
{
    va_list arguments;

    va_start(arguments, format);
    int written = print_to(OUTPUT, format, &arguments);
    va_end(arguments);
    return written;
}

void fail(const char *format, ...)
{
    va_list arguments;

    va_start(arguments, format);
    print_to(ERRORS, format, &arguments);
    va_end(arguments);
    exit(1);
}
