/* Formatted output (print.c), and bytes and lines (lines.c). A stream is a descriptor, and nothing waits in a buffer
   between two calls. */
#ifndef STDIO_H
#define STDIO_H

#include <stdarg.h>
#include <stddef.h>

#define EOF (-1)

enum { stdin = 0, stdout = 1, stderr = 2 };

/* %d %u %x with l before them or not, %p, %s, %c and %%. A number between % and the letter is the least width: blanks
   stand before, zeros if it begins with 0, and blanks behind if it begins with '-'. They answer how many bytes were
   written, or -1 where a write was refused. */

int printf(const char *format, ...) __attribute__((format(printf, 1, 2)));
int dprintf(int descriptor, const char *format, ...) __attribute__((format(printf, 2, 3)));
int fprintf(int descriptor, const char *format, ...) __attribute__((format(printf, 2, 3)));

int putchar(int byte);                             /* the byte; EOF where the write is refused */
int puts(const char *text);                        /* with a line's end behind it */
int fputs(const char *text, int descriptor);
int getchar(void);                                 /* the next byte of the input; EOF at its end */
/* Put the next line into `line`, with its end and a zero byte behind it, at most `room` bytes. fgets answers NULL at the
   end of the input, and gets an empty line, as xv6's does. */
char *fgets(char *line, int room, int descriptor);
char *gets(char *line, int room);
int fflush(int descriptor);                        /* 0: there is nothing to write */
void perror(const char *text);                     /* the text, to the errors: the kernel doesn't say why it refuses */

#endif
