/* Memory (heap.c), numbers in texts (texts.c), and the end of a process. */
#ifndef STDLIB_H
#define STDLIB_H

#include <stddef.h>

#define EXIT_SUCCESS 0
#define EXIT_FAILURE 1

void *malloc(size_t bytes);                        /* at a multiple of 16; NULL where there is none */
void *calloc(size_t count, size_t bytes);          /* the same, of zeros */
void *realloc(void *bytes, size_t new_bytes);      /* the first bytes are those of before; NULL changes nothing */
void free(void *bytes);                            /* NULL does nothing */
int atoi(const char *text);
_Noreturn void exit(int status);

#endif
