/* What picolibc's <stdio.h> leaves out. */
#include_next <stdio.h>

#ifndef _MACHINE_STDIO_H
#define _MACHINE_STDIO_H

#ifndef FOPEN_MAX
#define FOPEN_MAX 32 /* a process has 32 descriptors */
#endif
#ifndef FILENAME_MAX
#define FILENAME_MAX 128
#endif

#ifdef __cplusplus
extern "C" {
#endif

FILE *popen(const char *command, const char *mode);
int pclose(FILE *stream);

#ifdef __cplusplus
}
#endif

#endif
