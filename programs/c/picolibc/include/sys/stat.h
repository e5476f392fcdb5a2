/* What picolibc's <sys/stat.h> leaves out. */
#include_next <sys/stat.h>

#ifndef _MACHINE_SYS_STAT_H
#define _MACHINE_SYS_STAT_H

#ifdef __cplusplus
extern "C" {
#endif

int lstat(const char *name, struct stat *status);

#ifdef __cplusplus
}
#endif

#endif
