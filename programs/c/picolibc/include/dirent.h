/* Folders, which the machine doesn't have: its files stand side by side, and no call of the kernel lists them. */
#ifndef _MACHINE_DIRENT_H
#define _MACHINE_DIRENT_H

#include <sys/types.h>

typedef struct folder DIR;

struct dirent {
    ino_t d_ino;
    unsigned char d_type;
    char d_name[16];
};

#ifdef __cplusplus
extern "C" {
#endif

DIR *opendir(const char *name);           /* NULL, and errno is ENOSYS */
struct dirent *readdir(DIR *folder);
int closedir(DIR *folder);

#ifdef __cplusplus
}
#endif

#endif
