/* What fstat and stat would tell of a file. The kernel has neither call: they answer -1, and write nothing. */
#ifndef KERNEL_STAT_H
#define KERNEL_STAT_H

#include "types.h"

enum { T_DIR = 1, T_FILE = 2, T_DEVICE = 3 };

struct stat {
    int dev;
    uint ino;
    short type;
    short nlink;
    uint64 size;
};

#endif
