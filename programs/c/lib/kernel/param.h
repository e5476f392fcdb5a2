/* The kernel's limits, under the names that sources in xv6's way have for them. Some differ from xv6's. */
#ifndef KERNEL_PARAM_H
#define KERNEL_PARAM_H

#include "../kernel_limits.h"

enum {
    NPROC = PROCESSES,    /* processes at a time */
    NCPU = 1,
    NOFILE = DESCRIPTORS, /* descriptors of a process */
    MAXARG = TEXTS + 1,   /* texts that exec takes, and the null pointer behind them */
    MAXPATH = NAME_BYTES, /* bytes of a name, its zero byte too */
    USERSTACK = 1,        /* pages of a process's stack */
};

#endif
