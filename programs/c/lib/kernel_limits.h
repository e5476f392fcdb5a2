/* The limits of the kernel, as programs meet them. The test suite reads them from here alone. */
#ifndef KERNEL_LIMITS_H
#define KERNEL_LIMITS_H

enum {
    PROCESSES = 64,        /* processes at a time, zombies too */
    DESCRIPTORS = 32,      /* descriptors of a process: 0 to DESCRIPTORS - 1 */
    PIPE_BYTES = 2048,     /* bytes that wait in a pipe */
    SEND_BYTES = 32,       /* written bytes that wait to be sent to the console */
    NAME_BYTES = 128,      /* bytes of a name, its zero byte too, that open and exec read */
    TEXTS = 31,            /* texts that exec takes */
    TEXT_BYTES = 4096,     /* bytes of these texts, their zero bytes too */
    PAGE_BYTES = 4096,     /* bytes of a page */
};

/* The bytes of a process's memory at most. */
#define MEMORY_BYTES ((1L << 38) - 2 * PAGE_BYTES)

#endif
