/* Modes of open, with xv6's numbers. A file may only be read: open answers -1 to each other mode, but for the console. */
#ifndef KERNEL_FCNTL_H
#define KERNEL_FCNTL_H

enum { O_RDONLY = 0, O_WRONLY = 1, O_RDWR = 2, O_CREATE = 0x200, O_TRUNC = 0x400 };

#endif
