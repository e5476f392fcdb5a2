/* Modes of open. */
#ifndef FCNTL_H
#define FCNTL_H

#include <unistd.h>

enum { O_RDONLY = TO_READ, O_WRONLY = TO_WRITE, O_RDWR = TO_BOTH };

#endif
