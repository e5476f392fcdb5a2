/* A child's status, as wait gives it here: what it has ended with, or -1 after a fault and after a kill. */
#ifndef SYS_WAIT_H
#define SYS_WAIT_H

#include <unistd.h>

#define WIFEXITED(status) ((status) != -1)
#define WEXITSTATUS(status) (status)
#define WIFSIGNALED(status) ((status) == -1)

#endif
