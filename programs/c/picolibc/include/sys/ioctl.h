/* What devices are asked beside reads and writes: no device here has anything of the kind. */
#ifndef _MACHINE_SYS_IOCTL_H
#define _MACHINE_SYS_IOCTL_H

#ifdef __cplusplus
extern "C" {
#endif

int ioctl(int descriptor, unsigned long request, ...); /* -1, and errno is ENOTTY */

#ifdef __cplusplus
}
#endif

#endif
