/* Numbers under the names that sources in xv6's way have for them. */
#ifndef KERNEL_TYPES_H
#define KERNEL_TYPES_H

typedef unsigned char uchar;
typedef unsigned short ushort;
typedef unsigned int uint;

typedef unsigned char uint8;
typedef unsigned short uint16;
typedef unsigned int uint32;
typedef unsigned long uint64;

#endif
