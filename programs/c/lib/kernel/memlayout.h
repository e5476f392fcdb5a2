/* Where memory lies, under the names that sources in xv6's way have for it. The last two pages below MAXVA are never a
   process's: a program that reads or writes there ends by a fault, as in xv6. */
#ifndef KERNEL_MEMLAYOUT_H
#define KERNEL_MEMLAYOUT_H

#include "riscv.h"

#define KERNBASE 0x80000000L                       /* where RAM begins */
#define TRAMPOLINE (MAXVA - PGSIZE)
#define TRAPFRAME (TRAMPOLINE - PGSIZE)

#endif
